// Empty slices: with a length of 0, a function of include/rbu.h does the same for NULL as for any other pointer, and writes nothing
// there. Every function that takes a slice is run with each choice of its slices empty, the others as they are with an area file.
//
//     null FILE
//
// FILE is Area A's. It prints how many calls it has compared, and fails at a difference and where a result is not the one it must be.
#include <stdio.h>
#include <string.h>

#include "rbu.h"

enum { CALLS = 2, ITEMS = CALLS * RBU_CALL_ITEMS };

static uint8_t file[RBU_FILE_SIZE];
// enter of train 1 on route 1 at 250, a decimetre long, and a request, which is not due
static const uint16_t script[ITEMS] = {[0] = 1, [1] = 1, [2] = 1, [3] = 250, [4] = 1, [RBU_CALL_ITEMS] = 4};
static const uint16_t wishes[RBU_TRAINS] = {300};

// What an empty slice that is not NULL points at; no byte of it may change.
static union {
    uint8_t bytes[64];
    uint16_t words[32];
} elsewhere;

// What a function gives: what it returns, what it writes through pointers, into slices and into a record.
struct result {
    size_t returned;
    uint32_t told[2];
    uint8_t answers[CALLS + 1];
    uint8_t state[RBU_STATE_SIZE];
    uint8_t buffer[RBU_FILE_SIZE];
    struct rbu_area area;
};

// The slices of a run: which of them are empty, and whether an empty one is NULL.
enum { FILE_EMPTY = 1, SCRIPT_EMPTY = 2, ANSWERS_EMPTY = 4, STATE_EMPTY = 8, BUFFER_EMPTY = 16, ALL_OF_A_RUN = 15 };
static int empty;
static bool null;

static size_t length(int slice, size_t whole) { return empty & slice ? 0 : whole; }
static uint8_t *bytes(int slice, uint8_t *whole) { return !(empty & slice) ? whole : null ? NULL : elsewhere.bytes; }
static const uint16_t *words(int slice, const uint16_t *whole) { return !(empty & slice) ? whole : null ? NULL : elsewhere.words; }

#define OF_FILE bytes(FILE_EMPTY, file), length(FILE_EMPTY, sizeof file)
#define OF_SCRIPT words(SCRIPT_EMPTY, script), length(SCRIPT_EMPTY, ITEMS)
#define OF_WISHES words(SCRIPT_EMPTY, wishes), length(SCRIPT_EMPTY, RBU_TRAINS)
#define OF_ANSWERS bytes(ANSWERS_EMPTY, r->answers), length(ANSWERS_EMPTY, sizeof r->answers)
#define OF_STATE bytes(STATE_EMPTY, r->state), length(STATE_EMPTY, sizeof r->state)
#define OF_BUFFER bytes(BUFFER_EMPTY, r->buffer), length(BUFFER_EMPTY, sizeof r->buffer)

static void start(struct result *r) {
    uint16_t place = 99;
    r->returned = rbu_start(&r->area, OF_FILE, &place);
    r->told[0] = place;
}
static void speed(struct result *r) {
    uint16_t place;
    rbu_start(&r->area, file, sizeof file, &place);
    r->returned = rbu_speed(&r->area, OF_WISHES);
}
static void write_area(struct result *r) {
    uint16_t place;
    rbu_start(&r->area, file, sizeof file, &place);
    r->returned = rbu_write(&r->area, OF_BUFFER);
}
static void load(struct result *r) {
    uint16_t place = 99;
    r->returned = rbu_load(OF_FILE, &place);
    r->told[0] = place;
}
static void view(struct result *r) {
    uint32_t count = 99;
    rbu_view(OF_FILE, 1, &r->told[0], &count);
    r->returned = count;
}
static void run_file(struct result *r) {
    uint8_t number = 99;
    uint16_t place = 99;
    r->returned = rbu_run_file(OF_FILE, OF_SCRIPT, OF_ANSWERS, OF_STATE, &number, &place);
    r->told[0] = number;
    r->told[1] = place;
}
static void run_record(struct result *r) {
    memset(r->state, 0, sizeof r->state);
    r->returned = rbu_run_record(OF_FILE, OF_SCRIPT, OF_ANSWERS, OF_STATE);
}
static void sound(struct result *r) {
    memset(r->state, 0, sizeof r->state);
    r->returned = rbu_sound(OF_FILE, OF_STATE);
}
static void report_record(struct result *r) {
    uint8_t allocated = 99, free_segment = 99;
    memset(r->state, 0, sizeof r->state);
    r->returned = rbu_report_record(OF_FILE, OF_STATE, &allocated, &free_segment);
    r->told[0] = allocated;
    r->told[1] = free_segment;
}
static void write_record(struct result *r) {
    memset(r->state, 0, sizeof r->state);
    r->returned = rbu_write_record(OF_FILE, OF_STATE, OF_BUFFER);
}

// Each function with its slices, those of them that matter, what it must return where one of these is empty and where none is, and
// where a certain one of them alone is empty, if that is something else. Of the view, which returns nothing, this is the count.
static const struct {
    const char *name;
    void (*run)(struct result *);
    int slices, matter;
    size_t empty, whole;
    int alone;
    size_t empty_alone;
} functions[] = {
    {"rbu_start", start, FILE_EMPTY, FILE_EMPTY, RBU_ANSWER_SIZE, RBU_ANSWER_DONE, 0, 0},
    {"rbu_speed", speed, SCRIPT_EMPTY, SCRIPT_EMPTY, RBU_ANSWER_WISHES, RBU_ANSWER_DONE, 0, 0},
    {"rbu_write", write_area, BUFFER_EMPTY, BUFFER_EMPTY, RBU_ANSWER_BUFFER, RBU_ANSWER_DONE, 0, 0},
    {"rbu_load", load, FILE_EMPTY, FILE_EMPTY, RBU_ANSWER_SIZE, RBU_ANSWER_DONE, 0, 0},
    {"rbu_view", view, FILE_EMPTY, FILE_EMPTY, 0, 2, 0, 0},
    {"rbu_run_file", run_file, ALL_OF_A_RUN, FILE_EMPTY | SCRIPT_EMPTY | ANSWERS_EMPTY, 0, CALLS, 0, 0},
    {"rbu_run_record", run_record, ALL_OF_A_RUN, SCRIPT_EMPTY | ANSWERS_EMPTY, 0, CALLS, 0, 0},
    {"rbu_sound", sound, FILE_EMPTY | STATE_EMPTY, FILE_EMPTY, false, true, 0, 0},
    {"rbu_report_record", report_record, FILE_EMPTY | STATE_EMPTY, FILE_EMPTY, RBU_ANSWER_UNSOUND, RBU_ANSWER_DONE, 0, 0},
    {"rbu_write_record", write_record, FILE_EMPTY | STATE_EMPTY | BUFFER_EMPTY, FILE_EMPTY | BUFFER_EMPTY, RBU_ANSWER_UNSOUND,
     RBU_ANSWER_DONE, BUFFER_EMPTY, RBU_ANSWER_BUFFER},
};

#define SAME(field) (memcmp(&a->field, &b->field, sizeof a->field) == 0)

// Field by field, since a call may leave anything between them.
static bool same_area(const struct rbu_area *a, const struct rbu_area *b) {
    for (int t = 0; t < RBU_TRAINS; t++) {
        const struct rbu_train *one = &a->trains[t], *other = &b->trains[t];
        if (one->route != other->route || one->place != other->place || one->position != other->position) return false;
        if (one->speed != other->speed || one->asks != other->asks || one->count != other->count) return false;
        if (one->length != other->length) return false;
    }
    return SAME(tables.segments) && SAME(tables.routes) && SAME(tables.gmax) && SAME(tables.braking) && SAME(tables.margin) &&
           SAME(tables.lengths) && SAME(tables.limits) && SAME(tables.next) && SAME(tables.previous) && SAME(tables.flags) &&
           SAME(tables.routebytes) && SAME(allocations) && SAME(due);
}

static bool same(const struct result *a, const struct result *b) {
    return SAME(returned) && SAME(told) && SAME(answers) && SAME(state) && SAME(buffer) && same_area(&a->area, &b->area);
}

static bool is_untouched(void) {
    for (size_t i = 0; i < sizeof elsewhere.bytes; i++) {
        if (elsewhere.bytes[i] != 77) return false;
    }
    return true;
}

int main(int count_of_names, char **names) {
    static struct result with_pointer, with_null;
    FILE *input = count_of_names == 2 ? fopen(names[1], "rb") : NULL;
    if (input == NULL || fread(file, 1, sizeof file, input) != sizeof file) {
        fprintf(stderr, "null: an area file is to be named\n");
        return 1;
    }
    fclose(input);
    memset(&elsewhere, 77, sizeof elsewhere);
    unsigned compared = 0;
    for (size_t k = 0; k < sizeof functions / sizeof *functions; k++) {
        for (empty = 0; empty <= functions[k].slices; empty++) {
            if (empty & ~functions[k].slices) continue;
            memset(&with_pointer, 99, sizeof with_pointer);
            memset(&with_null, 99, sizeof with_null);
            null = false;
            functions[k].run(&with_pointer);
            null = true;
            functions[k].run(&with_null);
            int missing = empty & functions[k].matter;
            size_t returns = missing == 0                    ? functions[k].whole
                             : missing == functions[k].alone ? functions[k].empty_alone
                                                             : functions[k].empty;
            if (!same(&with_pointer, &with_null) || with_null.returned != returns || !is_untouched()) {
                printf("null: %s with slices %d empty: returns %zu and, with NULL, %zu; it must be %zu, and all else the same\n",
                       functions[k].name, empty, with_pointer.returned, with_null.returned, returns);
                return 1;
            }
            compared++;
        }
    }
    printf("null: %u calls compared\n", compared);
    return 0;
}

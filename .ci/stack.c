// How much stack each function of include/rbu.h takes, measured: it runs on a stack of its own that was painted before, and the
// paint that is left tells how deep it went. Each is run with every file that is named, with lists that have every call done and
// every refusal, and with records that are unsound.
//
//     stack FILE ..
//
// It prints the bytes of each function and the figure for it in rbu.h, and fails where a figure has not a quarter to spare, where
// it is far too great for all that it is for, and where the inputs miss an answer, since it would then have measured less than there is.
#define _XOPEN_SOURCE 700
#include <stdio.h>
#include <string.h>
#include <ucontext.h>

#include "rbu.h"

enum { STACK = 256 * 1024, CYCLES = 300, MOST_CALLS = 64 + CYCLES * 32, ANSWERS = 24, KINDS = 7 };

// ---- what the functions are handed, and what they give

static uint8_t file[RBU_FILE_SIZE + 1];
static size_t file_length;
static uint16_t script[MOST_CALLS * RBU_CALL_ITEMS];
static size_t calls;
static uint8_t answers[MOST_CALLS];
static size_t answers_length;
static uint8_t state[RBU_STATE_SIZE];
static size_t state_length;
static uint16_t route;
static size_t ran;
static uint8_t number, allocated, free_segment;
static uint16_t place;
static uint32_t start, count;
static bool sound_record;
static uint8_t buffer[RBU_FILE_SIZE + 1];
static size_t buffer_length;
// a kept record, before a call and after it, and the call's record
static struct rbu_area before, kept;
static const uint16_t *items;

static void nothing(void) {}
static void start_area(void) { number = rbu_start(&kept, file, file_length, &place); }
static void enter(void) {
    kept = before;
    number = rbu_enter(&kept, items[1], items[2], items[3], items[4]);
}
static void leave(void) {
    kept = before;
    number = rbu_leave(&kept, items[1]);
}
static void speed(void) {
    kept = before;
    number = rbu_speed(&kept, items + 7, items[6]);
}
static void request(void) {
    kept = before;
    number = rbu_request(&kept);
}
static void grant(void) {
    kept = before;
    number = rbu_grant(&kept);
}
static void position(void) {
    kept = before;
    number = rbu_position(&kept);
}
static void report(void) { number = rbu_report(&kept, &allocated, &free_segment); }
static void is_sound(void) { sound_record = rbu_is_sound(&kept); }
static void write_area(void) { number = rbu_write(&kept, buffer, buffer_length); }
static void load(void) { number = rbu_load(file, file_length, &place); }
static void view(void) { rbu_view(file, file_length, route, &start, &count); }
static void run_file(void) {
    ran = rbu_run_file(file, file_length, script, calls * RBU_CALL_ITEMS, answers, answers_length, state, state_length, &number, &place);
}
static void run_record(void) {
    ran = rbu_run_record(file, file_length, script, calls * RBU_CALL_ITEMS, answers, answers_length, state, state_length);
}
static void sound(void) { sound_record = rbu_sound(file, file_length, state, state_length); }
static void report_record(void) {
    number = rbu_report_record(file, file_length, state, state_length, &allocated, &free_segment);
}
static void write_record(void) {
    number = rbu_write_record(file, file_length, state, state_length, buffer, buffer_length);
}
static void braking_distance(void) { start = rbu_braking_distance(1, RBU_FASTEST); }

// ---- the painted stack

static unsigned char stack[STACK];

// How deep a function goes below the stack's top, on a stack painted with one colour.
static size_t depth(void (*function)(void), int colour) {
    static ucontext_t here, there;
    memset(stack, colour, sizeof stack);
    if (getcontext(&there) != 0) return STACK;
    there.uc_stack.ss_sp = stack;
    there.uc_stack.ss_size = sizeof stack;
    there.uc_link = &here;
    makecontext(&there, function, 0);
    if (swapcontext(&here, &there) != 0) return STACK;
    size_t left = 0;
    while (left < STACK && stack[left] == colour) left++;
    return STACK - left;
}

// Two colours, since what is written may be of one. What the switch of stacks takes itself is not counted.
static size_t bytes(void (*function)(void)) {
    static const int colours[] = {0xa5, 0x5a};
    size_t most = 0;
    for (int i = 0; i < 2; i++) {
        size_t took = depth(function, colours[i]) - depth(nothing, colours[i]);
        if (most < took) most = took;
    }
    return most;
}

// ---- the functions, and the figures of rbu.h

// The six calls have the numbers of their kinds. Functions with one figure stand together.
enum {
    START,
    ENTER,
    LEAVE,
    SPEED,
    REQUEST,
    GRANT,
    POSITION,
    REPORT,
    IS_SOUND,
    WRITE,
    LOAD,
    VIEW,
    RUN_FILE,
    RUN_RECORD,
    SOUND,
    REPORT_RECORD,
    WRITE_RECORD,
    BRAKING_DISTANCE,
    FUNCTIONS
};

#define ROW(function, run, FIGURE) {#function, "RBU_STACK_" #FIGURE, run, RBU_STACK_##FIGURE, 0}

static struct {
    const char *name;
    const char *figure_name;
    void (*function)(void);
    size_t figure;
    size_t most;
} functions[FUNCTIONS] = {
    [START] = ROW(rbu_start, start_area, START),
    [ENTER] = ROW(rbu_enter, enter, CALL),
    [LEAVE] = ROW(rbu_leave, leave, CALL),
    [SPEED] = ROW(rbu_speed, speed, CALL),
    [REQUEST] = ROW(rbu_request, request, CALL),
    [GRANT] = ROW(rbu_grant, grant, CALL),
    [POSITION] = ROW(rbu_position, position, CALL),
    [REPORT] = ROW(rbu_report, report, CALL),
    [IS_SOUND] = ROW(rbu_is_sound, is_sound, CALL),
    [WRITE] = ROW(rbu_write, write_area, WRITE),
    [LOAD] = ROW(rbu_load, load, LOAD),
    [VIEW] = ROW(rbu_view, view, VIEW),
    [RUN_FILE] = ROW(rbu_run_file, run_file, RUN_FILE),
    [RUN_RECORD] = ROW(rbu_run_record, run_record, RUN_RECORD),
    [SOUND] = ROW(rbu_sound, sound, SOUND),
    [REPORT_RECORD] = ROW(rbu_report_record, report_record, REPORT_RECORD),
    [WRITE_RECORD] = ROW(rbu_write_record, write_record, WRITE_RECORD),
    [BRAKING_DISTANCE] = ROW(rbu_braking_distance, braking_distance, BRAKING_DISTANCE),
};

// The first run is not measured: in it the C library finds its own functions, and takes stack for that once.
static void measure(int k) {
    static bool seen[FUNCTIONS];
    if (!seen[k]) functions[k].function();
    seen[k] = true;
    size_t took = bytes(functions[k].function);
    if (functions[k].most < took) functions[k].most = took;
}

// A quarter more than was measured, in whole KB.
static size_t figure_for(size_t measured) { return (measured * 5 / 4 + 1023) / 1024 * 1024; }

// ---- the lists

static void call(uint16_t kind, uint16_t train, uint16_t on_route, uint16_t speed, uint16_t length, uint16_t wishes) {
    uint16_t *items = script + calls++ * RBU_CALL_ITEMS;
    memset(items, 0, RBU_CALL_ITEMS * sizeof *items);
    items[0] = kind;
    items[1] = train;
    items[2] = on_route;
    items[3] = speed;
    items[4] = length;
    items[6] = wishes;
    for (int i = 7; i < RBU_CALL_ITEMS; i++) items[i] = RBU_FASTEST;
}

// Every train tries to enter, cycles follow, and in each every train tries to leave; among them what must be refused.
static void write_script(void) {
    calls = 0;
    call(1, 0, 1, 0, 1, 0);
    call(1, 1, 0, 0, 1, 0);
    call(1, 1, 31, 0, 1, 0);
    call(1, 1, 1, 0, 0, 0);
    call(1, 1, 1, 0, RBU_LONGEST_TRAIN + 1, 0);
    call(1, 1, 1, RBU_FASTEST + 1, 1, 0);
    // the longest first: its rear lies furthest back
    for (uint16_t t = 1; t <= 25; t++) call(1, t, t, 0, (uint16_t)(RBU_LONGEST_TRAIN / t), 0);
    call(1, 1, 1, 0, 1, 0);
    call(6, 0, 0, 0, 0, 0);
    call(3, 0, 0, 0, 0, 25);
    for (int cycle = 0; cycle < CYCLES; cycle++) {
        call(3, 0, 0, 0, 0, 24);
        for (uint16_t kind = 4; kind <= 6; kind++) call(kind, 0, 0, 0, 0, 0);
        for (uint16_t t = 1; t <= 25; t++) call(2, t, 0, 0, 0, 0);
    }
}

// ---- what was met: each answer by its number, and each of the six calls answered done

static bool met[ANSWERS], done[KINDS];
static bool met_kept[ANSWERS], done_kept[KINDS];

static void note_answers(void) {
    for (size_t k = 0; k < ran; k++) {
        met[answers[k]] = true;
        if (answers[k] == 0) done[script[k * RBU_CALL_ITEMS]] = true;
    }
}

// Of the files that are accepted: whether one has the header's greatest `gmax`, and one its greatest length, and whether one is beyond.
static bool met_fastest, met_longest, beyond;
// Of the trains that enter: whether one has the header's greatest length, and whether one is longer.
static bool met_longest_train, longer_train;

static void note_bounds(void) {
    const struct rbu_tables *tables = &kept.tables;
    met_fastest |= tables->gmax == RBU_FASTEST;
    beyond |= tables->gmax > RBU_FASTEST || tables->margin > RBU_LONGEST;
    for (int s = 0; s < RBU_SEGMENTS; s++) {
        met_longest |= tables->lengths[s] == RBU_LONGEST;
        beyond |= tables->lengths[s] > RBU_LONGEST;
    }
}

// A write into a buffer of a file's size, and into others; what was met of its answers.
static bool met_write[ANSWERS], met_write_kept[ANSWERS];

static void measure_writes(int k, bool *answered) {
    static const size_t lengths[] = {RBU_FILE_SIZE, RBU_FILE_SIZE + 1, 0};
    for (int i = 0; i < 3; i++) {
        buffer_length = lengths[i];
        measure(k);
        answered[number] = true;
    }
}

// Calls of the script on the kept record, one by one: measured are the first two of each kind with each answer.
static void run_kept(size_t count_of_calls) {
    unsigned seen[KINDS][ANSWERS] = {{0}};
    for (size_t k = 0; k < count_of_calls; k++) {
        items = script + k * RBU_CALL_ITEMS;
        before = kept;
        functions[items[0]].function();
        met_kept[number] = true;
        if (number == 0) done_kept[items[0]] = true;
        for (int t = 0; t < RBU_TRAINS; t++) {
            met_longest_train |= kept.trains[t].length == RBU_LONGEST_TRAIN;
            longer_train |= kept.trains[t].length > RBU_LONGEST_TRAIN;
        }
        if (++seen[items[0]][number] > 2) continue;
        measure(items[0]);
        measure(REPORT);
        measure(IS_SOUND);
        measure_writes(WRITE, met_write_kept);
    }
}

static void run_all(void) {
    measure(START);
    met_kept[number] = true;
    if (number == RBU_ANSWER_DONE) note_bounds();
    run_kept(calls);
    // another step due, and none
    for (int due = 0; due <= 4; due++) {
        kept.due = (uint8_t)due;
        run_kept(64);
    }
    measure(LOAD);
    met[number] = true;
    for (route = 0; route <= 31; route += 1) measure(VIEW);
    answers_length = sizeof answers;
    state_length = sizeof state;
    measure(RUN_FILE);
    note_answers();
    // a record that the list has led to, the same with another step due, one with no step due, and one cut short
    measure(SOUND);
    measure(REPORT_RECORD);
    measure_writes(WRITE_RECORD, met_write);
    for (int due = 0; due <= 4; due++) {
        state[0] = (uint8_t)due;
        measure(SOUND);
        measure(REPORT_RECORD);
        measure_writes(WRITE_RECORD, met_write);
    }
    measure(RUN_RECORD);
    note_answers();
    memset(state, 0, sizeof state);
    measure(RUN_RECORD);
    note_answers();
    answers_length = state_length = 1;
    measure(RUN_FILE);
    measure(RUN_RECORD);
    measure(SOUND);
    measure(REPORT_RECORD);
    measure_writes(WRITE_RECORD, met_write);
}

int main(int count_of_names, char **names) {
    int failed = 0;
    write_script();
    measure(BRAKING_DISTANCE);
    for (int i = 1; i < count_of_names; i++) {
        FILE *input = fopen(names[i], "rb");
        if (input == NULL) {
            fprintf(stderr, "stack: %s cannot be read\n", names[i]);
            return 1;
        }
        file_length = fread(file, 1, sizeof file, input);
        fclose(input);
        run_all();
    }
    for (int n = 0; n < ANSWERS; n++) {
        if ((met[n] && met_kept[n]) || n == RBU_ANSWER_BUFFER) continue;
        printf("stack: no input is answered %d%s\n", n, met[n] ? " on a kept record" : "");
        failed = 1;
    }
    for (int kind = 1; kind < KINDS; kind++) {
        if (done[kind] && done_kept[kind]) continue;
        printf("stack: no call of kind %d is answered done%s\n", kind, done[kind] ? " on a kept record" : "");
        failed = 1;
    }
    static const int of_writes[] = {RBU_ANSWER_DONE, RBU_ANSWER_UNSOUND, RBU_ANSWER_BUFFER};
    for (int i = 0; i < 3; i++) {
        if (met_write[of_writes[i]] && met_write_kept[of_writes[i]]) continue;
        printf("stack: no write is answered %d%s\n", of_writes[i], met_write[of_writes[i]] ? " on a kept record" : "");
        failed = 1;
    }
    if (!met_fastest || !met_longest || beyond) {
        printf("stack: the accepted files do not go up to RBU_FASTEST and RBU_LONGEST, and no further\n");
        failed = 1;
    }
    if (!met_longest_train || longer_train) {
        printf("stack: the trains that enter do not go up to RBU_LONGEST_TRAIN, and no further\n");
        failed = 1;
    }
    size_t most = 0;
    for (int k = 0; k < FUNCTIONS; k++) {
        printf("stack: %s takes %zu bytes; rbu.h says %zu\n", functions[k].name, functions[k].most, functions[k].figure);
        if (most < functions[k].most) most = functions[k].most;
        // the figure is held to the most of those that it is for
        if (k + 1 < FUNCTIONS && strcmp(functions[k].figure_name, functions[k + 1].figure_name) == 0) continue;
        size_t figure = functions[k].figure, fit = figure_for(most);
        if (most * 5 / 4 > figure || figure > fit + 1024) {
            printf("stack: rbu.h should say: #define %s %zu\n", functions[k].figure_name, fit);
            failed = 1;
        }
        most = 0;
    }
    return failed;
}

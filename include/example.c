// How a unit's program uses the core: one record, started with an area file, and then calls as they come, each by its own function.
// File and calls come from standard input, a call as a record of 64 bytes (docs/FORMATS.md). Standard output has load's answer, the number
// of each call's answer, and the state as `rbu run` prints it; each refusal is named on standard error. After the calls the area file is
// written back and held to the one that was read; where a file is named, it goes there. The exit status is 1 where the file is refused,
// where a call is cut short or of no known kind, where the input cannot be read to its end, where the file cannot be written back, and
// where standard output cannot be written.
//
//     make
//     cc -Iinclude include/example.c target/staticlib/librbu.a -o target/example
//     (target/rbu make docs/areas/area_a.area; target/rbu script docs/scenarios/merge.txt) | target/example target/back
#include <stdio.h>
#include <string.h>

#include "rbu.h"

// The unit's record. It is read here, and only the functions of rbu.h write it.
static struct rbu_area area;

// The word for an answer (docs/FORMATS.md). The compiler warns where the header has one more.
static const char *word(enum rbu_answer answer) {
    switch (answer) {
    case RBU_ANSWER_DONE: return "done";
    case RBU_ANSWER_SIZE: return "size";
    case RBU_ANSWER_DAMAGED: return "damaged";
    case RBU_ANSWER_MISFILED: return "misfiled";
    case RBU_ANSWER_HEADER: return "header";
    case RBU_ANSWER_MARGIN: return "margin";
    case RBU_ANSWER_SEGMENT: return "segment";
    case RBU_ANSWER_JOINT: return "joint";
    case RBU_ANSWER_ORDER: return "order";
    case RBU_ANSWER_DROP: return "drop";
    case RBU_ANSWER_ROUTE: return "route";
    case RBU_ANSWER_UNSOUND: return "unsound";
    case RBU_ANSWER_TURN: return "turn";
    case RBU_ANSWER_TRAIN: return "train";
    case RBU_ANSWER_ALREADY_ON: return "already on";
    case RBU_ANSWER_NOT_ON: return "not on";
    case RBU_ANSWER_ROUTE_NUMBER: return "route number";
    case RBU_ANSWER_NO_ENTRY: return "no entry";
    case RBU_ANSWER_TAKEN: return "taken";
    case RBU_ANSWER_TOO_FAST: return "too fast";
    case RBU_ANSWER_NO_EXIT: return "no exit";
    case RBU_ANSWER_WISHES: return "wishes";
    case RBU_ANSWER_BUFFER: return "buffer";
    case RBU_ANSWER_LENGTH: return "length";
    }
    return "no such answer";
}

// ---- a call as it comes in: its kind, and the items of its record that it uses

enum { ENTER = 1, LEAVE = 2, SPEED = 3, REQUEST = 4, GRANT = 5, POSITION = 6 };
enum { KIND = 0, OF_TRAIN = 1, ON_ROUTE = 2, AT_SPEED = 3, OF_LENGTH = 4, WISHES = 6, FIRST_WISH = 7 };

enum next { A_CALL, NO_CALL, CUT_SHORT };

// Reads the next record. Its items are little-endian, whatever the machine is.
static enum next next_call(uint16_t items[RBU_CALL_ITEMS]) {
    uint8_t bytes[2 * RBU_CALL_ITEMS];
    size_t size = fread(bytes, 1, sizeof bytes, stdin);
    if (size < sizeof bytes) return size == 0 ? NO_CALL : CUT_SHORT;
    for (int i = 0; i < RBU_CALL_ITEMS; i++) items[i] = (uint16_t)(bytes[2 * i] | bytes[2 * i + 1] << 8);
    return A_CALL;
}

static bool is_of_a_kind(const uint16_t *items) { return ENTER <= items[KIND] && items[KIND] <= POSITION; }

// A record has room for 25 wishes.
static size_t wishes_of(const uint16_t *items) {
    size_t room = RBU_CALL_ITEMS - FIRST_WISH;
    return items[WISHES] < room ? items[WISHES] : room;
}

static uint8_t run(const uint16_t *items) {
    switch (items[KIND]) {
    case ENTER: return rbu_enter(&area, items[OF_TRAIN], items[ON_ROUTE], items[AT_SPEED], items[OF_LENGTH]);
    case LEAVE: return rbu_leave(&area, items[OF_TRAIN]);
    case SPEED: return rbu_speed(&area, items + FIRST_WISH, wishes_of(items));
    case REQUEST: return rbu_request(&area);
    case GRANT: return rbu_grant(&area);
    default: return rbu_position(&area);
    }
}

static void name_refusal(unsigned long call, const uint16_t *items, uint8_t number) {
    fprintf(stderr, "call %lu: ", call);
    switch (items[KIND]) {
    case ENTER:
        fprintf(stderr, "enter %u %u %u %u", items[OF_TRAIN], items[ON_ROUTE], items[AT_SPEED], items[OF_LENGTH]);
        break;
    case LEAVE: fprintf(stderr, "leave %u", items[OF_TRAIN]); break;
    case SPEED: fprintf(stderr, "speed with %u wishes", (unsigned)wishes_of(items)); break;
    case REQUEST: fprintf(stderr, "request"); break;
    case GRANT: fprintf(stderr, "grant"); break;
    default: fprintf(stderr, "position"); break;
    }
    fprintf(stderr, ": refused, %u %s\n", number, word((enum rbu_answer)number));
}

// ---- where everything stands

static void print_state(void) {
    printf("due %u\n", area.due);
    for (int t = 1; t <= RBU_TRAINS; t++) {
        const struct rbu_train *train = &area.trains[t - 1];
        if (train->route == 0) continue;
        printf("train %d route %u place %u position %lu speed %u asks %u count %u length %u\n", t, train->route, train->place,
               (unsigned long)train->position, train->speed, train->asks, train->count, train->length);
    }
    for (int s = 1; s <= RBU_SEGMENTS; s++) {
        if (area.allocations[s - 1] != 0) printf("allocation %d %u\n", s, area.allocations[s - 1]);
    }
    uint8_t allocated, free_segment;
    uint8_t number = rbu_report(&area, &allocated, &free_segment);
    if (number != RBU_ANSWER_DONE) fprintf(stderr, "report: refused, %u %s\n", number, word((enum rbu_answer)number));
    printf("report %u %u\n", allocated, free_segment);
}

// ---- the area file again

// Writes the file of the area's tables to `name`, if there is one, and holds it to the file that was read.
static bool write_back(const uint8_t *file, const char *name) {
    static uint8_t written[RBU_FILE_SIZE];
    uint8_t number = rbu_write(&area, written, sizeof written);
    if (number != RBU_ANSWER_DONE) {
        fprintf(stderr, "write: refused, %u %s\n", number, word((enum rbu_answer)number));
        return false;
    }
    if (memcmp(written, file, sizeof written) != 0) {
        fprintf(stderr, "write: it is not the file that was read\n");
        return false;
    }
    if (name == NULL) return true;
    FILE *output = fopen(name, "wb");
    bool done = output != NULL && fwrite(written, 1, sizeof written, output) == sizeof written;
    if (output != NULL && fclose(output) != 0) done = false;
    if (!done) fprintf(stderr, "write: %s cannot be written\n", name);
    return done;
}

// Standard output is written when it is flushed, so that a failure shows here at the latest.
static bool all_printed(void) {
    if (fflush(stdout) == 0 && !ferror(stdout)) return true;
    fprintf(stderr, "the output cannot be written\n");
    return false;
}

int main(int count, char **arguments) {
    static uint8_t file[RBU_FILE_SIZE];
    size_t size = fread(file, 1, sizeof file, stdin);
    if (ferror(stdin)) {
        fprintf(stderr, "the input cannot be read to its end\n");
        return 1;
    }
    uint16_t place;
    uint8_t number = rbu_start(&area, file, size, &place);
    printf("load %u %u\n", number, place);
    if (number != RBU_ANSWER_DONE) {
        fprintf(stderr, "load: refused, %u %s, place %u\n", number, word((enum rbu_answer)number), place);
        all_printed();
        return 1;
    }

    uint16_t items[RBU_CALL_ITEMS];
    enum next next;
    int status = 0;
    unsigned long call = 1;
    for (; (next = next_call(items)) == A_CALL; call++) {
        if (!is_of_a_kind(items)) {
            fprintf(stderr, "call %lu: of kind %u; kinds are 1 to 6, and the list ends here\n", call, items[KIND]);
            status = 1;
            break;
        }
        number = run(items);
        printf("%u\n", number);
        if (number != RBU_ANSWER_DONE) name_refusal(call, items, number);
    }
    if (next == CUT_SHORT) {
        fprintf(stderr, "call %lu: cut short, a call has %d bytes\n", call, 2 * RBU_CALL_ITEMS);
        status = 1;
    }
    if (ferror(stdin)) {
        fprintf(stderr, "the input cannot be read to its end\n");
        status = 1;
    }
    print_state();
    if (!write_back(file, count > 1 ? arguments[1] : NULL)) status = 1;
    if (!all_printed()) status = 1;
    return status;
}

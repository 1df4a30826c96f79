// Each function of include/rbu.h called on a line of Area A's shape with the greatest `gmax`, where a braking sum has as many turns as
// `gmax` / `b`. Of two runs, with `b` 1 and with `b` as large as `gmax`, the instructions of a function differ by its sums (.ci/sums).
// rbu_start is called on Area A before, which is the same in both.
//
//     sums FILE B far|held|near
//
// FILE is Area A's. Trains 1 and 2 run at `gmax`: far, where `d` reaches just short of the segment's end; near, where it reaches the
// end; held, near with train 2's next allocated to it and train 1 far. It fails where an answer is not the one that it should be.
#include <stdio.h>
#include <stdlib.h>
#include <string.h>

#include "rbu.h"

static int failed;

static void expect(const char *what, unsigned got, unsigned wanted) {
    if (got != wanted) {
        fprintf(stderr, "sums: %s: %u and not %u\n", what, got, wanted);
        failed = 1;
    }
}

// Where the trains are: train 1, and train 2 with its next or without.
static bool near_1, near_2, holds_2;

// A train of Area A on the first segment of its route, at the top speed.
static void place(struct rbu_area *area, unsigned train, bool near, bool holds) {
    uint32_t position = area->tables.lengths[train - 1] - area->tables.margin - (near ? 0 : 1);
    bool asks = area->due == RBU_DUE_GRANT && near && !holds;
    area->trains[train - 1] = (struct rbu_train){
        .route = train, .place = 1, .position = position, .speed = RBU_FASTEST, .length = 1, .asks = asks};
    area->allocations[train - 1] = train;
    if (holds) area->allocations[2] = train;
}

// The record before a call.
static struct rbu_area before(const struct rbu_area *line, uint8_t due) {
    struct rbu_area area = *line;
    area.due = due;
    place(&area, 1, near_1, false);
    place(&area, 2, near_2, holds_2);
    return area;
}

// The state of a record as bytes (docs/FORMATS.md, "The state").
static void spell(const struct rbu_area *area, uint8_t state[RBU_STATE_SIZE]) {
    memset(state, 0, RBU_STATE_SIZE);
    state[0] = area->due;
    memcpy(state + 1, area->allocations, RBU_SEGMENTS);
    for (int t = 0; t < RBU_TRAINS; t++) {
        const struct rbu_train *train = &area->trains[t];
        uint8_t *at = state + 64 + 32 * t;
        at[0] = train->route;
        at[1] = train->place;
        at[2] = train->asks;
        memcpy(at + 4, &train->position, 4);
        memcpy(at + 8, &train->speed, 2);
        memcpy(at + 12, &train->length, 2);
    }
}

int main(int count, char **arguments) {
    static uint8_t file[RBU_FILE_SIZE], state[RBU_STATE_SIZE], buffer[RBU_FILE_SIZE];
    static const uint16_t request[RBU_CALL_ITEMS] = {4};
    uint16_t wishes[RBU_TRAINS], ignored;
    uint8_t allocated, free_segment, answer = 99, number;
    uint32_t start, route_count;
    struct rbu_area line, area;
    const char *where = count == 4 ? arguments[3] : "";
    near_1 = strcmp(where, "near") == 0;
    holds_2 = strcmp(where, "held") == 0;
    near_2 = near_1 || holds_2;
    FILE *input = near_2 || strcmp(where, "far") == 0 ? fopen(arguments[1], "rb") : NULL;
    if (!input || fread(file, 1, sizeof file, input) != sizeof file) {
        fprintf(stderr, "sums: sums FILE B far|held|near\n");
        return 2;
    }
    fclose(input);

    // Area A's track, faster and longer
    expect("Area A", rbu_start(&line, file, sizeof file, &ignored), RBU_ANSWER_DONE);
    line.tables.gmax = RBU_FASTEST;
    line.tables.braking = (uint16_t)atoi(arguments[2]);
    line.tables.margin = 2003000;
    for (int s = 0; s < 3; s++) {
        line.tables.lengths[s] = RBU_LONGEST;
        line.tables.limits[s] = RBU_FASTEST;
    }
    for (int t = 0; t < RBU_TRAINS; t++) wishes[t] = RBU_FASTEST;

    // a record, and its file
    area = before(&line, RBU_DUE_SPEED);
    expect("write", rbu_write(&area, file, sizeof file), RBU_ANSWER_DONE);
    expect("sound", rbu_is_sound(&area), true);
    expect("report", rbu_report(&area, &allocated, &free_segment), RBU_ANSWER_DONE);
    expect("leave", rbu_leave(&area, 1), RBU_ANSWER_NO_EXIT);
    expect("enter", rbu_enter(&area, 3, 1, 0, 1), RBU_ANSWER_TAKEN);
    expect("speed", rbu_speed(&area, wishes, RBU_TRAINS), RBU_ANSWER_DONE);
    area = before(&line, RBU_DUE_REQUEST);
    expect("request", rbu_request(&area), RBU_ANSWER_DONE);
    area = before(&line, RBU_DUE_GRANT);
    expect("grant", rbu_grant(&area), RBU_ANSWER_DONE);
    area = before(&line, RBU_DUE_POSITION);
    expect("position", rbu_position(&area), RBU_ANSWER_DONE);

    // the same as bytes; the list has one call
    area = before(&line, RBU_DUE_REQUEST);
    spell(&area, state);
    expect("sound, bytes", rbu_sound(file, sizeof file, state, sizeof state), true);
    expect("report, bytes", rbu_report_record(file, sizeof file, state, sizeof state, &allocated, &free_segment), RBU_ANSWER_DONE);
    expect("write, bytes", rbu_write_record(file, sizeof file, state, sizeof state, buffer, sizeof buffer), RBU_ANSWER_DONE);
    expect("a list, bytes", rbu_run_record(file, sizeof file, request, RBU_CALL_ITEMS, &answer, 1, state, sizeof state), 1);
    expect("its answer", answer, RBU_ANSWER_DONE);

    // the file alone
    expect("load", rbu_load(file, sizeof file, &ignored), RBU_ANSWER_DONE);
    expect("start", rbu_start(&area, file, sizeof file, &ignored), RBU_ANSWER_DONE);
    rbu_view(file, sizeof file, 2, &start, &route_count);
    expect("view", route_count, 2);
    expect("a list", rbu_run_file(file, sizeof file, request, RBU_CALL_ITEMS, &answer, 1, state, sizeof state, &number, &ignored), 1);
    expect("its answer", answer, RBU_ANSWER_TURN);

    expect("S", rbu_braking_distance(line.tables.braking, RBU_FASTEST), line.tables.braking == 1 ? 2001000 : RBU_FASTEST);
    return failed;
}

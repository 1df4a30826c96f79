// The core of the radio block unit for C: link librbu.a, which `make` writes (target/staticlib/librbu.a).
//
// What each function does is its contract in crates/rbu/src/lib.rt, which is proved. The layouts are in docs/FORMATS.md.
//
// A running unit keeps one record of an area. Start it with rbu_start, hand it to each call as the last one left it, and let nothing
// else write it: then what the inspectorate asked for holds after every call, refused ones included. No two trains are on one
// segment, and the other points of README.md, "What has been shown".
//
// - Sound means: the tables meet load's rules 4 to 10; the step due is one of four; every allocation is 0 or the number of a train on,
//   and 0 above N; a train off is all zero; a train on stands at a place of a route, before its segment's end, at most at the limit
//   there; its length is 1 to 20,000; every segment under it is allocated to it, its next may be, no other is; while its next is not
//   allocated to it, or there is none, it comes to a stand before its segment's end if it brakes fully from the next speed step on; where
//   its next is allocated to it, another step than speed is due, and position + speed is at or above its segment's length, its speed is
//   at most the limit of its next; and asks is 1 exactly when grant is due, it is near its segment's end, and its next exists and is not
//   allocated to it, and 0 otherwise. docs/RULES.md, "A sound record", has it in full. A record that was started and handed on is sound;
//   on one that is not, every call answers RBU_ANSWER_UNSOUND and changes nothing.
// - Memory: nothing is allocated, nothing is kept after a call, and there are no globals. The archive needs two functions of the C
//   library, memcpy and memset. It is for x86-64 and the System V calling convention. The header is for C11 and for C++11.
// - Threads: a function touches what it is handed and nothing else. Two threads may run calls on two records at the same time; on one
//   record, one call at a time.
// - Time: a call tests the whole record, and a start the whole file. Each sums the braking distance of `gmax` once at the most, cycle by
//   cycle, and a call also that of each train that is within `d` of its segment's end and to which its next segment is not allocated: the
//   smaller `b` is beside `gmax`, the longer it takes. docs/ARCHITECTURE.md has times.
// - Slices are two arguments, a pointer and how many entries it has. A length of 0 goes with any pointer, NULL too. Every other
//   pointer is not NULL, is aligned for its type, and lends that many entries for the time of the call. What a pointer that is not
//   const points at overlaps nothing else that the call is handed. (That an empty slice may be NULL is tried by the tests; the machine
//   that the proofs speak of has no NULL.)
#ifndef RBU_H
#define RBU_H

#include <stdbool.h>
#include <stddef.h>
#include <stdint.h>

#ifdef __cplusplus
extern "C" {
#endif

// An area file, the bytes of a state, and the 16-bit items of one call of a script.
#define RBU_FILE_SIZE 2560
#define RBU_STATE_SIZE 832
#define RBU_CALL_ITEMS 32

// Segments, routes and trains of an area, at the most; wishes of a speed step.
#define RBU_SEGMENTS 62
#define RBU_ROUTES 30
#define RBU_TRAINS 24

// At the most: `gmax`, in decimetres per cycle; `d` and the length of a segment, in decimetres.
#define RBU_FASTEST 2000
#define RBU_LONGEST 4000000

// A train's length, in decimetres, at the most.
#define RBU_LONGEST_TRAIN 20000

// The answers: done, what load finds of a file (1 to 10), the refusals of calls (11 to 21, and 23 of enter) and of a write (11 and 22).
enum rbu_answer {
    RBU_ANSWER_DONE = 0,
    RBU_ANSWER_SIZE = 1,
    RBU_ANSWER_DAMAGED = 2,
    RBU_ANSWER_MISFILED = 3,
    RBU_ANSWER_HEADER = 4,
    RBU_ANSWER_MARGIN = 5,
    RBU_ANSWER_SEGMENT = 6,
    RBU_ANSWER_JOINT = 7,
    RBU_ANSWER_ORDER = 8,
    RBU_ANSWER_DROP = 9,
    RBU_ANSWER_ROUTE = 10,
    RBU_ANSWER_UNSOUND = 11,
    RBU_ANSWER_TURN = 12,
    RBU_ANSWER_TRAIN = 13,
    RBU_ANSWER_ALREADY_ON = 14,
    RBU_ANSWER_NOT_ON = 15,
    RBU_ANSWER_ROUTE_NUMBER = 16,
    RBU_ANSWER_NO_ENTRY = 17,
    RBU_ANSWER_TAKEN = 18,
    RBU_ANSWER_TOO_FAST = 19,
    RBU_ANSWER_NO_EXIT = 20,
    RBU_ANSWER_WISHES = 21,
    RBU_ANSWER_BUFFER = 22,
    RBU_ANSWER_LENGTH = 23
};

// The steps of a cycle, in their order.
enum rbu_due { RBU_DUE_SPEED = 0, RBU_DUE_REQUEST = 1, RBU_DUE_GRANT = 2, RBU_DUE_POSITION = 3 };

// ---- a running unit: one record, one call at a time

// The record. The caller keeps it: 2,108 bytes, aligned to 4. Its fields are there to be read; only the functions below write it.
// Any bytes at all are a record: one that was damaged is answered RBU_ANSWER_UNSOUND, or it is sound and its calls are those of
// documents 01 and 02, but that it is the record of the run is then no longer said. Padding is never looked at, and may hold anything
// after a call: compare two records by their fields.

// A train: route and place in it, counted from 1; route 0 is a train off, which is all zero. Place and position are its front's:
// position in its segment in decimetres. Speed in decimetres per cycle. Its rear lies `length` decimetres behind its front along the
// route; under it is each segment from its front's back to its rear's, but one that ends where the rear is, and what lies before the
// route's first segment is outside the area. asks is 1 between request and grant where it asks for its next segment, and 0 otherwise.
// count is at how many grant steps it has asked and got nothing since it entered or was last granted a segment, 65,535 at the most.
struct rbu_train {
    uint8_t route;
    uint8_t place;
    uint16_t count;
    uint32_t position;
    uint16_t speed;
    uint16_t length;
    uint8_t asks;
};

// The tables of the file: N, R, `gmax` (at most RBU_FASTEST), `b` and `d`. Of segment s: lengths[s - 1] (at most RBU_LONGEST),
// limits[s - 1] and flags[s - 1] (1 entry, 2 exit, sum of both); its next links at next[2 * (s - 1)] and the place after, its previous
// links likewise, 0 for none. Of route r: how many segments it has at routebytes[32 * (r - 1)], the one at place p at
// routebytes[32 * (r - 1) + p]. So the front of a train that is on is on segment routebytes[32 * (route - 1) + place].
struct rbu_tables {
    uint8_t segments;
    uint8_t routes;
    uint16_t gmax;
    uint16_t braking;
    uint32_t margin;
    uint32_t lengths[RBU_SEGMENTS];
    uint16_t limits[RBU_SEGMENTS];
    uint8_t next[2 * RBU_SEGMENTS];
    uint8_t previous[2 * RBU_SEGMENTS];
    uint8_t flags[RBU_SEGMENTS];
    uint8_t routebytes[32 * RBU_ROUTES];
};

// Segment s has the allocation allocations[s - 1], 0 or the number of the train that it is allocated to; train t is trains[t - 1].
// `due` is one of enum rbu_due.
struct rbu_area {
    struct rbu_tables tables;
    uint8_t allocations[RBU_SEGMENTS];
    struct rbu_train trains[RBU_TRAINS];
    uint8_t due;
};

#define RBU_AREA_SIZE 2108
#define RBU_AREA_ALIGNMENT 4

#ifdef __cplusplus
static_assert(sizeof(struct rbu_area) == RBU_AREA_SIZE && alignof(struct rbu_area) == RBU_AREA_ALIGNMENT, "the layout of a record");
#else
_Static_assert(sizeof(struct rbu_area) == RBU_AREA_SIZE && _Alignof(struct rbu_area) == RBU_AREA_ALIGNMENT, "the layout of a record");
#endif

// Loads a file into the record. Returns the number of load's answer: RBU_ANSWER_DONE, or 1 to 10, the rule that the file breaks. The
// place goes to *place: the block, record, segment or route that breaks it first, as docs/FORMATS.md has it, otherwise 0. A refused
// file leaves the blank record, on which every call answers RBU_ANSWER_UNSOUND. What the record held before plays no part: any bytes
// will do.
uint8_t rbu_start(struct rbu_area *area, const uint8_t *file, size_t file_length, uint16_t *place);

// The six calls. Each returns the number of its answer; a refused one leaves the record as it was. Arguments are tested whole: train
// 257 is refused. wishes[t - 1] is train t's, those of trains off are ignored; a count other than RBU_TRAINS is RBU_ANSWER_WISHES.
// rbu_enter: the length is 1 to RBU_LONGEST_TRAIN; 0 is refused too. rbu_leave: when the whole train has gone off by its exit; all that
// is allocated to it is freed. rbu_position: frees what was under a train and no longer is, once its rear is at the segment's end or
// past it. rbu_grant: of the trains that ask for a free segment the one whose `count` is highest gets it, of equal counts the higher number.
uint8_t rbu_enter(struct rbu_area *area, uint16_t train, uint16_t route, uint16_t speed, uint16_t length);
uint8_t rbu_leave(struct rbu_area *area, uint16_t train);
uint8_t rbu_speed(struct rbu_area *area, const uint16_t *wishes, size_t count);
uint8_t rbu_request(struct rbu_area *area);
uint8_t rbu_grant(struct rbu_area *area);
uint8_t rbu_position(struct rbu_area *area);

// The report. Returns the number of its answer, RBU_ANSWER_DONE or RBU_ANSWER_UNSOUND. How many segments are allocated goes to
// *allocated, the least free one (0 if none) to *free_segment; both are 0 where the record is unsound.
uint8_t rbu_report(const struct rbu_area *area, uint8_t *allocated, uint8_t *free_segment);

// The record is sound.
bool rbu_is_sound(const struct rbu_area *area);

// Writes the tables of the record into `buffer` as an area file of RBU_FILE_SIZE bytes; trains are not written. Returns the number of
// the answer: RBU_ANSWER_DONE, RBU_ANSWER_UNSOUND, or RBU_ANSWER_BUFFER where the buffer has another length. A refusal leaves the
// buffer as it was. Otherwise all of it is written, and loading it gives these tables; of a record that was started and handed on it
// is the file that the record was started with, byte for byte.
uint8_t rbu_write(const struct rbu_area *area, uint8_t *buffer, size_t buffer_length);

// ---- the stack

// The stack that a call of each function takes, in bytes. No theorem bounds it: it is measured, on a painted stack, with lists of
// thousands of calls and every answer among them. The figures have a quarter to spare; the tests measure it again and hold them to it
// (.ci/stack.c). RBU_STACK_CALL is for each function of a running unit but rbu_start and rbu_write.
#define RBU_STACK_START 15360
#define RBU_STACK_CALL 8192
#define RBU_STACK_WRITE 10240
#define RBU_STACK_LOAD 12288
#define RBU_STACK_VIEW 12288
#define RBU_STACK_RUN_FILE 34816
#define RBU_STACK_RUN_RECORD 29696
#define RBU_STACK_SOUND 14336
#define RBU_STACK_REPORT_RECORD 17408
#define RBU_STACK_WRITE_RECORD 14336
#define RBU_STACK_BRAKING_DISTANCE 1024

// ---- files

// The number of load's answer to a file: 0 done, 1 to 10 the rule that the file breaks. Where it breaks it goes to *place.
uint8_t rbu_load(const uint8_t *file, size_t file_length, uint16_t *place);

// The part of the file that lists the segments of a route: where it starts goes to *start, how many bytes it has to *count.
// Both are 0 where load refuses the file or it has no such route.
void rbu_view(const uint8_t *file, size_t file_length, uint16_t route, uint32_t *start, uint32_t *count);

// ---- a list of calls from a file

// Runs a script from a file. Returns how many calls were run: up to the end of the script, or the
// first record that is of none of the six kinds, or as many as `answers` has room for.
// Their answers' numbers go to `answers`, one byte each, and the state after them to `state`, as far as it has room; the rest of
// both is as it was. Load's answer goes to *number and *place. Where that is not 0, no call is run, and `answers` and `state`
// are as they were.
size_t rbu_run_file(
    const uint8_t *file, size_t file_length,
    const uint16_t *script, size_t script_length,
    uint8_t *answers, size_t answers_length,
    uint8_t *state, size_t state_length,
    uint8_t *number,
    uint16_t *place);

// ---- for the comparison: any record at all, as bytes. The tables are those that a file's bytes spell, with no rule tested (blank ones
// unless it has 2,560 bytes), the rest is what `state` spells; bytes past its end read as 0. A state of RBU_STATE_SIZE bytes that was
// written after a run, handed in again with the same file, continues that run.

// Runs a script from such a record. Returns how many calls were run; `answers` is written as by rbu_run_file. The state before
// is read from `state`, and the one after the calls written there, as far as it has room.
size_t rbu_run_record(
    const uint8_t *file, size_t file_length,
    const uint16_t *script, size_t script_length,
    uint8_t *answers, size_t answers_length,
    uint8_t *state, size_t state_length);

// The record is sound.
bool rbu_sound(const uint8_t *file, size_t file_length, const uint8_t *state, size_t state_length);

// The report of such a record, as by rbu_report.
uint8_t rbu_report_record(
    const uint8_t *file, size_t file_length,
    const uint8_t *state, size_t state_length,
    uint8_t *allocated,
    uint8_t *free_segment);

// The tables of such a record as a file, as by rbu_write.
uint8_t rbu_write_record(
    const uint8_t *file, size_t file_length,
    const uint8_t *state, size_t state_length,
    uint8_t *buffer, size_t buffer_length);

// ---- braking

// The way run until standstill, in decimetres, from a speed in decimetres per cycle, at full braking that takes `rate` off it
// each cycle; 0 at a rate of 0.
uint32_t rbu_braking_distance(uint16_t rate, uint16_t speed);

#ifdef __cplusplus
}
#endif

#endif

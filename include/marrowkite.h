/*
 * Marrowkite: the library that a host links (libmarrowkite.a; docs/HOST.md says how).
 *
 * Each call is a function of its arguments: what it answers, and every byte of the buffer afterwards, is settled by
 * the contract that it was proved against (crates/marrowkite_c/src/lib.rt).
 *
 *
 * THE NUMBERS
 *
 * Number 0 means done. With any other number no byte of the buffer was altered. Where nothing is said, second is 0.
 *
 *    0  done                                                      first, second: see each call
 *
 *       the file
 *    1  it ends inside a record or before the end record          first: offset of that record, or the file length
 *    2  a record of unknown kind                                  first: offset of the record; so for 3 to 6
 *    3  a record of a known kind that may not stand here
 *    4  a 33rd variable, a 257th action, a ninth crew
 *    5  a value count that is not 2 to 16; no such variable; a value too large; a task that is not the next
 *       variable's; a seed that is not 1 to 2,147,483,646; a situation above 7
 *    6  an action whose pre equals its post; a condition on the action's own variable; a condition whose variable
 *       is not above that of the condition before it; a written situation of 0; a written set of all eight
 *    7  an action in force sets what an earlier one in force sets first: offset of the earliest such action; told at
 *                                                                 the end record, after every fault of a record
 *   21  no action changes the variable and no condition names it,
 *       in force or not                                           first: the lowest such variable; told after 7
 *    8  a byte follows the end record                             first: its offset
 *
 *       the crew
 *   22  the file has no such crew; told right after the file's
 *       own                                                       first: the crew's number
 *
 *       the rank list
 *    9  it is not as long as the file has actions                 first: its length; second: 1
 *       an entry is no action's number, or repeats an earlier     first: the first such index; second: 0
 *
 *       there is no straight plan
 *   10  some variable has no walk                                 first: the lowest such variable; second: the value,
 *                                                                 traced back from its goal, that no action in force
 *                                                                 sets, or 255 where the trace comes round
 *   11  an action on a walk has a condition whose value is not
 *       on that variable's walk                                   first: the lowest such action;
 *                                                                 second: its lowest such variable
 *   12  the walk actions have a ring                              first: how many walk actions are on no ring and
 *                                                                 come, at any remove, after no ring
 *
 *       the buffer
 *   13  it is too short for the answer                            first: the length needed
 *
 *       the plan that is to be run, and a chart's list; a log's events have rows of their own
 *   14  an entry is no action's number; in a chart's list also:
 *       an action out of force                                    first: its index in the plan or the list
 *   20  the action is out of force (tested before 15)             first: its index in the plan
 *   15  the action may not be done                                first: the index; second: the action's own variable
 *                                                                 if pre fails, else the lowest variable whose
 *                                                                 condition fails
 *   16  the step takes a value that was held before               first: the index; second: the variable
 *   17  all steps are done and the goal is not met                first: the lowest variable away from it
 *
 *       the draw, a report's seeds, a chart's lengths
 *   18  the seed is not 1 to 2,147,483,646                        first: the seed; in a report the first such
 *   19  the count is above 256; a report on no seed, or on more than 64;
 *       a chart of more than 256 actions, or else of more than 4,096 pairs
 *                                                                 first: the count
 *
 *       the chart
 *   25  an action repeats in the list, is on a walk and missing
 *       in it, or is in it and on no walk                         first: the lowest such action
 *   26  a pair names an action that is not listed, or itself      first: the pair's index
 *   27  the pairs form a circle
 *   28  no chain of pairs puts an action before one that has to
 *       come directly after it: the next of its walk, one that
 *       wants what it sets, or the one that leaves what it wants  first, second: the lowest such two actions, by
 *                                                                 first and then second
 *
 *       the log: tested event by event, in this order
 *    2  it is of another kind than 16                             first: offset of the event in the log; so for all six
 *    1  the log ends inside it
 *   19  it is the 16,385th
 *   14  its action is no action's number
 *   20  its action is out of force
 *   23  the log went back: the step from the tick before to its
 *       own, taken round 65,536, is 32,768 or more
 *
 *       the rides, after all of the plan's own refusals and before 13
 *    5  the start floor is above 199                              first: how many whole rides were lent
 *    1  the last ride is cut short                                first: the ride's index; so for 14, 5, 6 and 7
 *   14  the ride's action is not there
 *    5  one of its floors is above 199
 *    6  it leads to its own floor
 *    7  an earlier ride is of the same action, in the plan or not
 *
 *
 * CREWS
 *
 * A file has one to eight crews, numbered from 0, each with its tasks and its seed. A call that names a crew answers as for a
 * file in which that crew is the only one: what the others' records say moves nothing, but a fault in any of them is the
 * file's. Any number may be passed as a crew.
 *
 *
 * MEMORY
 *
 * A slice is a pointer and then a length in bytes. All memory is the caller's, and is lent for the time of the call
 * alone: nothing is allocated, freed or kept.
 * - A pointer is never null, not even with length 0. For an empty slice pass a pointer to any byte and length 0.
 * - `const uint8_t *` is only read. Two of these may overlap or be the same.
 * - `uint8_t *` is the buffer, and so is `marrowkite_occupant *`, one of 40 bytes. It overlaps nothing else that is lent to the
 *   call, and nobody else reads or writes it meanwhile. The answer fills its first bytes; later bytes stay as they were. No
 *   byte outside it is touched.
 * - No alignment is asked for.
 *
 * Calls keep nothing from one to the next: the archive has no variables. So calls may run on many threads at once, as
 * long as each has a buffer of its own. They take no lock, wait for nothing and make no system call. Of the C library
 * they use memcpy and memset.
 *
 *
 * STACK
 *
 * At most, in bytes, whatever the arguments; the tests hold every call that they make to it:
 *
 *   marrowkite_check          2,560
 *   marrowkite_plan           5,120
 *   marrowkite_plan_seeded    5,376
 *   marrowkite_run            2,688
 *   marrowkite_draw             128
 *   marrowkite_record_at        128
 *   marrowkite_write            768
 *   marrowkite_report        10,240
 *   marrowkite_chart         11,904
 *   marrowkite_replay         3,456
 *   marrowkite_journeys       5,376
 */
#ifndef MARROWKITE_H
#define MARROWKITE_H

#include <stddef.h>
#include <stdint.h>

#ifdef __cplusplus
extern "C" {
#endif

typedef struct { uint64_t number, first, second; } marrowkite_answer;

/* One record of a file: its kind, where its body starts, the body's length, and the place after it. */
typedef struct { uint64_t number, kind, start, len, next; } marrowkite_record;

/*
 * Somebody whose access log was replayed, in 40 bytes: the value of each variable (0 for those past the file's last), all steps'
 * sum in four bytes, least significant first, and whether the last event was held (1) or not (0): if so, for which value of
 * which variable, else 0 and 0. The spare byte is 0.
 */
typedef struct {
  uint8_t state[32];
  uint8_t sum[4];
  uint8_t waiting, variable, value, spare;
} marrowkite_occupant;

/*
 * Checks a file: 1 to 8 and 21. The first faulty record decides, and its faults are looked for in the order 2, 3, 1, 4, 5, 6;
 * the end record tells 7, then 21, then 8.
 * Done: first is how many actions the file has, second how many variables.
 */
marrowkite_answer marrowkite_check(const uint8_t *file, size_t file_len);

/*
 * Plans for a crew with a rank list, one entry for each action: of all straight plans the one whose list of ranks is smallest
 * at the first place where they differ. 1 to 8 and 21, then 22, then 9 (the length first), 10, 11, 12, 13.
 * Done: first is the plan's length; the plan, one byte for each action, fills the first bytes of `plan`. 256 bytes are
 * always enough.
 */
marrowkite_answer marrowkite_plan(const uint8_t *file, size_t file_len, uint64_t crew, const uint8_t *ranks, size_t ranks_len,
                                  uint8_t *plan, size_t plan_len);

/*
 * Plans for a crew with the rank list that its own seed draws: as marrowkite_plan, without 9.
 */
marrowkite_answer marrowkite_plan_seeded(const uint8_t *file, size_t file_len, uint64_t crew, uint8_t *plan, size_t plan_len);

/*
 * Runs a plan from a crew's start: 1 to 8 and 21, then 22, then 13, then step by step 14, 20, 15, 16, then 17. 0 exactly if the
 * list is a straight plan of that crew.
 * Done: first is how many variables the file has; their values in the end, which are the goal's, fill the first bytes
 * of `state`. 32 bytes are always enough.
 */
marrowkite_answer marrowkite_run(const uint8_t *file, size_t file_len, uint64_t crew, const uint8_t *plan, size_t plan_len,
                                 uint8_t *state, size_t state_len);

/*
 * Draws a rank list of `count` entries from a seed (minstd_rand0): 18, 19, 13.
 * Done: first is the last number of the generator (the seed itself for a count of 0 or 1); the list fills the first
 * `count` bytes of `ranks`. 256 bytes are always enough.
 */
marrowkite_answer marrowkite_draw(uint64_t seed, uint64_t count, uint8_t *ranks, size_t ranks_len);

/*
 * The record at a place of any bytes, by its kind alone: whether it may stand there and what its body says is not
 * looked at.
 * Number 0: kind 1 to 9; the body is the `len` bytes of `file` from `start` on (0 to 4), and `next` is the place after.
 * Number 2 (unknown kind) or 1 (the file ends inside the record, or at or before `at`): kind and len are 0, start and
 * next are `at`, or the file length if `at` is at or past the end.
 */
marrowkite_record marrowkite_record_at(const uint8_t *file, size_t file_len, uint64_t at);

/*
 * Writes the file that a situation and lists stand for. The lists' entries, in bytes:
 *
 *   variables    1   how many values it has
 *   actions      5   variable, pre, post, set of situations, how many conditions
 *   conditions   2   variable, value: the actions take them in turn, each as many as it says
 *   crews        5   how many tasks, then the seed, four bytes, most significant first
 *   tasks        3   variable, start, goal: the crews take them in turn, each as many as it says
 *
 * A situation of 0 and a set of 255, all eight situations, mean that no such record is written.
 *
 * What is missing stands for numbers of 255, and no record may have these, so it is refused and never passed over:
 * - An entry that is cut short has 255 for each of its numbers. Such an action takes all conditions that are left.
 * - A condition that an action says and that is not lent is 255, 255.
 * - Conditions that no action takes are those of one more action, 255, 255, 255.
 * - Tasks and crews likewise: a crew that is cut short takes all tasks that are left, a task that a crew says and that is not
 *   lent is 255, 255, 255, tasks that no crew takes are those of one more crew, and the seed of such crews is 0xffffffff.
 *
 * 3 to 7 and 21 as marrowkite_check answers for the file's bytes (first: the offset in them, or the variable); then 13.
 * Done: first is the file's length; the file fills the first bytes of `file`. 26,482 bytes are always enough.
 */
marrowkite_answer marrowkite_write(uint8_t situation, const uint8_t *variables, size_t variables_len,
                                   const uint8_t *actions, size_t actions_len, const uint8_t *conditions,
                                   size_t conditions_len, const uint8_t *crews, size_t crews_len, const uint8_t *tasks,
                                   size_t tasks_len, uint8_t *file, size_t file_len);

/*
 * Reports how varied a crew's plans of `n` seeds in a row from `first` on are, the file planned with each: 1 to 8 and 21, then
 * 22, 19, 18 (the first seed out of range), 13.
 * Done: first is the report's length; the report, one byte for each figure, fills the first bytes of `report`:
 *
 *   1    how many plans
 *   3    how many refusals 10, 11 and 12
 *   1    how many different plans
 *   A    for each position of a plan: how often each of the file's A actions, in file order, stood there
 *
 * All seeds of a crew give a plan, and the plans are equally long; or all are refused alike, and the report has 5 bytes.
 * 65,541 bytes are always enough.
 */
marrowkite_answer marrowkite_report(const uint8_t *file, size_t file_len, uint64_t crew, uint64_t first, uint64_t n,
                                    uint8_t *report, size_t report_len);

/*
 * Checks a crew's chart: a list of actions, one byte each, and pairs, two bytes each, the first to be done before the second. A
 * lone last byte pairs its action with itself, and counts. 1 to 8 and 21, then 22, 10, 11, 12, 19, 14, 25, 26, 27, 28.
 * Done: at least one order of the list keeps all pairs, and every order that does is a straight plan. first is how many actions
 * are listed, second how many pairs were lent. With 10 to 12, 14 and 25 to 28 that is not so. Nothing is written.
 */
marrowkite_answer marrowkite_chart(const uint8_t *file, size_t file_len, uint64_t crew, const uint8_t *actions,
                                   size_t actions_len, const uint8_t *pairs, size_t pairs_len);

/*
 * Replays an access log from a crew's start: events of four bytes, the kind 16, a tick of two bytes, most significant first, and an
 * action; at most 16,384. 1 to 8 and 21, then 22, then event by event 2, 1, 19, 14, 20, 23.
 * An event whose action may not be done is held: it changes no value, and the occupant waits for the first value that fails, that
 * of the action's own variable, else of the lowest variable with a condition that does. Any other is done, and the occupant is
 * idle. Values may come again, and the goal is not looked at. An event's step is its tick less the one before, taken round 65,536;
 * the first one's is 0.
 * Done: first is how many events were done, second how many were held; `occupant` says where that leads, whatever it said before.
 */
marrowkite_answer marrowkite_replay(const uint8_t *file, size_t file_len, uint64_t crew, const uint8_t *log, size_t log_len,
                                    marrowkite_occupant *occupant);

/*
 * Makes the lift journeys of a crew's plan, which is that of marrowkite_plan with the same file, crew and ranks, of a person who
 * begins on a floor. `rides` gives some actions a ride, three bytes each: the action, the floor that it begins on and the floor
 * that it ends on, 0 to 199. A ride that begins on another floor than the person's is preceded by a journey there. Rides of actions
 * that are not in the plan make no journey.
 * 1 to 8 and 21, then 22, 9, 10, 11, 12; then 5 for the start floor; then ride by ride 1, 14, 5, 6, 7; then 13.
 * Done: first is how many journeys there are; they fill the first bytes of `journeys` in plan order, three bytes each: the step,
 * from 0, the floor from and the floor to. 1,536 bytes are always enough. With 13, first is the bytes needed.
 */
marrowkite_answer marrowkite_journeys(const uint8_t *file, size_t file_len, uint64_t crew, const uint8_t *ranks,
                                      size_t ranks_len, const uint8_t *rides, size_t rides_len, uint64_t start_floor,
                                      uint8_t *journeys, size_t journeys_len);

#ifdef __cplusplus
}
#endif

#endif

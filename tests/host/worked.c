/* Document 01's seventeen worked cases through the exported calls, one line each, and what the cases leave open: calls one
 * after another, calls on several threads, single records, the generator's check number, files from lists, charts, crews, logs,
 * journeys.
 * Every buffer is lent between guard bytes. Each check below looks at all numbers, all bytes of the buffer, the inputs and
 * the guard bytes; a refused call has to leave the buffer as it was. */
#include "lend.h"

#define BYTES(...) ((bytes){(const uint8_t[]){__VA_ARGS__}, sizeof((const uint8_t[]){__VA_ARGS__})})
#define NOTHING ((bytes){(const uint8_t[]){0}, 0})
#define ANSWER(...) ((marrowkite_answer){__VA_ARGS__})
#define DONE(...) ANSWER(0, __VA_ARGS__)
#define REFUSED(...) ANSWER(__VA_ARGS__), NOTHING /* what is left in the buffer: nothing new */

/* ---- the records of a file ---- */

#define VARIABLE(count) 1, count
#define ACTION(variable, pre, post) 2, variable, pre, post
#define CONDITION(variable, value) 3, variable, value
#define TASK(variable, start, goal) 4, variable, start, goal
#define SEED_1 5, 0, 0, 0, 1
#define END 6

/* Variables: pass, cart, ride. */
#define PORTER_TABLE                                                                                                    \
  VARIABLE(2), VARIABLE(3), VARIABLE(2),                                                                                \
  ACTION(0, 0, 1),                                                                                                      \
  ACTION(1, 0, 1),                                                                                                      \
  ACTION(1, 1, 2), CONDITION(0, 1), CONDITION(2, 1),                                                                    \
  ACTION(2, 0, 1), CONDITION(0, 1), CONDITION(1, 1),                                                                    \
  ACTION(0, 1, 0)
#define PORTER_FROM(s0, s1, s2, g0, g1, g2) PORTER_TABLE, TASK(0, s0, g0), TASK(1, s1, g1), TASK(2, s2, g2), SEED_1, END
#define PORTER_TO(g0, g1, g2) BYTES(PORTER_FROM(0, 0, 0, g0, g1, g2))
#define PORTER PORTER_TO(1, 2, 1)
#define PORTER_WITHOUT_SEED BYTES(PORTER_TABLE, TASK(0, 0, 1), TASK(1, 0, 2), TASK(2, 0, 1), 5, 0, 0, 0, 0, END)

static const uint8_t porter_of_the_document[] = {
    0x01, 0x02, 0x01, 0x03, 0x01, 0x02, 0x02, 0x00, 0x00, 0x01, 0x02, 0x01, 0x00, 0x01, 0x02, 0x01, 0x01, 0x02, 0x03,
    0x00, 0x01, 0x03, 0x02, 0x01, 0x02, 0x02, 0x00, 0x01, 0x03, 0x00, 0x01, 0x03, 0x01, 0x01, 0x02, 0x00, 0x01, 0x00,
    0x04, 0x00, 0x00, 0x01, 0x04, 0x01, 0x00, 0x02, 0x04, 0x02, 0x00, 0x01, 0x05, 0x00, 0x00, 0x00, 0x01, 0x06};

/* Two variables of 2 values, each 0 to 1, each action wanting the other variable at a value. */
#define RING_WANTING(value)                                                                                             \
  BYTES(VARIABLE(2), VARIABLE(2), ACTION(0, 0, 1), CONDITION(1, value), ACTION(1, 0, 1), CONDITION(0, value),           \
        TASK(0, 0, 1), TASK(1, 0, 1), SEED_1, END)
#define RING_AND_FREE_ACTION(value)                                                                                     \
  BYTES(VARIABLE(2), VARIABLE(2), VARIABLE(2), ACTION(0, 0, 1), CONDITION(1, value), ACTION(1, 0, 1),                   \
        CONDITION(0, value), ACTION(2, 0, 1), TASK(0, 0, 1), TASK(1, 0, 1), TASK(2, 0, 1), SEED_1, END)
#define TRACE_COMES_ROUND BYTES(VARIABLE(3), ACTION(0, 1, 2), ACTION(0, 2, 1), TASK(0, 0, 2), SEED_1, END)

/* Table 1 of source 004. Variables: haystack, bucket, water. */
#define HORSE_BREEDER                                                                                                   \
  BYTES(VARIABLE(3), VARIABLE(2), VARIABLE(3),                                                                          \
        ACTION(0, 1, 0),                                                                                                \
        ACTION(0, 0, 1), CONDITION(1, 0),                                                                               \
        ACTION(0, 1, 2),                                                                                                \
        ACTION(1, 1, 0),                                                                                                \
        ACTION(1, 0, 1), CONDITION(0, 0),                                                                               \
        ACTION(2, 0, 1), CONDITION(1, 1),                                                                               \
        ACTION(2, 1, 2), CONDITION(1, 1),                                                                               \
        TASK(0, 0, 2), TASK(1, 0, 0), TASK(2, 0, 2), SEED_1, END)

#define RISING BYTES(0, 1, 2, 3, 4)
#define ROOM 300

/* ---- one call each: is everything as it should be? ---- */

static int same(marrowkite_answer got, marrowkite_answer wanted) {
  if (memcmp(&got, &wanted, sizeof got) == 0) return 1;
  printf("  got %lu %lu %lu, wanted %lu %lu %lu\n", got.number, got.first, got.second, wanted.number, wanted.first,
         wanted.second);
  return 0;
}

static int say(int holds, const char *what) {
  if (!holds) printf("  %s\n", what);
  return holds;
}

/* Ends the loan of an input. */
static int kept(lent input, bytes given) {
  int holds = say(unaltered(input, given), "an input or its guard bytes were altered");
  free(input.block);
  return holds;
}

static lent lend_room(size_t room) {
  uint8_t filler[ROOM];
  for (size_t i = 0; i < ROOM; i++) filler[i] = (uint8_t)(0xaa + i);
  return lend((bytes){filler, room});
}

/* Ends the loan of a buffer, which has to hold some bytes and behind them the filler. */
static int holds_only(lent buffer, bytes wanted) {
  int holds = wanted.len <= buffer.len && memcmp(buffer.at, wanted.at, wanted.len) == 0;
  for (size_t i = wanted.len; i < buffer.len; i++) holds &= buffer.at[i] == (uint8_t)(0xaa + i);
  holds = say(holds, "the buffer does not hold what it should") & say(guarded(buffer), "guard bytes were altered");
  free(buffer.block);
  return holds;
}

static int check(bytes file, marrowkite_answer wanted) {
  lent f = lend(file);
  return same(marrowkite_check(f.at, f.len), wanted) & kept(f, file);
}

static int plan_for(bytes file, uint64_t crew, bytes ranks, size_t room, marrowkite_answer wanted, bytes left) {
  lent f = lend(file), r = lend(ranks), buffer = lend_room(room);
  return same(marrowkite_plan(f.at, f.len, crew, r.at, r.len, buffer.at, buffer.len), wanted) & kept(f, file) &
         kept(r, ranks) & holds_only(buffer, left);
}

static int plan(bytes file, bytes ranks, size_t room, marrowkite_answer wanted, bytes left) {
  return plan_for(file, 0, ranks, room, wanted, left);
}

static int seeded_for(bytes file, uint64_t crew, size_t room, marrowkite_answer wanted, bytes left) {
  lent f = lend(file), buffer = lend_room(room);
  return same(marrowkite_plan_seeded(f.at, f.len, crew, buffer.at, buffer.len), wanted) & kept(f, file) &
         holds_only(buffer, left);
}

static int plan_seeded(bytes file, size_t room, marrowkite_answer wanted, bytes left) {
  return seeded_for(file, 0, room, wanted, left);
}

static int run_for(bytes file, uint64_t crew, bytes steps, size_t room, marrowkite_answer wanted, bytes left) {
  lent f = lend(file), s = lend(steps), buffer = lend_room(room);
  return same(marrowkite_run(f.at, f.len, crew, s.at, s.len, buffer.at, buffer.len), wanted) & kept(f, file) &
         kept(s, steps) & holds_only(buffer, left);
}

static int run(bytes file, bytes steps, size_t room, marrowkite_answer wanted, bytes left) {
  return run_for(file, 0, steps, room, wanted, left);
}

static int report_for(bytes file, uint64_t crew, uint64_t first, uint64_t n, size_t room, marrowkite_answer wanted, bytes left) {
  lent f = lend(file), buffer = lend_room(room);
  return same(marrowkite_report(f.at, f.len, crew, first, n, buffer.at, buffer.len), wanted) & kept(f, file) &
         holds_only(buffer, left);
}

/* The porter's lists but for the tasks, in which the cart is to end at some value; with a situation, and a set of situations in
 * which the pass is taken. */
#define PORTER_IN(situation, set)                                                                                      \
  situation, BYTES(2, 3, 2), BYTES(0, 0, 1, set, 0, 1, 0, 1, 255, 0, 1, 1, 2, 255, 2, 2, 0, 1, 255, 2, 0, 1, 0, 255, 0), BYTES(0, 1, 2, 1, 0, 1, 1, 1)
#define PORTER_LISTS PORTER_IN(0, 255)
#define TASKS_TO(goal) 0, 0, 1, 1, 0, goal, 2, 0, 1
#define TASKS(goal) BYTES(TASKS_TO(goal))
#define CREW(seed) 3, 0, 0, 0, seed

static int write_lists(uint8_t situation, bytes variables, bytes actions, bytes conditions, bytes crews, bytes tasks, size_t room,
                       marrowkite_answer wanted, bytes left) {
  lent v = lend(variables), a = lend(actions), c = lend(conditions), k = lend(crews), t = lend(tasks), buffer = lend_room(room);
  marrowkite_answer given =
      marrowkite_write(situation, v.at, v.len, a.at, a.len, c.at, c.len, k.at, k.len, t.at, t.len, buffer.at, buffer.len);
  return same(given, wanted) & kept(v, variables) & kept(a, actions) & kept(c, conditions) & kept(k, crews) & kept(t, tasks) &
         holds_only(buffer, left);
}

/* Two ways to load the cart, of which the second holds in situation 2 and in no other. */
#define NIGHT_PORTER(situation, set)                                                                                    \
  BYTES(8, situation, 1, 2, 2, 0, 0, 1, 7, set, 2, 0, 0, 1, 7, 4, 4, 0, 0, 1, 5, 0, 0, 0, 1, 6)

/* The porter's actions, its direct orders, and its plans as chains. */
#define LISTED BYTES(0, 1, 2, 3)
#define ORDERS 0, 2, 0, 3, 1, 2, 1, 3, 3, 2
#define CHAIN(first, second) BYTES(first, second, second, 3, 3, 2)
#define TOO_LONG(len) ((bytes){(const uint8_t[len]){0}, len})

static int chart_for(bytes file, uint64_t crew, bytes actions, bytes pairs, marrowkite_answer wanted) {
  lent f = lend(file), a = lend(actions), p = lend(pairs);
  return same(marrowkite_chart(f.at, f.len, crew, a.at, a.len, p.at, p.len), wanted) & kept(f, file) & kept(a, actions) &
         kept(p, pairs);
}

static int chart(bytes file, bytes actions, bytes pairs, marrowkite_answer wanted) {
  return chart_for(file, 0, actions, pairs, wanted);
}

/* An occupant's record: of the porter's three variables, of the sum two bytes, and whether it waits, for which variable and value. */
#define OCCUPANT(s0, s1, s2, low, high, ...)                                                                            \
  ((bytes){(const uint8_t[40]){s0, s1, s2, [32] = low, high, 0, 0, __VA_ARGS__}, 40})
#define IDLE 0, 0, 0
#define WAITS(variable, value) 1, variable, value
#define EVENT(tick, action) 16, (tick) / 256, (tick) % 256, action

static int replay_for(bytes file, uint64_t crew, bytes log, marrowkite_answer wanted, bytes left) {
  lent f = lend(file), l = lend(log), occupant = lend_room(sizeof(marrowkite_occupant));
  return same(marrowkite_replay(f.at, f.len, crew, l.at, l.len, (marrowkite_occupant *)occupant.at), wanted) & kept(f, file) &
         kept(l, log) & holds_only(occupant, left);
}

static int replay(bytes file, bytes log, marrowkite_answer wanted, bytes left) { return replay_for(file, 0, log, wanted, left); }

/* 16,384 events, the pass taken and handed in, each 32,767 ticks after the one before; one more; or a part of one more. */
static int long_logs(void) {
  enum { MOST = 16384, LEN = 4 * MOST };
  uint8_t log[LEN + 4];
  for (unsigned k = 0; k <= MOST; k++) {
    const uint8_t event[] = {EVENT(k * 32767 % 65536, k % 2 ? 4 : 0)};
    memcpy(log + 4 * k, event, sizeof event);
  }
  marrowkite_occupant occupant;
  int holds = same(marrowkite_replay(porter_of_the_document, sizeof porter_of_the_document, 0, log, LEN, &occupant), DONE(MOST, 0));
  uint32_t sum = 32767u * (MOST - 1);
  for (int k = 0; k < 4; k++) holds &= say(occupant.sum[k] == (uint8_t)(sum >> 8 * k), "another sum");
  holds &= replay(PORTER, (bytes){log, LEN + 4}, REFUSED(19, LEN, 0)) & replay(PORTER, (bytes){log, LEN + 3}, REFUSED(1, LEN, 0));
  log[LEN] = 6;
  return holds & replay(PORTER, (bytes){log, LEN + 3}, REFUSED(2, LEN, 0));
}

static int replays(void) {
  return say(sizeof(marrowkite_occupant) == 40, "another record") & replay(PORTER, NOTHING, DONE(0, 0), OCCUPANT(0, 0, 0, 0, 0, IDLE)) &
         replay(PORTER, BYTES(EVENT(7, 1), EVENT(9, 0), EVENT(300, 3), EVENT(310, 2)), DONE(4, 0), OCCUPANT(1, 2, 1, 47, 1, IDLE)) &
         replay(PORTER, BYTES(EVENT(7, 1), EVENT(9, 3)), DONE(1, 1), OCCUPANT(0, 1, 0, 2, 0, WAITS(0, 1))) &
         replay(PORTER, BYTES(EVENT(7, 1), EVENT(9, 2)), DONE(1, 1), OCCUPANT(0, 1, 0, 2, 0, WAITS(0, 1))) &
         replay(PORTER, BYTES(EVENT(7, 2)), DONE(0, 1), OCCUPANT(0, 0, 0, 0, 0, WAITS(1, 1))) &
         replay(PORTER, BYTES(EVENT(0, 1), EVENT(1, 3), EVENT(2, 0), EVENT(3, 3)), DONE(3, 1), OCCUPANT(1, 1, 1, 3, 0, IDLE)) &
         replay(PORTER, BYTES(EVENT(0, 0), EVENT(1, 4), EVENT(2, 0)), DONE(3, 0), OCCUPANT(1, 0, 0, 2, 0, IDLE)) &
         replay(PORTER, BYTES(EVENT(65535, 0), EVENT(1, 4)), DONE(2, 0), OCCUPANT(0, 0, 0, 2, 0, IDLE)) &
         replay(PORTER, BYTES(EVENT(40000, 0), EVENT(7231, 4)), DONE(2, 0), OCCUPANT(0, 0, 0, 255, 127, IDLE)) &
         replay(PORTER, BYTES(EVENT(40000, 0), EVENT(7232, 4)), REFUSED(23, 4, 0)) &
         replay(PORTER, BYTES(EVENT(5, 0), EVENT(4, 5)), REFUSED(14, 4, 0)) &
         replay(PORTER, BYTES(EVENT(5, 0), 15, 0, 4, 5), REFUSED(2, 4, 0)) & replay(PORTER, BYTES(16, 0), REFUSED(1, 0, 0)) &
         replay(NIGHT_PORTER(2, 1), BYTES(EVENT(5, 1), EVENT(4, 0)), REFUSED(20, 4, 0)) &
         replay(PORTER_WITHOUT_SEED, BYTES(0), REFUSED(5, 50, 0)) & long_logs();
}

static int journeys_for(bytes file, uint64_t crew, bytes ranks, bytes rides, uint64_t start, size_t room, marrowkite_answer wanted,
                        bytes left) {
  lent f = lend(file), r = lend(ranks), d = lend(rides), buffer = lend_room(room);
  marrowkite_answer given =
      marrowkite_journeys(f.at, f.len, crew, r.at, r.len, d.at, d.len, start, buffer.at, buffer.len);
  return same(given, wanted) & kept(f, file) & kept(r, ranks) & kept(d, rides) & holds_only(buffer, left);
}

static int journeys(bytes rides, uint64_t start, size_t room, marrowkite_answer wanted, bytes left) {
  return journeys_for(PORTER, 0, RISING, rides, start, room, wanted, left);
}

/* The porter as crew 0, and a crew 1 that brings the pass back and fetches the cart. */
#define TWO_CREWS                                                                                                       \
  BYTES(PORTER_TABLE, TASK(0, 0, 1), TASK(1, 0, 2), TASK(2, 0, 1), SEED_1, 9, TASK(0, 1, 0), TASK(1, 0, 1), TASK(2, 0, 0), \
        5, 0, 0, 0, 2, END)
#define SECOND_CREW_WITHOUT_SEED                                                                                        \
  BYTES(PORTER_TABLE, TASK(0, 0, 1), TASK(1, 0, 2), TASK(2, 0, 1), SEED_1, 9, TASK(0, 1, 0), TASK(1, 0, 1), TASK(2, 0, 0), END)

/* What every call that names a crew says of one that is not there, lent nothing that would do. */
static int not_there(bytes file, uint64_t crew) {
  return plan_for(file, crew, NOTHING, 0, REFUSED(22, crew, 0)) & seeded_for(file, crew, 8, REFUSED(22, crew, 0)) &
         run_for(file, crew, BYTES(255), 0, REFUSED(22, crew, 0)) & report_for(file, crew, 0, 0, 0, REFUSED(22, crew, 0)) &
         chart_for(file, crew, TOO_LONG(257), NOTHING, ANSWER(22, crew, 0)) & replay_for(file, crew, BYTES(0), REFUSED(22, crew, 0)) &
         journeys_for(file, crew, NOTHING, BYTES(255), 200, 0, REFUSED(22, crew, 0));
}

static int crews(void) {
  return check(TWO_CREWS, DONE(5, 3)) & plan_for(TWO_CREWS, 0, RISING, 8, DONE(4, 0), BYTES(0, 1, 3, 2)) &
         plan_for(TWO_CREWS, 1, RISING, 8, DONE(2, 0), BYTES(1, 4)) &
         plan_for(TWO_CREWS, 1, BYTES(4, 3, 2, 1, 0), 8, DONE(2, 0), BYTES(4, 1)) &
         seeded_for(TWO_CREWS, 0, 8, DONE(4, 0), BYTES(1, 0, 3, 2)) &
         run_for(TWO_CREWS, 1, BYTES(4, 1), 8, DONE(3, 0), BYTES(0, 1, 0)) &
         run_for(TWO_CREWS, 0, BYTES(4, 1), 8, REFUSED(15, 0, 0)) &
         report_for(TWO_CREWS, 1, 1, 1, 4, REFUSED(13, 15, 0)) & chart_for(TWO_CREWS, 1, BYTES(1, 4), NOTHING, DONE(2, 0)) &
         chart_for(TWO_CREWS, 0, BYTES(1, 4), NOTHING, ANSWER(25, 0, 0)) &
         replay_for(TWO_CREWS, 1, BYTES(EVENT(0, 4), EVENT(0, 1)), DONE(2, 0), OCCUPANT(0, 1, 0, 0, 0, IDLE)) &
         replay_for(TWO_CREWS, 0, BYTES(EVENT(0, 4), EVENT(0, 1)), DONE(1, 1), OCCUPANT(0, 1, 0, 0, 0, IDLE)) & not_there(TWO_CREWS, 2) & not_there(PORTER, 1) &
         not_there(TWO_CREWS, 8) & not_there(TWO_CREWS, 255) & not_there(TWO_CREWS, 1ul << 32) & not_there(TWO_CREWS, ~0ul) &
         check(SECOND_CREW_WITHOUT_SEED, ANSWER(3, 68, 0)) & seeded_for(SECOND_CREW_WITHOUT_SEED, 0, 8, REFUSED(3, 68, 0)) &
         seeded_for(SECOND_CREW_WITHOUT_SEED, 9, 8, REFUSED(3, 68, 0)) &
         write_lists(PORTER_LISTS, BYTES(CREW(1), CREW(2)), BYTES(TASKS_TO(2), 0, 1, 0, 1, 0, 1, 2, 0, 0), 80, DONE(74, 0), TWO_CREWS) &
         write_lists(PORTER_LISTS, BYTES(CREW(1), CREW(0)), BYTES(TASKS_TO(2), TASKS_TO(2)), 80, REFUSED(5, 68, 0));
}

static int draw(uint64_t seed, uint64_t count, size_t room, marrowkite_answer wanted, bytes left) {
  lent buffer = lend_room(room);
  return same(marrowkite_draw(seed, count, buffer.at, buffer.len), wanted) & holds_only(buffer, left);
}

static int record_at(bytes file, uint64_t at, marrowkite_record wanted) {
  lent f = lend(file);
  marrowkite_record got = marrowkite_record_at(f.at, f.len, at);
  return say(memcmp(&got, &wanted, sizeof got) == 0, "another record") & kept(f, file);
}

/* ---- beyond one call ---- */

/* Document 01's draw, written out. */
static uint64_t drawn(uint64_t last, size_t count, uint8_t *list) {
  for (size_t i = 0; i < count; i++) list[i] = (uint8_t)i;
  for (size_t i = count; i-- > 1;) {
    last = last * 16807 % 2147483647;
    size_t j = last % (i + 1);
    uint8_t entry = list[i];
    list[i] = list[j];
    list[j] = entry;
  }
  return last;
}

static int draw_of_256(void) {
  uint8_t list[256];
  uint64_t last = drawn(1, 256, list);
  return draw(1, 256, 256, DONE(last, 0), (bytes){list, 256}) & draw(1, 256, ROOM, DONE(last, 0), (bytes){list, 256});
}

/* A draw of 256 takes 255 numbers: 39 of them and one of 56 take 10,000. */
static int generator(void) {
  uint8_t list[256];
  uint64_t last = 1;
  for (int i = 0; i < 39; i++) last = marrowkite_draw(last, 256, list, sizeof list).first;
  return marrowkite_draw(last, 56, list, sizeof list).first == 1043618065;
}

/* Different files one after another, each answered as if it were the first. */
static int in_a_row(void) {
  int holds = 1;
  for (int round = 0; round < 3; round++) {
    holds &= plan(PORTER, RISING, 8, DONE(4, 0), BYTES(0, 1, 3, 2));
    holds &= plan(PORTER, RISING, 8, DONE(4, 0), BYTES(0, 1, 3, 2));
    holds &= plan_seeded(RING_WANTING(0), 8, REFUSED(12, 0, 0));
    holds &= plan_seeded(TRACE_COMES_ROUND, 8, REFUSED(10, 0, 255)); /* the deepest stack */
    holds &= plan_seeded(PORTER, 8, DONE(4, 0), BYTES(1, 0, 3, 2));
    holds &= run(PORTER, BYTES(0, 4), 8, REFUSED(16, 1, 0));
    holds &= run(PORTER, BYTES(1, 0, 3, 2), 8, DONE(3, 0), BYTES(1, 2, 1));
    holds &= replay(PORTER, BYTES(EVENT(0, 1), EVENT(0, 3)), DONE(1, 1), OCCUPANT(0, 1, 0, 0, 0, WAITS(0, 1)));
    holds &= check(HORSE_BREEDER, DONE(7, 3));
    holds &= check(TRACE_COMES_ROUND, DONE(2, 1));
    holds &= draw(1, 5, 8, DONE(984943658, 0), BYTES(3, 0, 4, 1, 2));
    holds &= draw(1, 3, 8, DONE(282475249, 0), BYTES(0, 2, 1));
  }
  return holds;
}

/* Threads of the smallest stack that the C library allows, of which it leaves 11,968 bytes. */
typedef unsigned long pthread_t;
typedef union {
  char size[56];
  long align;
} pthread_attr_t;
int pthread_attr_init(pthread_attr_t *attr);
int pthread_attr_setstacksize(pthread_attr_t *attr, size_t size);
int pthread_create(pthread_t *thread, const pthread_attr_t *attr, void *(*start)(void *), void *arg);
int pthread_join(pthread_t thread, void **result);
enum { THREADS = 8, SMALLEST_STACK = 16384 };

static int charts_in_a_row(void) {
  static const uint8_t listed[] = {0, 1, 2, 3}, orders[] = {ORDERS};
  const uint8_t *file = porter_of_the_document;
  size_t len = sizeof porter_of_the_document;
  marrowkite_answer given = marrowkite_chart(file, len, 0, listed, sizeof listed, orders, sizeof orders);
  marrowkite_answer lacking = marrowkite_chart(file, len, 0, listed, sizeof listed, orders, 8);
  return given.number == 0 && given.first == 4 && given.second == 5 && lacking.number == 28 && lacking.first == 3 && lacking.second == 2;
}

static void *many_in_a_row(void *holds) {
  for (int i = 0; i < 100; i++) *(int *)holds &= in_a_row();
  return 0;
}

static void *many_charts(void *holds) {
  for (int i = 0; i < 100; i++) *(int *)holds &= charts_in_a_row();
  return 0;
}

static int on_threads(void *(*work)(void *)) {
  pthread_attr_t attr;
  pthread_t threads[THREADS];
  int each[THREADS], holds = pthread_attr_init(&attr) == 0 && pthread_attr_setstacksize(&attr, SMALLEST_STACK) == 0;
  for (int i = 0; i < THREADS; i++) {
    each[i] = 1;
    if (pthread_create(&threads[i], &attr, work, &each[i]) != 0) return 0;
  }
  for (int i = 0; i < THREADS; i++) holds &= pthread_join(threads[i], 0) == 0 && each[i];
  return holds;
}

/* ---- the cases ---- */

static int passed, failed;

static void report(const char *name, int holds) {
  printf("%s: %s\n", name, holds ? "passed" : "FAILED");
  holds ? passed++ : failed++;
}

int main(void) {
  report("case 1, draw of 3", draw(1, 3, 8, DONE(282475249, 0), BYTES(0, 2, 1)));
  report("case 2, draw of 5", draw(1, 5, 5, DONE(984943658, 0), BYTES(3, 0, 4, 1, 2)));
  report("case 3, ranks rising", plan(PORTER, RISING, 8, DONE(4, 0), BYTES(0, 1, 3, 2)));
  report("case 4, ranks as drawn", plan(PORTER, BYTES(3, 0, 4, 1, 2), 8, DONE(4, 0), BYTES(1, 0, 3, 2)) &
                                       plan_seeded(PORTER, 8, DONE(4, 0), BYTES(1, 0, 3, 2)));
  report("case 5, empty plan", plan(PORTER_TO(0, 0, 0), RISING, 8, DONE(0, 0), NOTHING) &
                                   plan(PORTER_TO(0, 0, 0), RISING, 0, DONE(0, 0), NOTHING));
  report("case 6, pass back", plan(PORTER_TO(0, 2, 1), RISING, 8, REFUSED(11, 2, 0)));
  report("case 7, no ride", plan(PORTER_TO(1, 2, 0), RISING, 8, REFUSED(11, 2, 2)));
  report("case 8, cart not away", plan(PORTER_TO(1, 1, 1), RISING, 8, DONE(3, 0), BYTES(0, 1, 3)));
  report("case 9, no walk", plan(BYTES(PORTER_FROM(0, 2, 0, 1, 0, 1)), RISING, 8, REFUSED(10, 1, 0)));
  report("case 10, short buffer", plan(PORTER, RISING, 3, REFUSED(13, 4, 0)) &
                                      plan(PORTER, RISING, 4, DONE(4, 0), BYTES(0, 1, 3, 2)) &
                                      plan_seeded(PORTER, 3, REFUSED(13, 4, 0)));
  report("case 11, bad ranks", plan(PORTER, BYTES(0, 1, 1, 3, 4), 8, REFUSED(9, 2, 0)) &
                                   plan(PORTER, BYTES(0, 1, 2, 3), 8, REFUSED(9, 4, 1)));
  report("case 12, runs", run(PORTER, BYTES(0, 1, 3, 2), 8, DONE(3, 0), BYTES(1, 2, 1)) &
                              run(PORTER, BYTES(1, 3), 8, REFUSED(15, 1, 0)) &
                              run(PORTER, BYTES(0, 4), 8, REFUSED(16, 1, 0)) &
                              run(PORTER, NOTHING, 8, REFUSED(17, 0, 0)) &
                              run(PORTER, BYTES(0, 1, 3, 2), 2, REFUSED(13, 3, 0)));
  report("case 13, rings", plan(RING_WANTING(1), BYTES(0, 1), 8, REFUSED(12, 0, 0)) &
                               plan(RING_WANTING(0), BYTES(0, 1), 8, REFUSED(12, 0, 0)) &
                               plan(RING_AND_FREE_ACTION(1), BYTES(0, 1, 2), 8, REFUSED(12, 1, 0)) &
                               plan(RING_AND_FREE_ACTION(0), BYTES(0, 1, 2), 8, REFUSED(12, 1, 0)));
  report("case 14, trace comes round", plan(TRACE_COMES_ROUND, BYTES(0, 1), 8, REFUSED(10, 0, 255)));
  report("case 15, horse breeder", plan(HORSE_BREEDER, BYTES(0, 1, 2, 3, 4, 5, 6), 8, REFUSED(11, 5, 1)));
  bytes porter = {porter_of_the_document, sizeof porter_of_the_document};
  report("case 16, files", say(porter.len == PORTER.len && memcmp(porter.at, PORTER.at, 56) == 0, "another porter") &
                               check(porter, DONE(5, 3)) & check(PORTER_WITHOUT_SEED, ANSWER(5, 50, 0)) &
                               check((bytes){porter.at, 55}, ANSWER(1, 55, 0)) &
                               check((bytes){porter.at, 54}, ANSWER(1, 50, 0)) &
                               check(BYTES(PORTER_FROM(0, 0, 0, 1, 2, 1), 0), ANSWER(8, 56, 0)));
  report("case 17, draws at the edges", draw(2147483646, 1, 8, DONE(2147483646, 0), BYTES(0)) &
                                            draw(2147483647, 1, 8, REFUSED(18, 2147483647, 0)) & draw_of_256() &
                                            draw(1, 257, ROOM, REFUSED(19, 257, 0)));
  report("files from lists", write_lists(PORTER_LISTS, BYTES(CREW(1)), TASKS(2), 60, DONE(56, 0), porter) &
                                 write_lists(PORTER_LISTS, BYTES(CREW(1)), TASKS(2), 56, DONE(56, 0), porter) &
                                 write_lists(PORTER_LISTS, BYTES(CREW(1)), TASKS(2), 55, REFUSED(13, 56, 0)) &
                                 write_lists(PORTER_LISTS, BYTES(CREW(0)), TASKS(2), 60, REFUSED(5, 50, 0)) &
                                 write_lists(PORTER_LISTS, BYTES(CREW(1)), TASKS(3), 60, REFUSED(5, 42, 0)) &
                                 write_lists(PORTER_LISTS, NOTHING, NOTHING, 60, REFUSED(3, 38, 0)) &
                                 write_lists(PORTER_LISTS, NOTHING, TASKS(2), 60, REFUSED(5, 50, 0)) &
                                 write_lists(0, NOTHING, NOTHING, NOTHING, NOTHING, NOTHING, 60, REFUSED(3, 0, 0)));
  report("situations", write_lists(PORTER_IN(8, 255), BYTES(CREW(1)), TASKS(2), 60, REFUSED(5, 0, 0)) &
                           write_lists(PORTER_IN(7, 255), BYTES(CREW(1)), TASKS(2), 57, REFUSED(13, 58, 0)) &
                           write_lists(PORTER_IN(7, 127), BYTES(CREW(1)), TASKS(2), 59, REFUSED(13, 60, 0)) &
                           check(NIGHT_PORTER(1, 6), DONE(2, 1)) & check(NIGHT_PORTER(2, 6), ANSWER(7, 10, 0)) &
                           plan(NIGHT_PORTER(1, 2), BYTES(0, 1), 8, DONE(1, 0), BYTES(0)) &
                           plan(NIGHT_PORTER(2, 1), BYTES(0, 1), 8, DONE(1, 0), BYTES(1)) &
                           plan(NIGHT_PORTER(3, 1), BYTES(0, 1), 8, REFUSED(10, 0, 1)) &
                           run(NIGHT_PORTER(2, 1), BYTES(0), 8, REFUSED(20, 0, 0)));
  report("charts", chart(PORTER, LISTED, BYTES(ORDERS), DONE(4, 5)) & chart(PORTER, LISTED, BYTES(ORDERS, 0, 2), DONE(4, 6)) &
                       chart(PORTER, LISTED, CHAIN(0, 1), DONE(4, 3)) & chart(PORTER, LISTED, CHAIN(1, 0), DONE(4, 3)) &
                       chart(PORTER_TO(0, 0, 0), NOTHING, NOTHING, DONE(0, 0)) &
                       chart(PORTER, LISTED, BYTES(0, 3, 1, 3), ANSWER(28, 0, 2)) &
                       chart(PORTER, LISTED, BYTES(ORDERS, 2, 0), ANSWER(27, 0, 0)) &
                       chart(PORTER, LISTED, BYTES(ORDERS, 0), ANSWER(26, 5, 0)) &
                       chart(PORTER, BYTES(0, 1, 2, 3, 4), BYTES(ORDERS), ANSWER(25, 4, 0)) &
                       chart(PORTER, BYTES(0, 1, 5), BYTES(ORDERS), ANSWER(14, 2, 0)) &
                       chart(PORTER, TOO_LONG(257), TOO_LONG(8193), ANSWER(19, 257, 0)) &
                       chart(PORTER, TOO_LONG(256), TOO_LONG(8193), ANSWER(19, 4097, 0)) &
                       chart(PORTER, TOO_LONG(256), TOO_LONG(8192), ANSWER(25, 0, 0)) &
                       chart(RING_WANTING(1), BYTES(0, 1), BYTES(0, 1), ANSWER(12, 0, 0)) &
                       chart(PORTER_WITHOUT_SEED, NOTHING, NOTHING, ANSWER(5, 50, 0)));
  report("access logs", replays());
  report("crews", crews());
  report("journeys", journeys(BYTES(2, 0, 7), 0, 8, DONE(1, 0), BYTES(3, 0, 7)) &
                         journeys(BYTES(2, 0, 7), 5, 6, DONE(2, 0), BYTES(3, 5, 0, 3, 0, 7)) &
                         journeys(BYTES(2, 0, 7), 5, 5, REFUSED(13, 6, 0)) &
                         journeys(BYTES(0, 0, 1, 1, 1, 3), 0, 8, DONE(2, 0), BYTES(0, 0, 1, 1, 1, 3)) &
                         journeys(NOTHING, 199, 8, DONE(0, 0), NOTHING) & journeys(BYTES(4, 0, 7), 3, 8, DONE(0, 0), NOTHING) &
                         journeys(BYTES(2, 0, 7, 0), 200, 8, REFUSED(5, 1, 0)) &
                         journeys(BYTES(2, 0, 7, 5, 1, 2, 0), 0, 8, REFUSED(14, 1, 0)) &
                         journeys(BYTES(2, 0, 7, 0), 0, 8, REFUSED(1, 1, 0)) &
                         journeys(BYTES(2, 0, 200), 0, 8, REFUSED(5, 0, 0)) & journeys(BYTES(2, 7, 7), 0, 8, REFUSED(6, 0, 0)) &
                         journeys(BYTES(4, 0, 7, 4, 1, 2), 0, 8, REFUSED(7, 1, 0)) &
                         journeys_for(TWO_CREWS, 1, RISING, BYTES(4, 0, 7, 1, 2, 3), 0, 12, DONE(4, 0),
                                      BYTES(0, 0, 2, 0, 2, 3, 1, 3, 0, 1, 0, 7)) &
                         journeys_for(PORTER, 0, NOTHING, BYTES(9), 200, 0, REFUSED(9, 0, 1)) &
                         journeys_for(RING_WANTING(1), 0, BYTES(0, 1), BYTES(9), 200, 0, REFUSED(12, 0, 0)) &
                         journeys_for(PORTER_WITHOUT_SEED, 0, NOTHING, NOTHING, 200, 0, REFUSED(5, 50, 0)));
  report("single records", record_at(PORTER, 18, (marrowkite_record){0, 3, 19, 2, 21}) &
                               record_at(PORTER, 55, (marrowkite_record){0, 6, 56, 0, 56}) &
                               record_at(PORTER, 0, (marrowkite_record){0, 1, 1, 1, 2}) &
                               record_at(TWO_CREWS, 55, (marrowkite_record){0, 9, 56, 0, 56}) &
                               record_at(PORTER, 7, (marrowkite_record){2, 0, 7, 0, 7}) &
                               record_at(PORTER, 56, (marrowkite_record){1, 0, 56, 0, 56}) &
                               record_at(PORTER, ~0ul, (marrowkite_record){1, 0, 56, 0, 56}) &
                               record_at(BYTES(5, 0, 0, 0), 0, (marrowkite_record){1, 0, 0, 0, 0}) &
                               record_at(NOTHING, 0, (marrowkite_record){1, 0, 0, 0, 0}));
  report("the generator's 10,000th number", generator());
  report("different files in a row", in_a_row());
  report("many calls on 8 threads of 16 KiB", on_threads(many_in_a_row));
  report("many charts on 8 threads of 16 KiB", on_threads(many_charts));
  printf("%d passed, %d failed\n", passed, failed);
  return failed != 0;
}

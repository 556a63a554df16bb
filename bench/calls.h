/* The ten calls of a side, the library or the yardstick, and what one of them is given: for the hosts that count and time. */
#ifndef CALLS_H
#define CALLS_H

#include "plain.h"

typedef struct {
  marrowkite_answer (*check)(const uint8_t *, size_t);
  marrowkite_answer (*plan)(const uint8_t *, size_t, uint64_t, const uint8_t *, size_t, uint8_t *, size_t);
  marrowkite_answer (*plan_seeded)(const uint8_t *, size_t, uint64_t, uint8_t *, size_t);
  marrowkite_answer (*run)(const uint8_t *, size_t, uint64_t, const uint8_t *, size_t, uint8_t *, size_t);
  marrowkite_answer (*draw)(uint64_t, uint64_t, uint8_t *, size_t);
  marrowkite_record (*record_at)(const uint8_t *, size_t, uint64_t);
  marrowkite_answer (*write)(uint8_t, const uint8_t *, size_t, const uint8_t *, size_t, const uint8_t *, size_t, const uint8_t *,
                             size_t, const uint8_t *, size_t, uint8_t *, size_t);
  marrowkite_answer (*report)(const uint8_t *, size_t, uint64_t, uint64_t, uint64_t, uint8_t *, size_t);
  marrowkite_answer (*chart)(const uint8_t *, size_t, uint64_t, const uint8_t *, size_t, const uint8_t *, size_t);
  marrowkite_answer (*replay)(const uint8_t *, size_t, uint64_t, const uint8_t *, size_t, marrowkite_occupant *);
  marrowkite_answer (*journeys)(const uint8_t *, size_t, uint64_t, const uint8_t *, size_t, const uint8_t *, size_t, uint64_t,
                                uint8_t *, size_t);
} calls;

static const calls library = {marrowkite_check, marrowkite_plan,      marrowkite_plan_seeded, marrowkite_run,
                              marrowkite_draw,  marrowkite_record_at, marrowkite_write,       marrowkite_report,
                              marrowkite_chart, marrowkite_replay,    marrowkite_journeys};
static const calls plain = {plain_check, plain_plan,      plain_plan_seeded, plain_run,
                            plain_draw,  plain_record_at, plain_write,       plain_report,
                            plain_chart, plain_replay,    plain_journeys};

enum { RECORD_AT, CHECK, PLAN, PLAN_SEEDED, RUN, DRAW, WRITE, REPORT, CHART, REPLAY, JOURNEYS };
enum { READ = 5, ROOM = 131072 };

/* Which call, the crew, two numbers (the place; or the seed and the count; or the first seed and how many; or the situation; or
 * the start floor), how many bytes of the slices that are read (file and list or log; or file, actions and pairs; or file, ranks
 * and rides; or variables, actions, conditions, crews and tasks) and of the buffer, the occupant's record for a log. */
typedef struct {
  size_t which, crew, one, two, len[READ], buffer_len;
} given;

static uint8_t in[READ][ROOM], buffer[ROOM];

static void make_calls(const calls *c, given g, size_t often) {
  const uint8_t *file = in[0], *list = in[1];
  size_t file_len = g.len[0], list_len = g.len[1];
  for (size_t k = 0; k < often; k++) {
    if (g.which == CHECK) c->check(file, file_len);
    if (g.which == PLAN) c->plan(file, file_len, g.crew, list, list_len, buffer, g.buffer_len);
    if (g.which == PLAN_SEEDED) c->plan_seeded(file, file_len, g.crew, buffer, g.buffer_len);
    if (g.which == RUN) c->run(file, file_len, g.crew, list, list_len, buffer, g.buffer_len);
    if (g.which == DRAW) c->draw(g.one, g.two, buffer, g.buffer_len);
    if (g.which == RECORD_AT) c->record_at(file, file_len, g.one);
    if (g.which == REPORT) c->report(file, file_len, g.crew, g.one, g.two, buffer, g.buffer_len);
    if (g.which == CHART) c->chart(file, file_len, g.crew, list, list_len, in[2], g.len[2]);
    if (g.which == REPLAY) c->replay(file, file_len, g.crew, list, list_len, (marrowkite_occupant *)buffer);
    if (g.which == JOURNEYS)
      c->journeys(file, file_len, g.crew, list, list_len, in[2], g.len[2], g.one, buffer, g.buffer_len);
    if (g.which == WRITE)
      c->write((uint8_t)g.one, in[0], g.len[0], in[1], g.len[1], in[2], g.len[2], in[3], g.len[3], in[4], g.len[4], buffer,
               g.buffer_len);
  }
}

long read(int from, void *to, size_t len);
long strtol(const char *text, char **end, int base);

static void read_all(uint8_t *to, size_t len) {
  for (size_t got = 0; got < len;) {
    long more = read(0, to + got, len - got);
    if (more <= 0) return;
    got += (size_t)more;
  }
}

/* Ten words, in the order of `given`; the bytes that are read come on standard input. */
static given read_given(char **words) {
  size_t n[10];
  for (int i = 0; i < 10; i++) n[i] = (size_t)strtol(words[i], 0, 10);
  given g = {n[0], n[1], n[2], n[3], {n[4], n[5], n[6], n[7], n[8]}, n[9]};
  for (int i = 0; i < READ; i++) read_all(in[i], g.len[i]);
  return g;
}

#endif

/* The calls of marrowkite.h under other names: the yardstick that the library is measured against (plain.c). */
#ifndef PLAIN_H
#define PLAIN_H

#include "marrowkite.h"

marrowkite_answer plain_check(const uint8_t *file, size_t file_len);
marrowkite_answer plain_plan(const uint8_t *file, size_t file_len, uint64_t crew, const uint8_t *ranks, size_t ranks_len,
                             uint8_t *plan, size_t plan_len);
marrowkite_answer plain_plan_seeded(const uint8_t *file, size_t file_len, uint64_t crew, uint8_t *plan, size_t plan_len);
marrowkite_answer plain_run(const uint8_t *file, size_t file_len, uint64_t crew, const uint8_t *plan, size_t plan_len,
                            uint8_t *state, size_t state_len);
marrowkite_answer plain_draw(uint64_t seed, uint64_t count, uint8_t *ranks, size_t ranks_len);
marrowkite_record plain_record_at(const uint8_t *file, size_t file_len, uint64_t at);
marrowkite_answer plain_write(uint8_t situation, const uint8_t *variables, size_t variables_len, const uint8_t *actions,
                              size_t actions_len, const uint8_t *conditions, size_t conditions_len, const uint8_t *crews,
                              size_t crews_len, const uint8_t *tasks, size_t tasks_len, uint8_t *file, size_t file_len);
marrowkite_answer plain_report(const uint8_t *file, size_t file_len, uint64_t crew, uint64_t first, uint64_t n,
                               uint8_t *report, size_t report_len);
marrowkite_answer plain_chart(const uint8_t *file, size_t file_len, uint64_t crew, const uint8_t *actions, size_t actions_len,
                              const uint8_t *pairs, size_t pairs_len);
marrowkite_answer plain_replay(const uint8_t *file, size_t file_len, uint64_t crew, const uint8_t *log, size_t log_len,
                               marrowkite_occupant *occupant);
marrowkite_answer plain_journeys(const uint8_t *file, size_t file_len, uint64_t crew, const uint8_t *ranks, size_t ranks_len,
                                 const uint8_t *rides, size_t rides_len, uint64_t start_floor, uint8_t *journeys,
                                 size_t journeys_len);

#endif

/* Writes the porter's study from lists, and plans it. docs/FORMAT.md says what the lists hold, docs/HOST.md how to build it. */
#include "marrowkite.h"

int printf(const char *format, ...); /* instead of stdio.h, which the kit's compiler does not have */

static const uint8_t variables[] = {2, 3, 2}; /* pass, cart, ride: how many values */

static const uint8_t actions[] = {
    0, 0, 1, 255, 0, /* take the pass: variable 0 from 0 to 1, in all situations, no condition */
    1, 0, 1, 255, 0, /* fetch the cart */
    1, 1, 2, 255, 2, /* ride up with the cart: two conditions */
    2, 0, 1, 255, 2, /* book the ride: two conditions */
    0, 1, 0, 255, 0, /* return the pass */
};

static const uint8_t conditions[] = {
    0, 1, 2, 1, /* to ride up: the pass is worn, the ride booked */
    0, 1, 1, 1, /* to book the ride: the pass is worn, the cart in the lobby */
};

static const uint8_t crews[] = {
    3, 0, 0, 0, 1, /* one crew: three tasks, and seed 1 */
};

static const uint8_t tasks[] = {
    0, 0, 1, /* pass: from the desk to worn */
    1, 0, 2, /* cart: from the store to the landing */
    2, 0, 1, /* ride: from none to booked */
};

static int refused(const char *call, marrowkite_answer answer) {
  printf("%s: refused %lu %lu %lu\n", call, answer.number, answer.first, answer.second);
  return 1;
}

int main(void) {
  uint8_t file[26482], plan[256];
  uint8_t situation = 0; /* 0: no record of it is written */
  marrowkite_answer written =
      marrowkite_write(situation, variables, sizeof variables, actions, sizeof actions, conditions, sizeof conditions,
                       crews, sizeof crews, tasks, sizeof tasks, file, sizeof file);
  if (written.number != 0) return refused("write", written);
  marrowkite_answer planned = marrowkite_plan_seeded(file, written.first, 0, plan, sizeof plan);
  if (planned.number != 0) return refused("plan", planned);
  printf("written %lu, plan", written.first);
  for (uint64_t step = 0; step < planned.first; step++) printf(" %d", plan[step]);
  printf("\n");
  return 0;
}

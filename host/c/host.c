/* Plans the porter file with its own seed. docs/HOST.md says how to build and run it. */
#include "marrowkite.h"

int printf(const char *format, ...); /* instead of stdio.h, which the kit's compiler does not have */

static const uint8_t porter[] = {
    1, 2,                          /* variable 0: pass (0 at the desk, 1 worn) */
    1, 3,                          /* variable 1: cart (0 in the store, 1 in the lobby, 2 on the landing) */
    1, 2,                          /* variable 2: ride (0 none, 1 booked) */
    2, 0, 0, 1,                    /* action 0: take the pass */
    2, 1, 0, 1,                    /* action 1: fetch the cart */
    2, 1, 1, 2, 3, 0, 1, 3, 2, 1,  /* action 2: ride up with the cart, if the pass is worn and the ride booked */
    2, 2, 0, 1, 3, 0, 1, 3, 1, 1,  /* action 3: book the ride, if the pass is worn and the cart in the lobby */
    2, 0, 1, 0,                    /* action 4: return the pass */
    4, 0, 0, 1,                    /* pass: from the desk to worn */
    4, 1, 0, 2,                    /* cart: from the store to the landing */
    4, 2, 0, 1,                    /* ride: from none to booked */
    5, 0, 0, 0, 1,                 /* seed 1 */
    6,                             /* end */
};

int main(void) {
  uint8_t plan[256];
  marrowkite_answer answer = marrowkite_plan_seeded(porter, sizeof porter, 0, plan, sizeof plan); /* for crew 0, the only one */
  if (answer.number != 0) {
    printf("refused %lu %lu %lu\n", answer.number, answer.first, answer.second);
    return 1;
  }
  printf("plan");
  for (uint64_t step = 0; step < answer.first; step++) printf(" %d", plan[step]);
  printf("\n");
  return 0;
}

/* Times one call: the library and the yardstick in turn, round after round, and prints the lowest nanoseconds a call of
 * each. Arguments: how many rounds, and what the call is given (calls.h). */
#include "calls.h"

struct timespec {
  long seconds, nanoseconds;
};
int clock_gettime(int clock, struct timespec *now);
int printf(const char *form, ...);

static double now(void) {
  struct timespec t;
  clock_gettime(1, &t);
  return (double)t.seconds * 1e9 + (double)t.nanoseconds;
}

/* A round takes about a third of a millisecond, a report's up to two. */
static size_t calls_a_round(given g) {
  size_t len = 0, seeds = g.which == REPORT ? g.two : 1;
  for (int i = 0; i < READ; i++) len += g.len[i];
  return 1 + (19 + 200000 / (20 + len)) / seeds;
}

int main(int count, char **words) {
  if (count < 12) return 2;
  size_t rounds = (size_t)strtol(words[1], 0, 10);
  given g = read_given(words + 2);
  const calls *sides[] = {&library, &plain};
  double lowest[] = {1e18, 1e18};
  for (size_t k = 0; k < 2 * rounds; k++) {
    double began = now();
    make_calls(sides[k % 2], g, calls_a_round(g));
    double took = (now() - began) / (double)calls_a_round(g);
    if (took < lowest[k % 2]) lowest[k % 2] = took;
  }
  printf("%.1f %.1f\n", lowest[0], lowest[1]);
  return 0;
}

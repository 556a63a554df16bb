/* Makes one call again and again, so that its instructions can be counted: bench/run compares a run of N calls with one of
 * 2N. Arguments: the library or the yardstick ('library', 'plain'), how often, and what the call is given (calls.h). Nothing
 * is printed. */
#include "calls.h"

int main(int count, char **words) {
  if (count < 13) return 2;
  size_t often = (size_t)strtol(words[2], 0, 10);
  make_calls(words[1][0] == 'l' ? &library : &plain, read_given(words + 3), often);
  return 0;
}

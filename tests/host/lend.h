/* What the hosts of this folder share: the functions of the C library that they call (the kit has no C headers), and
 * buffers that are lent between guard bytes. */
#include "marrowkite.h"

int printf(const char *format, ...);
void *malloc(size_t size);
void free(void *block);
void *memcpy(void *to, const void *from, size_t len);
void *memset(void *to, int byte, size_t len);
int memcmp(const void *one, const void *other, size_t len);

typedef struct {
  const uint8_t *at;
  size_t len;
} bytes;

/* A copy of some bytes, with guard bytes before and after it. GUARD is odd, so what is lent is not aligned. */
enum { GUARD = 61 };

typedef struct {
  uint8_t *block, *at;
  size_t len;
} lent;

static uint8_t guard_byte(size_t place) { return (uint8_t)(0x5b + 37 * place); }

static lent lend(bytes given) {
  lent l = {malloc(GUARD + given.len + GUARD), 0, given.len};
  l.at = l.block + GUARD;
  memcpy(l.at, given.at, given.len);
  for (size_t i = 0; i < GUARD; i++)
    l.block[i] = l.at[given.len + i] = guard_byte(i);
  return l;
}

static int guarded(lent l) {
  for (size_t i = 0; i < GUARD; i++)
    if (l.block[i] != guard_byte(i) || l.at[l.len + i] != guard_byte(i)) return 0;
  return 1;
}

/* Whether the guard bytes are whole and what was lent is as it was given. */
static int unaltered(lent l, bytes given) { return guarded(l) && memcmp(l.at, given.at, given.len) == 0; }

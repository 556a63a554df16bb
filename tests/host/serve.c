/* Makes the calls that it reads, one after another, until the input ends; tests/host/differential.py drives it.
 *
 * A call is ten numbers of eight bytes, least significant first: which call (the place in `enum` below), the crew, two
 * numbers (the place; or the seed and the count; or the first seed and how many; or the situation; or the start floor; else 0), the
 * lengths of the five slices that are read (the file and the ranks, plan or log; or the file, a chart's actions and its pairs; or
 * the file, the ranks and the rides; or variables, actions, conditions, crews and tasks; else 0) and of the buffer, which is the
 * occupant's record for a log; then the bytes of these six.
 * An answer is the call's three or five numbers (five are written, the rest 0), then 1 if all guard bytes are whole and
 * what was lent to be read is as it was, else 0, then how many bytes of stack were used; then the buffer.
 *
 * Each call runs on a stack of its own, painted anew: what it used is what is no longer paint below the caller's frame,
 * and what it might read there before it has written it is not what the last call left. */
#include "lend.h"

long read(int from, void *to, size_t len);
long write(int to, const void *from, size_t len);
void exit(int status) __attribute__((noreturn));

enum { RECORD_AT, CHECK, PLAN, PLAN_SEEDED, RUN, DRAW, WRITE, REPORT, CHART, REPLAY, JOURNEYS };
enum { READ = 5 };

typedef struct {
  uint64_t which, crew, one, two, read_len[READ], buffer_len;
} call;

typedef struct {
  uint64_t numbers[5], whole, stack;
} answer;

static call c;
static answer a;
static lent in[READ], buffer;
static uint8_t *frame_end;

static void make_call(void) {
  __asm__ volatile("movq %%rsp, %0" : "=m"(frame_end));
  marrowkite_answer r = {0, 0, 0};
  lent file = in[0], list = in[1];
  if (c.which == RECORD_AT) {
    marrowkite_record found = marrowkite_record_at(file.at, file.len, c.one);
    memcpy(a.numbers, &found, sizeof found);
    return;
  }
  if (c.which == CHECK) r = marrowkite_check(file.at, file.len);
  if (c.which == PLAN) r = marrowkite_plan(file.at, file.len, c.crew, list.at, list.len, buffer.at, buffer.len);
  if (c.which == PLAN_SEEDED) r = marrowkite_plan_seeded(file.at, file.len, c.crew, buffer.at, buffer.len);
  if (c.which == RUN) r = marrowkite_run(file.at, file.len, c.crew, list.at, list.len, buffer.at, buffer.len);
  if (c.which == DRAW) r = marrowkite_draw(c.one, c.two, buffer.at, buffer.len);
  if (c.which == REPORT) r = marrowkite_report(file.at, file.len, c.crew, c.one, c.two, buffer.at, buffer.len);
  if (c.which == CHART) r = marrowkite_chart(file.at, file.len, c.crew, list.at, list.len, in[2].at, in[2].len);
  if (c.which == REPLAY)
    r = marrowkite_replay(file.at, file.len, c.crew, list.at, list.len, (marrowkite_occupant *)buffer.at);
  if (c.which == JOURNEYS)
    r = marrowkite_journeys(file.at, file.len, c.crew, list.at, list.len, in[2].at, in[2].len, c.one, buffer.at, buffer.len);
  if (c.which == WRITE)
    r = marrowkite_write((uint8_t)c.one, in[0].at, in[0].len, in[1].at, in[1].len, in[2].at, in[2].len, in[3].at, in[3].len,
                         in[4].at, in[4].len, buffer.at, buffer.len);
  memcpy(a.numbers, &r, sizeof r);
}

enum { STACK = 64 * 1024, PAINT = 0xa5 };
static uint8_t stack[STACK] __attribute__((aligned(16)));

static uint64_t on_painted_stack(void (*work)(void)) {
  memset(stack, PAINT, STACK);
  __asm__ volatile("movq %%rsp, %%rbx\n\tmovq %0, %%rsp\n\tcallq *%1\n\tmovq %%rbx, %%rsp"
                   :
                   : "r"(stack + STACK), "r"(work)
                   : "rax", "rbx", "rcx", "rdx", "rsi", "rdi", "r8", "r9", "r10", "r11", "xmm0", "xmm1", "xmm2", "xmm3",
                     "xmm4", "xmm5", "xmm6", "xmm7", "xmm8", "xmm9", "xmm10", "xmm11", "xmm12", "xmm13", "xmm14",
                     "xmm15", "cc", "memory");
  uint8_t *deepest = stack;
  while (deepest < frame_end && *deepest == PAINT) deepest++;
  return (uint64_t)(frame_end - deepest);
}

/* Reads all of it, or ends: in order at the end of the input before a call, else with status 1. */
static void read_all(void *to, size_t len, int may_end) {
  for (size_t got = 0; got < len;) {
    long more = read(0, (uint8_t *)to + got, len - got);
    if (more <= 0) exit(may_end && more == 0 && got == 0 ? 0 : 1);
    got += (size_t)more;
  }
}

static void write_all(const void *from, size_t len) {
  for (size_t put = 0; put < len;) {
    long more = write(1, (const uint8_t *)from + put, len - put);
    if (more <= 0) exit(1);
    put += (size_t)more;
  }
}

int main(void) {
  for (;;) {
    read_all(&c, sizeof c, 1);
    size_t len = c.buffer_len;
    for (int i = 0; i < READ; i++) len += c.read_len[i];
    uint8_t *given = malloc(len + 1), *at = given;
    read_all(given, len, 0);
    for (int i = 0; i < READ; at += c.read_len[i++]) in[i] = lend((bytes){at, c.read_len[i]});
    buffer = lend((bytes){at, c.buffer_len});
    memset(&a, 0, sizeof a);
    a.stack = on_painted_stack(make_call);
    a.whole = (uint64_t)guarded(buffer);
    at = given;
    for (int i = 0; i < READ; at += c.read_len[i++])
      if (!unaltered(in[i], (bytes){at, c.read_len[i]})) a.whole = 0;
    write_all(&a, sizeof a);
    write_all(buffer.at, buffer.len);
    for (int i = 0; i < READ; i++) free(in[i].block);
    free(buffer.block);
    free(given);
  }
}

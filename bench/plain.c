/* The calls of documents 01 and 02 in plain C, written for speed and proved nowhere: what the library is measured against. Each section
 * of the file has a loop of its own, no table is cleared that need not be, and while planning nothing is looked at again
 * before what it waits for has come. */
#include "plain.h"

void *memcpy(void *to, const void *from, size_t len);
void *memset(void *to, int byte, size_t len);
int memcmp(const void *one, const void *other, size_t len);

enum { VARIABLE = 1, ACTION, CONDITION, TASK, SEED, END, SITUATIONS, SITUATION, CREW };
enum { MOST_VARIABLES = 32, MOST_ACTIONS = 256, MOST_CREWS = 8, LARGEST_SEED = 2147483646, ALWAYS = 255, CAME_ROUND = 255 };

typedef marrowkite_answer answer;

static answer three(uint64_t number, uint64_t first, uint64_t second) { return (answer){number, first, second}; }
static answer refused(uint64_t number, uint64_t first) { return three(number, first, 0); }

/* The lowest variable whose bit is not set, or 32 and more. */
static unsigned lowest_unused(uint32_t used) { return (unsigned)__builtin_ctzll(~(uint64_t)used); }

/* What a file says to a crew. `set` and `setter` tell for each variable which values some action in force sets, and which action. */
typedef struct {
  unsigned variables, actions, crews;
  uint32_t seed;
  uint8_t counts[MOST_VARIABLES], starts[MOST_VARIABLES], goals[MOST_VARIABLES];
  uint8_t variable[MOST_ACTIONS], pre[MOST_ACTIONS], post[MOST_ACTIONS], in_force[MOST_ACTIONS];
  uint16_t place[MOST_ACTIONS], end[MOST_ACTIONS]; /* where its conditions begin and end */
  uint16_t set[MOST_VARIABLES];
  uint8_t setter[MOST_VARIABLES * 16];
} study;

/* No record, or one that may not stand here. */
static answer misplaced(const uint8_t *f, size_t len, size_t at) {
  if (at >= len) return refused(1, len);
  return refused((unsigned)(f[at] - 1) < 9 ? 3 : 2, at);
}

/* One function, since cut up into the sections it executed 3 % more. Of a crew that is not there nothing is kept. */
static answer load_any(const uint8_t *f, size_t len, uint64_t crew, study *s) {
  size_t at = 0, repeat = 0;
  uint32_t used = 0;
  unsigned n = 0, a = 0, c = 0, situation = 0;
  if (len > 0 && f[0] == SITUATION) {
    if (len < 2) return refused(1, 0);
    situation = f[1];
    if (situation > 7) return refused(5, 0);
    if (situation == 0) return refused(6, 0);
    at = 2;
  }
  for (; at < len && f[at] == VARIABLE; at += 2, n++) {
    if (len - at < 2) return refused(1, at);
    if (n == MOST_VARIABLES) return refused(4, at);
    unsigned count = f[at + 1];
    if (count - 2 > 14) return refused(5, at);
    s->counts[n] = (uint8_t)count;
    s->set[n] = 0;
  }
  if (n == 0) return misplaced(f, len, at);
  for (; at < len && f[at] == ACTION; a++) {
    if (len - at < 4) return refused(1, at);
    if (a == MOST_ACTIONS) return refused(4, at);
    unsigned v = f[at + 1], p = f[at + 2], q = f[at + 3], above = 0;
    if (v >= n || p >= s->counts[v] || q >= s->counts[v]) return refused(5, at);
    if (p == q) return refused(6, at);
    size_t place = at;
    used |= 1u << v;
    s->variable[a] = (uint8_t)v;
    s->pre[a] = (uint8_t)p;
    s->post[a] = (uint8_t)q;
    s->place[a] = (uint16_t)(at += 4);
    for (; at < len && f[at] == CONDITION; at += 3) {
      if (len - at < 3) return refused(1, at);
      unsigned u = f[at + 1];
      if (u >= n || f[at + 2] >= s->counts[u]) return refused(5, at);
      if (u == v || u < above) return refused(6, at);
      used |= 1u << u;
      above = u + 1;
    }
    s->end[a] = (uint16_t)at;
    unsigned in_force = 1;
    if (at < len && f[at] == SITUATIONS) {
      if (len - at < 2) return refused(1, at);
      if (f[at + 1] == ALWAYS) return refused(6, at);
      in_force = f[at + 1] >> situation & 1;
      at += 2;
    }
    s->in_force[a] = (uint8_t)in_force;
    if (!in_force) continue;
    if (s->set[v] >> q & 1 && repeat == 0) repeat = place;
    s->set[v] |= (uint16_t)(1u << q);
    s->setter[16 * v + q] = (uint8_t)a;
  }
  for (;; at++) {
    for (unsigned v = 0; v < n; v++, at += 4) {
      if (at >= len || f[at] != TASK) return misplaced(f, len, at);
      if (len - at < 4) return refused(1, at);
      unsigned p = f[at + 2], q = f[at + 3];
      if (f[at + 1] != v || p >= s->counts[v] || q >= s->counts[v]) return refused(5, at);
      if (c != crew) continue;
      s->starts[v] = (uint8_t)p;
      s->goals[v] = (uint8_t)q;
    }
    if (at >= len || f[at] != SEED) return misplaced(f, len, at);
    if (len - at < 5) return refused(1, at);
    uint32_t seed = (uint32_t)f[at + 1] << 24 | (uint32_t)f[at + 2] << 16 | (uint32_t)f[at + 3] << 8 | f[at + 4];
    if (seed - 1 >= LARGEST_SEED) return refused(5, at);
    if (c++ == crew) s->seed = seed;
    at += 5;
    if (at >= len || f[at] != CREW) break;
    if (c == MOST_CREWS) return refused(4, at);
  }
  if (at >= len || f[at] != END) return misplaced(f, len, at);
  if (repeat != 0) return refused(7, repeat);
  if (lowest_unused(used) < n) return refused(21, lowest_unused(used));
  if (++at < len) return refused(8, at);
  s->variables = n;
  s->actions = a;
  s->crews = c;
  return three(0, a, n);
}

static answer load(const uint8_t *f, size_t len, uint64_t crew, study *s) {
  answer loaded = load_any(f, len, crew, s);
  return loaded.number == 0 && crew >= s->crews ? refused(22, crew) : loaded;
}

/* Planning more than 64 actions. `ready` has a bit for each rank whose action may be taken now. */
typedef struct {
  const uint8_t *file, *ranks;
  study *s;
  uint16_t on[MOST_VARIABLES];     /* the values on the walk */
  uint8_t leaves[512];             /* by variable and value on the walk: the action that leaves it */
  uint8_t wants[512];              /* how many conditions of actions not taken yet want the value */
  uint16_t next[MOST_VARIABLES];   /* the condition of the next action that is to be looked at */
  uint32_t waiting[MOST_VARIABLES]; /* which variables wait for this one to move on */
  uint64_t ready[4];
} planner;

/* Looks whether the next action of v may be taken. Else v waits for the variable of the condition that fails, or for the
 * value that it has to be no longer wanted. 256 wants can only be on a variable that never moves, so that the count may
 * come round. */
static void look(planner *p, unsigned v) {
  study *s = p->s;
  unsigned q = s->starts[v];
  if (q == s->goals[v] || p->wants[16 * v + q] != 0) return;
  unsigned i = p->leaves[16 * v + q];
  unsigned at = p->next[v], end = s->end[i];
  for (; at < end; at += 3) {
    unsigned u = p->file[at + 1];
    if (s->starts[u] != p->file[at + 2]) {
      p->waiting[u] |= 1u << v;
      p->next[v] = (uint16_t)at;
      return;
    }
  }
  p->next[v] = (uint16_t)end;
  p->ready[p->ranks[i] >> 6] |= 1ull << (p->ranks[i] & 63);
}

static int lowest(const uint64_t ready[4]) {
  for (int w = 0; w < 4; w++)
    if (ready[w]) return 64 * w + __builtin_ctzll(ready[w]);
  return -1;
}

static const answer fine = {0, 0, 0};

/* A part of one function: compiled into it, so that cutting it up costs nothing. */
#define PART static inline __attribute__((always_inline))

/* Traces the walks back from the goals: the number of their actions, or refusal 10 with where it breaks. */
PART answer trace_walks(planner *p, const study *s, unsigned n, uint64_t walk[4]) {
  unsigned total = 0;
  for (unsigned v = 0; v < n; v++) {
    unsigned q = s->goals[v], on = 1u << q;
    for (; q != s->starts[v]; total++) {
      if (!(s->set[v] >> q & 1)) return three(10, v, q);
      unsigned i = s->setter[16 * v + q];
      q = s->pre[i];
      if (on >> q & 1) return three(10, v, CAME_ROUND);
      on |= 1u << q;
      p->leaves[16 * v + q] = (uint8_t)i;
      walk[i >> 6] |= 1ull << (i & 63);
    }
    p->on[v] = (uint16_t)on;
  }
  return three(0, total, 0);
}

/* Counts what the conditions of walk actions want, or refusal 11. */
PART answer count_wants(planner *p, const study *s, unsigned n, const uint64_t walk[4], uint8_t *by_rank) {
  const uint8_t *f = p->file, *ranks = p->ranks;
  memset(p->wants, 0, 16 * n);
  for (int w = 0; w < 4; w++)
    for (uint64_t left = walk[w]; left; left &= left - 1) {
      unsigned i = 64 * (unsigned)w + (unsigned)__builtin_ctzll(left);
      by_rank[ranks[i]] = (uint8_t)i;
      for (unsigned at = s->place[i], end = s->end[i]; at < end; at += 3) {
        unsigned u = f[at + 1], q = f[at + 2];
        if (!(p->on[u] >> q & 1)) return three(11, i, u);
        p->wants[16 * u + q]++;
      }
    }
  return fine;
}

/* Takes action i, and looks at whom that sets free. */
PART void take(planner *p, study *s, const uint8_t *f, unsigned i) {
  unsigned v = s->variable[i], q = s->post[i];
  for (unsigned at = s->place[i], end = s->end[i]; at < end; at += 3) {
    unsigned u = f[at + 1];
    if (--p->wants[16 * u + f[at + 2]] == 0) look(p, u);
  }
  s->starts[v] = (uint8_t)q;
  if (q != s->goals[v]) p->next[v] = s->place[p->leaves[16 * v + q]];
  look(p, v);
  uint32_t wake = p->waiting[v];
  p->waiting[v] = 0;
  for (; wake; wake &= wake - 1) look(p, (unsigned)__builtin_ctz(wake));
}

PART void look_first(planner *p, const study *s, unsigned n) {
  memset(p->ready, 0, sizeof p->ready);
  memset(p->waiting, 0, 4 * n);
  for (unsigned v = 0; v < n; v++)
    if (s->starts[v] != s->goals[v]) p->next[v] = s->place[p->leaves[16 * v + s->starts[v]]];
  for (unsigned v = 0; v < n; v++) look(p, v);
}

/* Planning up to 64 actions: they are known by rank, and a set of ranks is one word. An action that may not be taken yet hangs
 * on the highest rank that has to come before it, and is looked at again when that one is taken; up to 8, all are looked at. */
typedef struct {
  uint64_t before[64];               /* by rank: those that come directly before */
  uint64_t hung[64];                 /* by rank: those that hang on it */
  uint64_t ready;                    /* those that may be taken now */
  uint64_t left;                     /* those on walks that are not taken */
  uint64_t walk;                     /* the same by index, before any was taken */
  uint16_t met[MOST_VARIABLES * 16]; /* how the walk meets a value, 0 if it does not */
  uint8_t action[64];                /* by rank */
} ranked;

/* In `met` the rank that sets the value stands in bits 0 to 5, the rank that leaves it in bits 7 to 12. */
enum { FEW = 64, LOOKED_AT = 8, SETS = 1 << 6, LEAVES = 1 << 13, ON_WALK = 1 << 14 };

PART uint64_t only(unsigned rank) { return 1ull << rank; }

/* Traces the walks back from the goals: the number of their actions, or refusal 10 with where it breaks. */
PART answer trace_ranked(ranked *p, const study *s, const uint8_t *ranks) {
  unsigned total = 0, n = s->variables;
  memset(p->met, 0, 32 * n);
  p->left = p->walk = p->ready = 0;
  for (unsigned v = 0; v < n; v++) {
    uint16_t *met = p->met + 16 * v;
    unsigned q = s->goals[v], here = ON_WALK, after = 0;
    for (; q != s->starts[v]; total++) {
      if (!(s->set[v] >> q & 1)) return three(10, v, q);
      unsigned i = s->setter[16 * v + q], r = ranks[i];
      met[q] = (uint16_t)(here | SETS | r);
      p->before[r] = p->hung[r] = 0;
      if (here & LEAVES) p->before[after] = only(r);
      p->action[r] = (uint8_t)i;
      p->walk |= only(i);
      p->left |= only(r);
      q = s->pre[i];
      if (met[q]) return three(10, v, CAME_ROUND);
      here = ON_WALK | LEAVES | r << 7;
      after = r;
    }
    met[q] = (uint16_t)here;
  }
  return three(0, total, 0);
}

/* An action comes after those that set what it wants, and before those that leave it; or refusal 11. */
PART answer order_ranked(ranked *p, const study *s, const uint8_t *f, const uint8_t *ranks) {
  for (uint64_t some = p->walk; some; some &= some - 1) {
    unsigned i = (unsigned)__builtin_ctzll(some), r = ranks[i];
    uint64_t sets = 0;
    for (unsigned at = s->place[i], end = s->end[i]; at < end; at += 3) {
      unsigned met = p->met[16 * f[at + 1] + f[at + 2]];
      if (!met) return three(11, i, f[at + 1]);
      sets |= (uint64_t)(met >> 6 & 1) << (met & 63);
      p->before[met >> 7 & 63] |= (uint64_t)(met >> 13 & 1) << r;
    }
    p->before[r] |= sets;
  }
  return fine;
}

PART void hang(ranked *p, unsigned r) {
  uint64_t missing = p->before[r] & p->left;
  if (missing)
    p->hung[63 - __builtin_clzll(missing)] |= only(r);
  else
    p->ready |= only(r);
}

/* Takes the least that is ready, and settles those that hung on it: as many as could be taken. */
PART unsigned take_hanging(ranked *p, unsigned total, uint8_t *out) {
  for (uint64_t some = p->left; some; some &= some - 1) hang(p, (unsigned)__builtin_ctzll(some));
  for (unsigned k = 0; k < total; k++) {
    uint64_t ready = p->ready;
    if (!ready) return k;
    unsigned r = (unsigned)__builtin_ctzll(ready);
    p->ready = ready & (ready - 1);
    p->left &= ~only(r);
    out[k] = p->action[r];
    for (uint64_t some = p->hung[r]; some; some &= some - 1) hang(p, (unsigned)__builtin_ctzll(some));
  }
  return total;
}

/* The same for few, by looking at those that are left. */
PART unsigned take_looking(ranked *p, unsigned total, uint8_t *out) {
  uint64_t left = p->left;
  for (unsigned k = 0; k < total; k++) {
    uint64_t some = left;
    while (some && p->before[__builtin_ctzll(some)] & left) some &= some - 1;
    if (!some) return k;
    unsigned r = (unsigned)__builtin_ctzll(some);
    left &= ~only(r);
    out[k] = p->action[r];
  }
  return total;
}

static answer plan_few(const uint8_t *f, const uint8_t *ranks, study *s, uint8_t *plan, size_t plan_len) {
  ranked p;
  uint8_t out[FEW];
  answer traced = trace_ranked(&p, s, ranks);
  if (traced.number != 0) return traced;
  answer ordered = order_ranked(&p, s, f, ranks);
  if (ordered.number != 0) return ordered;
  unsigned total = (unsigned)traced.first;
  unsigned taken = (total > LOOKED_AT ? take_hanging : take_looking)(&p, total, out);
  if (taken < total) return refused(12, taken);
  if (plan_len < total) return refused(13, total);
  memcpy(plan, out, total);
  return three(0, total, 0);
}

static answer plan_many(const uint8_t *f, const uint8_t *ranks, study *s, uint8_t *plan, size_t plan_len) {
  planner p;
  uint64_t walk[4] = {0, 0, 0, 0};
  uint8_t by_rank[MOST_ACTIONS], out[MOST_ACTIONS];
  p.file = f, p.ranks = ranks, p.s = s;
  unsigned n = s->variables;
  answer traced = trace_walks(&p, s, n, walk);
  if (traced.number != 0) return traced;
  answer wanted = count_wants(&p, s, n, walk, by_rank);
  if (wanted.number != 0) return wanted;
  look_first(&p, s, n);
  unsigned total = (unsigned)traced.first;
  for (unsigned k = 0; k < total; k++) {
    int rank = lowest(p.ready);
    if (rank < 0) return refused(12, k);
    p.ready[rank >> 6] &= p.ready[rank >> 6] - 1;
    out[k] = by_rank[rank];
    take(&p, s, f, by_rank[rank]);
  }
  if (plan_len < total) return refused(13, total);
  memcpy(plan, out, total);
  return three(0, total, 0);
}

static answer plan_loaded(const uint8_t *f, const uint8_t *ranks, study *s, uint8_t *plan, size_t plan_len) {
  return (s->actions <= FEW ? plan_few : plan_many)(f, ranks, s, plan, plan_len);
}

/* The index of the first entry that is no rank or repeats one, or the count. */
static unsigned first_unranked(const uint8_t *ranks, unsigned count) {
  uint64_t met[4] = {0, 0, 0, 0};
  for (unsigned k = 0; k < count; k++) {
    unsigned r = ranks[k];
    if (r >= count || met[r >> 6] >> (r & 63) & 1) return k;
    met[r >> 6] |= 1ull << (r & 63);
  }
  return count;
}

/* Draws the list and answers the generator's last number. */
static uint32_t draw(uint32_t last, unsigned count, uint8_t *ranks) {
  for (unsigned i = 0; i < count; i++) ranks[i] = (uint8_t)i;
  for (unsigned left = count; left > 1; left--) {
    uint64_t product = 16807ull * last;
    last = (uint32_t)(product & 2147483647) + (uint32_t)(product >> 31);
    if (last >= 2147483647) last -= 2147483647;
    unsigned j = last % left;
    uint8_t other = ranks[j];
    ranks[j] = ranks[left - 1];
    ranks[left - 1] = other;
  }
  return last;
}

answer plain_check(const uint8_t *file, size_t file_len) {
  study s;
  return load_any(file, file_len, 0, &s);
}

answer plain_plan(const uint8_t *file, size_t file_len, uint64_t crew, const uint8_t *ranks, size_t ranks_len, uint8_t *plan,
                  size_t plan_len) {
  study s;
  answer loaded = load(file, file_len, crew, &s);
  if (loaded.number != 0) return loaded;
  if (ranks_len != s.actions) return three(9, ranks_len, 1);
  unsigned k = first_unranked(ranks, s.actions);
  if (k < s.actions) return refused(9, k);
  return plan_loaded(file, ranks, &s, plan, plan_len);
}

answer plain_plan_seeded(const uint8_t *file, size_t file_len, uint64_t crew, uint8_t *plan, size_t plan_len) {
  study s;
  uint8_t ranks[MOST_ACTIONS];
  answer loaded = load(file, file_len, crew, &s);
  if (loaded.number != 0) return loaded;
  draw(s.seed, s.actions, ranks);
  return plan_loaded(file, ranks, &s, plan, plan_len);
}

answer plain_run(const uint8_t *file, size_t file_len, uint64_t crew, const uint8_t *plan, size_t plan_len, uint8_t *state,
                 size_t state_len) {
  study s;
  uint16_t held[MOST_VARIABLES];
  answer loaded = load(file, file_len, crew, &s);
  if (loaded.number != 0) return loaded;
  if (state_len < s.variables) return refused(13, s.variables);
  for (unsigned v = 0; v < s.variables; v++) held[v] = (uint16_t)(1u << s.starts[v]);
  for (size_t k = 0; k < plan_len; k++) {
    unsigned i = plan[k];
    if (i >= s.actions) return refused(14, k);
    if (!s.in_force[i]) return refused(20, k);
    unsigned v = s.variable[i], q = s.post[i];
    if (s.starts[v] != s.pre[i]) return three(15, k, v);
    for (unsigned at = s.place[i], end = s.end[i]; at < end; at += 3)
      if (s.starts[file[at + 1]] != file[at + 2]) return three(15, k, file[at + 1]);
    if (held[v] >> q & 1) return three(16, k, v);
    held[v] |= (uint16_t)(1u << q);
    s.starts[v] = (uint8_t)q;
  }
  for (unsigned v = 0; v < s.variables; v++)
    if (s.starts[v] != s.goals[v]) return refused(17, v);
  memcpy(state, s.starts, s.variables);
  return three(0, s.variables, 0);
}

enum { EVENT = 16, EVENT_LENGTH = 4, MOST_EVENTS = 16384, WENT_BACK = 32768 };

/* What stands where no event is read any more: one cut short, of another kind, or too many; or the end. */
static answer behind_events(const uint8_t *log, size_t len, size_t at) {
  if (at == len) return fine;
  if (log[at] != EVENT) return refused(2, at);
  return refused(len - at < EVENT_LENGTH ? 1 : 19, at);
}

static void put_record(const study *s, uint32_t sum, unsigned waiting, unsigned variable, unsigned value, marrowkite_occupant *to) {
  memcpy(to->state, s->starts, s->variables);
  memset(to->state + s->variables, 0, MOST_VARIABLES - s->variables);
  for (int k = 0; k < 4; k++) to->sum[k] = (uint8_t)(sum >> 8 * k);
  to->waiting = (uint8_t)waiting;
  to->variable = (uint8_t)(waiting ? variable : 0);
  to->value = (uint8_t)(waiting ? value : 0);
  to->spare = 0;
}

PART unsigned tick_at(const uint8_t *log, size_t at) { return (unsigned)log[at + 1] << 8 | log[at + 2]; }

/* One pass: the events that may be are counted beforehand, and the first event's step is that from its own tick. */
answer plain_replay(const uint8_t *file, size_t file_len, uint64_t crew, const uint8_t *log, size_t log_len,
                    marrowkite_occupant *occupant) {
  study s;
  answer loaded = load(file, file_len, crew, &s);
  if (loaded.number != 0) return loaded;
  size_t events = log_len / EVENT_LENGTH < MOST_EVENTS ? log_len / EVENT_LENGTH : MOST_EVENTS, end = EVENT_LENGTH * events, held = 0;
  unsigned last = events ? tick_at(log, 0) : 0, waiting = 0, variable = 0, value = 0;
  uint32_t sum = 0;
  for (size_t at = 0; at < end; at += EVENT_LENGTH) {
    if (log[at] != EVENT) return refused(2, at);
    unsigned i = log[at + 3], tick = tick_at(log, at), step = (tick - last) & 0xffff;
    if (i >= s.actions) return refused(14, at);
    if (!s.in_force[i]) return refused(20, at);
    if (step >= WENT_BACK) return refused(23, at);
    sum += step;
    last = tick;
    variable = s.variable[i], value = s.pre[i], waiting = 1;
    if (s.starts[variable] != value) goto hold;
    for (unsigned c = s.place[i], over = s.end[i]; c < over; c += 3)
      if (s.starts[file[c + 1]] != file[c + 2]) {
        variable = file[c + 1], value = file[c + 2];
        goto hold;
      }
    s.starts[variable] = s.post[i];
    waiting = 0;
    continue;
  hold:
    held++;
  }
  answer behind = behind_events(log, log_len, end);
  if (behind.number != 0) return behind;
  put_record(&s, sum, waiting, variable, value, occupant);
  return three(0, events - held, held);
}

answer plain_draw(uint64_t seed, uint64_t count, uint8_t *ranks, size_t ranks_len) {
  if (seed - 1 >= LARGEST_SEED) return refused(18, seed);
  if (count > MOST_ACTIONS) return refused(19, count);
  if (ranks_len < count) return refused(13, count);
  return three(0, draw((uint32_t)seed, (unsigned)count, ranks), 0);
}

marrowkite_record plain_record_at(const uint8_t *file, size_t file_len, uint64_t at) {
  static const uint8_t lengths[] = {1, 3, 2, 3, 4, 0, 1, 1, 0};
  if (at >= file_len) return (marrowkite_record){1, 0, file_len, 0, file_len};
  unsigned kind = file[at];
  if (kind - 1 > 8) return (marrowkite_record){2, 0, at, 0, at};
  unsigned len = lengths[kind - 1];
  if (file_len - at - 1 < len) return (marrowkite_record){1, 0, at, 0, at};
  return (marrowkite_record){0, kind, at + 1, len, at + 1 + len};
}

/* ---- charts ---- */

enum { MOST_PAIRS = 4096, NONE = 256 };

/* Sets of actions by number, in the W words that the file's actions need: 1 or 4, which the compiler knows. A row for each action. */
PART int has(const uint64_t *set, unsigned i) { return set[i >> 6] >> (i & 63) & 1; }
PART void put(uint64_t *set, unsigned i) { set[i >> 6] |= 1ull << (i & 63); }

/* The lowest that is in one set and not in the other, or NONE. */
PART unsigned lowest_outside(const uint64_t *set, const uint64_t *other, unsigned W) {
  for (unsigned w = 0; w < W; w++) {
    uint64_t left = set[w] & ~other[w];
    if (left) return 64 * w + (unsigned)__builtin_ctzll(left);
  }
  return NONE;
}

/* Empties the rows of these actions, which takes less than clearing all. */
PART void empty(uint64_t *rows, const uint8_t *actions, size_t many, unsigned W) {
  for (size_t k = 0; k < many; k++)
    for (unsigned w = 0; w < W; w++) rows[W * actions[k] + w] = 0;
}

/* The first entry that is not there or out of force, or how many there are. */
PART size_t first_unusable(const study *s, const uint8_t *actions, size_t many) {
  size_t k = 0;
  while (k < many && actions[k] < s->actions && s->in_force[actions[k]]) k++;
  return k;
}

/* The lowest action that repeats in the list, is missing in it or is on no walk, or NONE. */
PART unsigned lowest_amiss(const uint8_t *actions, size_t many, const uint8_t *plan, size_t steps, uint64_t *listed, unsigned W) {
  static const uint64_t nothing[4] = {0, 0, 0, 0};
  uint64_t repeated[4] = {0, 0, 0, 0}, amiss[4] = {0, 0, 0, 0};
  for (size_t k = 0; k < many; k++) {
    if (has(listed, actions[k])) put(repeated, actions[k]);
    put(listed, actions[k]);
  }
  for (size_t k = 0; k < steps; k++) put(amiss, plan[k]);
  for (unsigned w = 0; w < W; w++) amiss[w] = (amiss[w] ^ listed[w]) | repeated[w];
  return lowest_outside(amiss, nothing, W);
}

/* Enters the pairs; the first that names an action not listed or itself, or how many there are. */
PART size_t enter_pairs(const uint8_t *pairs, size_t len, const uint8_t *actions, size_t many, uint64_t *rows, unsigned W) {
  uint8_t listed[256];
  memset(listed, 0, sizeof listed);
  for (size_t k = 0; k < many; k++) listed[actions[k]] = 1;
  size_t k = 0;
  for (; k < len / 2; k++) {
    unsigned a = pairs[2 * k], b = pairs[2 * k + 1];
    if (!listed[a] || !listed[b] || a == b) break;
    put(rows + W * a, b);
  }
  return k;
}

/* Adds to a row those of all that it has. */
PART void gather(uint64_t *rows, uint64_t *row, unsigned W) {
  uint64_t left[4];
  for (unsigned w = 0; w < W; w++) left[w] = row[w];
  for (unsigned w = 0; w < W; w++)
    while (left[w]) {
      const uint64_t *more = rows + W * (64 * w + (unsigned)__builtin_ctzll(left[w]));
      left[w] &= left[w] - 1;
      for (unsigned u = 0; u < W; u++) row[u] |= more[u], left[u] &= ~more[u];
    }
}

/* Closes the rows, depth first: a row is gathered when all that it has are closed. 0 if the pairs form a circle. */
PART int close_rows(const uint64_t *listed, uint64_t *rows, unsigned W) {
  uint64_t closed[4] = {0, 0, 0, 0}, open[4] = {0, 0, 0, 0};
  uint8_t path[MOST_ACTIONS];
  for (unsigned i; (i = lowest_outside(listed, closed, W)) != NONE;) {
    unsigned depth = 0;
    for (;;) {
      put(open, i);
      unsigned next = lowest_outside(rows + W * i, closed, W);
      if (next != NONE) {
        if (has(open, next)) return 0;
        path[depth++] = (uint8_t)i;
        i = next;
        continue;
      }
      gather(rows, rows + W * i, W);
      put(closed, i);
      if (depth == 0) break;
      i = path[--depth];
    }
  }
  return 1;
}

/* How walks meet values: who sets one, and in the high half who leaves it, or for each 64 * W, which is nobody. */
PART void walk_again(const study *s, uint32_t *met, unsigned W) {
  for (unsigned at = 0; at < 16 * s->variables; at++) met[at] = (64 * W) << 16 | 64 * W;
  for (unsigned v = 0; v < s->variables; v++)
    for (unsigned q = s->goals[v], after = 64 * W;;) {
      if (q == s->starts[v]) {
        met[16 * v + q] = after << 16 | 64 * W;
        break;
      }
      unsigned i = s->setter[16 * v + q];
      met[16 * v + q] = after << 16 | i;
      after = i;
      q = s->pre[i];
    }
}

/* Enters all direct orders, one pass over the conditions. A row more and a word more take what nobody has. */
PART void enter_orders(const uint8_t *f, const study *s, const uint8_t *steps, size_t many, uint64_t *orders, unsigned W) {
  uint32_t met[MOST_VARIABLES * 16];
  walk_again(s, met, W);
  for (size_t k = 0; k < many; k++) {
    unsigned i = steps[k];
    uint64_t own[5] = {0, 0, 0, 0, 0}, bit = 1ull << (i & 63), *word = orders + (i >> 6);
    put(own, met[16 * s->variable[i] + s->post[i]] >> 16);
    for (unsigned at = s->place[i], end = s->end[i]; at < end; at += 3) {
      unsigned wanted = met[16 * f[at + 1] + f[at + 2]];
      word[W * (wanted & 0xffff)] |= bit;
      put(own, wanted >> 16);
    }
    for (unsigned w = 0; w < W; w++) orders[W * i + w] |= own[w];
  }
}

typedef struct {
  const uint8_t *file, *actions, *pairs;
  size_t actions_len, pairs_len;
} charted;

/* There is a plan, and the chart is within the limits. */
PART answer vet(charted c, const study *s, const uint8_t *plan, size_t steps, uint64_t *rows, uint64_t *orders, unsigned W) {
  uint64_t listed[4] = {0, 0, 0, 0};
  unsigned amiss = lowest_amiss(c.actions, c.actions_len, plan, steps, listed, W);
  if (amiss != NONE) return refused(25, amiss);
  empty(rows, plan, steps, W);
  size_t k = enter_pairs(c.pairs, c.pairs_len, c.actions, c.actions_len, rows, W), many = (c.pairs_len + 1) / 2;
  if (k < many) return refused(26, k);
  if (!close_rows(listed, rows, W)) return refused(27, 0);
  empty(orders, plan, steps, W);
  enter_orders(c.file, s, plan, steps, orders, W);
  for (unsigned w = 0; w < W; w++)
    for (uint64_t left = listed[w]; left; left &= left - 1) {
      unsigned i = 64 * w + (unsigned)__builtin_ctzll(left), second = lowest_outside(orders + W * i, rows + W * i, W);
      if (second != NONE) return three(28, i, second);
    }
  return three(0, c.actions_len, many);
}

static answer vet_few(charted c, const study *s, const uint8_t *plan, size_t steps) {
  uint64_t rows[FEW], orders[FEW + 1];
  return vet(c, s, plan, steps, rows, orders, 1);
}

static answer vet_many(charted c, const study *s, const uint8_t *plan, size_t steps) {
  uint64_t rows[4 * MOST_ACTIONS], orders[4 * MOST_ACTIONS + 4];
  return vet(c, s, plan, steps, rows, orders, 4);
}

/* Which plan there is does not matter, so that none is drawn. */
answer plain_chart(const uint8_t *file, size_t file_len, uint64_t crew, const uint8_t *actions, size_t actions_len,
                   const uint8_t *pairs, size_t pairs_len) {
  study s;
  uint8_t plan[MOST_ACTIONS], ranks[MOST_ACTIONS], starts[MOST_VARIABLES];
  answer loaded = load(file, file_len, crew, &s);
  if (loaded.number != 0) return loaded;
  for (unsigned i = 0; i < s.actions; i++) ranks[i] = (uint8_t)i;
  memcpy(starts, s.starts, s.variables);
  answer planned = plan_loaded(file, ranks, &s, plan, MOST_ACTIONS);
  if (planned.number != 0) return planned;
  memcpy(s.starts, starts, s.variables);
  if (actions_len > MOST_ACTIONS) return refused(19, actions_len);
  if (pairs_len > 2 * MOST_PAIRS) return refused(19, pairs_len / 2 + pairs_len % 2);
  size_t k = first_unusable(&s, actions, actions_len);
  if (k < actions_len) return refused(14, k);
  charted c = {file, actions, pairs, actions_len, pairs_len};
  return (s.actions <= FEW ? vet_few : vet_many)(c, &s, plan, planned.first);
}

enum { HIGHEST_FLOOR = 199, NO_FLOOR = 255 };

/* Enters each ride, or refuses the first that is at fault. `from` has no floor to begin with. */
PART answer enter_rides(const uint8_t *rides, size_t len, unsigned actions, uint8_t *from, uint8_t *to) {
  for (size_t at = 0, k = 0; at < len; at += 3, k++) {
    if (len - at < 3) return refused(1, k);
    unsigned i = rides[at], a = rides[at + 1], b = rides[at + 2];
    if (i >= actions) return refused(14, k);
    if (a > HIGHEST_FLOOR || b > HIGHEST_FLOOR) return refused(5, k);
    if (a == b) return refused(6, k);
    if (from[i] != NO_FLOOR) return refused(7, k);
    from[i] = (uint8_t)a;
    to[i] = (uint8_t)b;
  }
  return three(0, 0, 0);
}

answer plain_journeys(const uint8_t *file, size_t file_len, uint64_t crew, const uint8_t *ranks, size_t ranks_len,
                      const uint8_t *rides, size_t rides_len, uint64_t start_floor, uint8_t *journeys, size_t journeys_len) {
  uint8_t plan[MOST_ACTIONS], from[MOST_ACTIONS], to[MOST_ACTIONS];
  answer planned = plain_plan(file, file_len, crew, ranks, ranks_len, plan, MOST_ACTIONS);
  if (planned.number != 0) return planned;
  if (start_floor > HIGHEST_FLOOR) return refused(5, rides_len / 3);
  memset(from, NO_FLOOR, MOST_ACTIONS);
  answer entered = enter_rides(rides, rides_len, (unsigned)ranks_len, from, to);
  if (entered.number != 0) return entered;
  size_t many = 0;
  unsigned floor = (unsigned)start_floor;
  for (size_t k = 0; k < planned.first; k++) {
    unsigned i = plan[k];
    if (from[i] == NO_FLOOR) continue;
    many += from[i] == floor ? 1 : 2;
    floor = to[i];
  }
  if (journeys_len < 3 * many) return refused(13, 3 * many);
  floor = (unsigned)start_floor;
  for (size_t k = 0; k < planned.first; k++) {
    unsigned i = plan[k];
    if (from[i] == NO_FLOOR) continue;
    if (from[i] != floor) {
      journeys[0] = (uint8_t)k, journeys[1] = (uint8_t)floor, journeys[2] = from[i];
      journeys += 3;
    }
    journeys[0] = (uint8_t)k, journeys[1] = from[i], journeys[2] = to[i];
    journeys += 3;
    floor = to[i];
  }
  return three(0, many, 0);
}

/* The lists that a file is written from. */
typedef struct {
  const uint8_t *counts, *actions, *conditions, *crews, *tasks;
  size_t variables, actions_len, conditions_len, crews_len, tasks_len;
  uint8_t situation;
} lists;

/* Bytes as a number, the first the least significant, as x86-64 has them. */
PART uint32_t two_at(const uint8_t *from) { uint16_t word; memcpy(&word, from, 2); return word; }
PART uint32_t four_at(const uint8_t *from) { uint32_t word; memcpy(&word, from, 4); return word; }
PART void put_four(uint8_t *to, uint32_t word) { memcpy(to, &word, 4); }
PART void put_eight(uint8_t *to, uint64_t word) { memcpy(to, &word, 8); }

/* What the reader says of the file that the lists stand for: 0 and its length, or the refusal. Where a record stands follows
 * from how many of each kind come before it. */
PART answer judge(const lists *l) {
  uint16_t set[MOST_VARIABLES];
  uint32_t named = 0;
  size_t n = l->variables, used = 0, i = 0, a = 0, t = 0, repeat = 0;
  if (l->situation > 7) return refused(5, 0);
  size_t front = l->situation != 0 ? 2 : 0;
  for (size_t v = 0; v < n; v++) {
    if (v == MOST_VARIABLES) return refused(4, front + 2 * v);
    if (l->counts[v] - 2u > 14) return refused(5, front + 2 * v);
    set[v] = 0;
  }
  if (n == 0) return refused(3, front);
  front += 2 * n;
  const uint8_t *counts = l->counts, *c = l->conditions;
  for (; l->actions_len - i >= 5; i += 5) {
    const uint8_t *entry = l->actions + i;
    size_t place = front + 4 * a++;
    if (a > MOST_ACTIONS) return refused(4, place + 3 * used / 2);
    unsigned v = entry[0], p = entry[1], q = entry[2], above = 0;
    if (v >= n || p >= counts[v] || q >= counts[v]) return refused(5, place + 3 * used / 2);
    if (p == q) return refused(6, place + 3 * used / 2);
    named |= 1u << v;
    if (entry[3] >> l->situation & 1) {
      if (set[v] >> q & 1 && repeat == 0) repeat = place + 3 * used / 2;
      set[v] |= (uint16_t)(1u << q);
    }
    size_t end = used + 2 * (size_t)entry[4], lent = l->conditions_len & ~(size_t)1;
    if (end < lent) lent = end;
    for (; used < lent; used += 2) {
      unsigned u = c[used];
      if (u >= n || c[used + 1] >= counts[u]) return refused(5, place + 4 + 3 * used / 2);
      if (u == v || u < above) return refused(6, place + 4 + 3 * used / 2);
      named |= 1u << u;
      above = u + 1;
    }
    if (used < end) return refused(5, place + 4 + 3 * used / 2);
    if (entry[3] != ALWAYS) front += 2;
  }
  size_t at = front + 4 * a + 3 * used / 2;
  if (i < l->actions_len || used < l->conditions_len) return refused(a == MOST_ACTIONS ? 4 : 5, at);
  if (l->crews_len == 0 && l->tasks_len == 0) return refused(3, at);
  for (i = 0; i < l->crews_len || t < l->tasks_len; i += 5, at += 5) {
    const uint8_t *entry = l->crews + i;
    int whole = i < l->crews_len && l->crews_len - i >= 5;
    if (i == 5 * MOST_CREWS) return refused(4, at);
    if (i != 0) at++;
    size_t many = whole ? entry[0] : (l->tasks_len - t + 2) / 3, v = 0;
    for (; v < many; v++, t += 3, at += 4) {
      if (v == n) return refused(3, at);
      const uint8_t *task = l->tasks + t;
      if (l->tasks_len - t < 3 || task[0] != v || task[1] >= counts[v] || task[2] >= counts[v]) return refused(5, at);
    }
    if (v < n) return refused(3, at);
    if (!whole || __builtin_bswap32(four_at(entry + 1)) - 1 >= LARGEST_SEED) return refused(5, at);
  }
  if (repeat != 0) return refused(7, repeat);
  if (lowest_unused(named) < n) return refused(21, lowest_unused(named));
  return three(0, at + 1, 0);
}

/* Writes what was judged good. A store may pass the end of its record, never that of the file, since a task, the seed and the
 * end follow: the bytes too many are written over by the records behind. */
PART void spell(const lists *l, uint8_t *to) {
  const uint8_t *c = l->conditions;
  if (l->situation != 0) *to++ = SITUATION, *to++ = l->situation;
  for (size_t v = 0; v < l->variables; v++, to += 2) to[0] = VARIABLE, to[1] = l->counts[v];
  for (size_t i = 0; i < l->actions_len; i += 5) {
    put_four(to, four_at(l->actions + i) << 8 | ACTION);
    to += 4;
    const uint8_t *end = c + 2 * (size_t)l->actions[i + 4];
    for (; end - c >= 4; c += 4, to += 6) {
      uint64_t word = four_at(c);
      put_eight(to, (word >> 16) << 32 | CONDITION << 24 | (word & 0xffff) << 8 | CONDITION);
    }
    for (; c < end; c += 2, to += 3) put_four(to, two_at(c) << 8 | CONDITION);
    if (l->actions[i + 3] != ALWAYS) *to++ = SITUATIONS, *to++ = l->actions[i + 3];
  }
  const uint8_t *t = l->tasks;
  for (size_t i = 0; i < l->crews_len; i += 5, to += 6) {
    for (const uint8_t *end = t + 3 * (size_t)l->crews[i]; t < end; t += 3, to += 4)
      to[0] = TASK, to[1] = t[0], to[2] = t[1], to[3] = t[2];
    to[0] = SEED;
    put_four(to + 1, four_at(l->crews + i + 1));
    to[5] = CREW;
  }
  to[-1] = END;
}

answer plain_write(uint8_t situation, const uint8_t *variables, size_t variables_len, const uint8_t *actions,
                   size_t actions_len, const uint8_t *conditions, size_t conditions_len, const uint8_t *crews,
                   size_t crews_len, const uint8_t *tasks, size_t tasks_len, uint8_t *file, size_t file_len) {
  lists l = {variables,     actions,     conditions,     crews,     tasks,
             variables_len, actions_len, conditions_len, crews_len, tasks_len, situation};
  answer judged = judge(&l);
  if (judged.number != 0) return judged;
  if (file_len < judged.first) return refused(13, judged.first);
  spell(&l, file);
  return judged;
}

/* The plans are kept one after another. Each seed draws and takes anew: the file is read once. */
answer plain_report(const uint8_t *file, size_t file_len, uint64_t crew, uint64_t first, uint64_t n, uint8_t *report,
                    size_t report_len) {
  study s, each;
  uint8_t ranks[MOST_ACTIONS], plans[64][MOST_ACTIONS];
  answer loaded = load(file, file_len, crew, &s);
  if (loaded.number != 0) return loaded;
  if (n - 1 >= 64) return refused(19, n);
  if (first - 1 >= LARGEST_SEED) return refused(18, first);
  if (first + n - 1 > LARGEST_SEED) return refused(18, (uint64_t)LARGEST_SEED + 1);
  unsigned a = s.actions, different = 0;
  size_t len = 0;
  for (unsigned k = 0; k < n; k++) {
    each = s;
    draw((uint32_t)(first + k), a, ranks);
    answer r = plan_loaded(file, ranks, &each, plans[k], MOST_ACTIONS);
    if (r.number != 0) {
      if (report_len < 5) return refused(13, 5);
      memset(report, 0, 5);
      report[r.number - 9] = (uint8_t)n;
      return three(0, 5, 0);
    }
    len = r.first;
    unsigned j = 0;
    while (j < k && memcmp(plans[j], plans[k], len) != 0) j++;
    different += j == k;
  }
  if (report_len < 5 + len * a) return refused(13, 5 + len * a);
  memset(report, 0, 5 + len * a);
  report[0] = (uint8_t)n;
  report[4] = (uint8_t)different;
  for (unsigned k = 0; k < n; k++)
    for (size_t p = 0; p < len; p++) report[5 + p * a + plans[k][p]]++;
  return three(0, 5 + len * a, 0);
}

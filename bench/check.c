// A check of a log in C, of the same meaning as `iovad check`: the lines' findings and the eight counts. What it is for is
// its time: bench/check runs both in turn. The stages of frames are marks in a treap, as the program has them in a map.
#include <inttypes.h>
#include <stdint.h>
#include <stdio.h>
#include <stdlib.h>
#include <string.h>

enum { FREE, MAPPED, STALE };
enum { OVERLAP, REUSED, UNMAPPED, STALE_USE, WILD };

typedef struct mark {
  uint64_t frame, since;
  struct mark *low, *high;
  uint32_t rank;
  uint8_t stage;
} mark;

static mark *marks, *unused;
static uint32_t seed = 2463534242u;

static uint32_t rank(void) {
  seed ^= seed << 13, seed ^= seed >> 17, seed ^= seed << 5;
  return seed;
}

static mark *new_mark(void) {
  if (!unused) {
    mark *more = malloc(1024 * sizeof *more);
    if (!more) exit(5);
    for (int k = 0; k < 1024; k++) more[k].low = unused, unused = &more[k];
  }
  mark *m = unused;
  unused = m->low;
  return m;
}

static const mark *floor_of(uint64_t frame) {
  const mark *at = marks, *found = NULL;
  while (at)
    if (at->frame <= frame) found = at, at = at->high;
    else at = at->low;
  return found;
}

static const mark *above(uint64_t frame) {
  const mark *at = marks, *found = NULL;
  while (at)
    if (at->frame > frame) found = at, at = at->low;
    else at = at->high;
  return found;
}

static void split(mark *at, uint64_t frame, mark **below, mark **from) {
  while (at)
    if (at->frame < frame) *below = at, below = &at->high, at = at->high;
    else *from = at, from = &at->low, at = at->low;
  *below = *from = NULL;
}

static void put(uint64_t frame, uint8_t stage, uint64_t since) {
  mark *old = (mark *)floor_of(frame);
  if (old && old->frame == frame) {
    old->stage = stage, old->since = since;
    return;
  }
  mark *m = new_mark(), **at = &marks;
  *m = (mark){.frame = frame, .since = since, .stage = stage, .rank = rank()};
  while (*at && (*at)->rank > m->rank) at = (*at)->frame < frame ? &(*at)->high : &(*at)->low;
  split(*at, frame, &m->low, &m->high);
  *at = m;
}

static void take(uint64_t frame) {
  mark **at = &marks;
  while (*at && (*at)->frame != frame) at = (*at)->frame < frame ? &(*at)->high : &(*at)->low;
  mark *m = *at;
  if (!m) return;
  mark *low = m->low, *high = m->high;
  while (low && high)
    if (low->rank > high->rank) *at = low, at = &low->high, low = low->high;
    else *at = high, at = &high->low, high = high->low;
  *at = low ? low : high;
  m->low = unused, unused = m;
}

static uint64_t end_of(uint64_t frame, uint64_t to) {
  const mark *next = above(frame);
  return next && next->frame < to ? next->frame : to;
}

static void stage_of(uint64_t frame, uint8_t *stage, uint64_t *since) {
  const mark *m = floor_of(frame);
  *stage = m ? m->stage : FREE, *since = m ? m->since : 0;
}

static void join(uint64_t at) {
  uint8_t stage, before = FREE;
  uint64_t since, old = 0;
  stage_of(at, &stage, &since);
  if (at) stage_of(at - 1, &before, &old);
  if (stage == before && (stage == FREE || since == old)) take(at);
}

static void set(uint64_t lo, uint64_t to, uint8_t stage, uint64_t since) {
  uint8_t behind;
  uint64_t behind_since;
  stage_of(to, &behind, &behind_since);
  put(to, behind, behind_since);
  put(lo, stage, since);
  join(to);
  join(lo);
}

// what: 'm', 'u', or 'f' with the line at which the flush began
static void change(uint64_t lo, uint64_t to, char what, uint64_t line) {
  for (uint64_t at = lo, end; at < to; at = end) {
    uint8_t stage;
    uint64_t since;
    stage_of(at, &stage, &since);
    end = end_of(at, to);
    if (what == 'm') set(at, end, MAPPED, line);
    else if (what == 'u' && stage == MAPPED) set(at, end, STALE, line);
    else if (what == 'f' && stage == STALE && since < line) set(at, end, FREE, 0);
  }
}

// What was unmapped, oldest first: a flush of everything looks at these alone.
typedef struct unmapped { uint64_t line, lo, to; } unmapped;
static unmapped *waiting;
static size_t first_waiting, waits, waiting_room;

static void wait_for_flush(uint64_t line, uint64_t lo, uint64_t to) {
  if (first_waiting == waits) first_waiting = waits = 0;
  if (waits == waiting_room && !(waiting = realloc(waiting, (waiting_room = 2 * waiting_room + 1024) * sizeof *waiting))) exit(5);
  waiting[waits++] = (unmapped){line, lo, to};
}

static void flush_all(uint64_t begun) {
  for (; first_waiting < waits && waiting[first_waiting].line < begun; first_waiting++)
    change(waiting[first_waiting].lo, waiting[first_waiting].to, 'f', begun);
}

static int tells(int kind, uint8_t stage) {
  switch (kind) {
  case OVERLAP: return stage == MAPPED;
  case REUSED: case STALE_USE: return stage == STALE;
  case UNMAPPED: return stage != MAPPED;
  default: return stage == FREE;
  }
}

static uint64_t findings;

static void told(uint64_t line, const char *name, uint64_t lo, uint64_t len, int has_since, uint64_t since) {
  findings++;
  printf("line %" PRIu64 ": %s %" PRIu64 " %" PRIu64, line, name, lo, len);
  if (has_since) printf(" since %" PRIu64, since);
  putchar('\n');
}

static void find(uint64_t line, int kind, const char *name, uint64_t lo, uint64_t to) {
  int has_since = kind == OVERLAP || kind == REUSED || kind == STALE_USE;
  for (uint64_t at = lo; at < to; at = end_of(at, to)) {
    uint8_t stage, next;
    uint64_t since, other, end;
    stage_of(at, &stage, &since);
    if (!tells(kind, stage)) continue;
    for (end = end_of(at, to); end < to; end = end_of(end, to)) {
      stage_of(end, &next, &other);
      if (!tells(kind, next) || (has_since && other != since)) break;
    }
    told(line, name, at, end - at, has_since, since);
    return;
  }
}

static int joined(uint64_t frame, uint64_t *since) {
  uint8_t a, b;
  uint64_t other;
  if (!frame) return 0;
  stage_of(frame - 1, &a, since), stage_of(frame, &b, &other);
  return a == MAPPED && b == MAPPED && *since == other;
}

static void find_cut(uint64_t line, uint64_t lo, uint64_t to) {
  uint64_t since, start = lo;
  if (joined(lo, &since)) find(line, OVERLAP, "cut", lo, to);
  else if (joined(to, &since)) {
    for (uint64_t at = lo, end; at < to; at = end) {
      uint8_t stage;
      uint64_t of;
      stage_of(at, &stage, &of);
      end = end_of(at, to);
      if (stage != MAPPED || of != since) start = end;
    }
    told(line, "cut", start, to - start, 1, since);
  }
}

typedef struct flight { uint64_t no, line, lo, to; } flight;
static flight *flights;
static size_t in_flight, room;

static void outside(uint64_t line, uint64_t first, uint64_t last, uint64_t lo, uint64_t to) {
  if (lo < first) told(line, "outside", lo, (to < first ? to : first) - lo, 0, 0);
  else if (to - 1 > last) told(line, "outside", lo > last ? lo : last + 1, to - (lo > last ? lo : last + 1), 0, 0);
}

static uint64_t number(const char **at) {
  uint64_t n = 0;
  while (**at >= '0' && **at <= '9') n = 10 * n + (uint64_t)(*(*at)++ - '0');
  if (**at == ' ') ++*at;
  return n;
}

int main(void) {
  static char text[200];
  uint64_t line = 1, maps = 0, unmaps = 0, flushes = 0, uses = 0, mapped = 0, stale = 0;
  if (!fgets(text, sizeof text, stdin) || strncmp(text, "iovalog 1 ", 10)) return 3;
  const char *at = text + 10;
  uint64_t first = number(&at), last = number(&at);
  while (fgets(text, sizeof text, stdin)) {
    line++;
    if (!strncmp(text, "map ", 4)) {
      at = text + 4;
      uint64_t lo = number(&at), to = lo + number(&at);
      maps++;
      outside(line, first, last, lo, to);
      find(line, OVERLAP, "overlap", lo, to);
      find(line, REUSED, "reused", lo, to);
      change(lo, to, 'm', line);
    } else if (!strncmp(text, "unmap ", 6)) {
      at = text + 6;
      uint64_t lo = number(&at), to = lo + number(&at);
      unmaps++;
      outside(line, first, last, lo, to);
      find_cut(line, lo, to);
      find(line, UNMAPPED, "unmapped", lo, to);
      change(lo, to, 'u', line);
      wait_for_flush(line, lo, to);
    } else if (!strncmp(text, "use ", 4)) {
      at = text + 4;
      uint64_t lo = number(&at), to = lo + number(&at);
      uses++;
      outside(line, first, last, lo, to);
      find(line, STALE_USE, "stale", lo, to);
      find(line, WILD, "wild", lo, to);
    } else if (!strncmp(text, "begin ", 6)) {
      at = text + 6;
      flight f = {.no = number(&at), .line = line, .to = UINT64_MAX};
      if (*at >= '0' && *at <= '9') f.lo = number(&at), f.to = f.lo + number(&at);
      flushes++;
      size_t k = 0;
      while (k < in_flight && flights[k].no != f.no) k++;
      if (k < in_flight) findings++, printf("line %" PRIu64 ": flush %" PRIu64 "\n", line, f.no);
      else if (in_flight++ == room && !(flights = realloc(flights, (room = 2 * room + 16) * sizeof f))) return 5;
      flights[k] = f;
    } else if (!strncmp(text, "end ", 4)) {
      at = text + 4;
      uint64_t no = number(&at);
      size_t k = 0;
      while (k < in_flight && flights[k].no != no) k++;
      if (k == in_flight) findings++, printf("line %" PRIu64 ": flush %" PRIu64 "\n", line, no);
      else {
        flight f = flights[k];
        flights[k] = flights[--in_flight];
        if (*at != 'o') continue;
        if (f.to == UINT64_MAX) flush_all(f.line);
        else change(f.lo, f.to, 'f', f.line);
      }
    } else return 3;
  }
  for (uint64_t f = 0, end; f < UINT64_MAX; f = end) {
    uint8_t stage;
    uint64_t since;
    stage_of(f, &stage, &since);
    end = end_of(f, UINT64_MAX);
    if (stage == MAPPED) mapped += end - f;
    if (stage == STALE) stale += end - f;
  }
  const struct { const char *name; uint64_t n; } rows[] = {{"maps", maps}, {"unmaps", unmaps}, {"flushes", flushes}, {"uses", uses},
    {"mapped", mapped}, {"stale", stale}, {"findings", findings}, {"lines", line}};
  for (int k = 0; k < 8; k++) printf("%-10s%20" PRIu64 "\n", rows[k].name, rows[k].n);
  return findings > 0;
}

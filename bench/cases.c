/* The cases of bench/kernel, on either of two allocators: side.h says what each offers.

   cases                          prints the names of the cases
   cases ours|kernel CASE..       runs these, and prints for each its name, the operations of a run, and the nanoseconds
                                  of one, the best of three runs. A name may end before a slash: then it is all of these
   cases count ours|kernel CASE   one run of a tenth of the operations, for a tool that counts the instructions of the
                                  function `timed` and of what it calls; prints the name and the operations
   cases longest ours|kernel CASE the nanoseconds of the longest operation of a run, the least of five runs: cases that
                                  search beside others alone
   cases memory ours|kernel       the bytes of the heap for each of 1,000,000 live ranges; of ours once more when as many
                                  random ones were given up and others taken

   Where one operation takes long, fewer are run. HERE is the folder of this file. */
#include "side.h"

#include <limits.h>
#include <malloc.h>
#include <stdlib.h>
#include <string.h>
#include <time.h>

#include "requests.h"

enum { RUNS = 3, EACH = 4000 /* ranges of one client */ };

static const struct side *side;
static long count = 1000000; /* operations of a run */
static int runs = RUNS, is_counted, is_longest;
static uint64_t state;

void must(int is, const char *what) {
  if (!is) {
    fprintf(stderr, "cases: not so: %s\n", what);
    exit(1);
  }
}

/* A number below n: SplitMix64. */
static uint64_t below(uint64_t n) {
  state += 0x9e3779b97f4a7c15;
  uint64_t z = state;
  z = (z ^ (z >> 30)) * 0xbf58476d1ce4e5b9;
  z = (z ^ (z >> 27)) * 0x94d049bb133111eb;
  return (z ^ (z >> 31)) % n;
}

static uint64_t now(void) {
  struct timespec t;
  clock_gettime(CLOCK_MONOTONIC, &t);
  return t.tv_sec * 1000000000UL + t.tv_nsec;
}

/* What is measured. */
uint64_t timed(void (*run)(long count), long count);
__attribute__((noinline, noclone)) uint64_t timed(void (*run)(long count), long count) {
  uint64_t since = now();
  run(count);
  return now() - since;
}

static long least(long a, long b) { return a < b ? a : b; }

/* Ranges of more than 32 frames, which no cache has, beside so many live ones. A client holds 4,000 of these. */

static struct held {
  uint64_t lo;
  uint64_t frames;
} *held;
static long live, turn;
static uint64_t size_of_search, sizes = 32;

static uint64_t some_size(void) { return 33 + below(sizes); }

static void place(long k, uint64_t frames, uint64_t limit) {
  held[k] = (struct held){side->ask(k / EACH, frames, limit), frames};
  must(held[k].lo != 0, "there is a place");
}

static void drop(long k) { side->drop(k / EACH, held[k].lo, held[k].frames); }

static void fill(void) {
  for (long k = 0; k < live; k++)
    place(k, some_size(), TOP);
}

/* Holes of 64 frames below the top. */
static void holes(void) {
  uint64_t limit = TOP;
  for (long k = 0; k < live; k++) {
    place(k, 64, limit);
    limit = held[k].lo - 65;
  }
}

/* Holes of 126 frames, none with 64 that are aligned. */
static void misaligned(void) {
  uint64_t limit = TOP;
  for (long k = 0; k < live; k++) {
    place(k, 1, limit);
    limit = held[k].lo - (limit % 2 ? 127 : 1);
  }
}

/* Gives one of the ranges up, and takes another. */
static void renew(long k) {
  drop(k);
  place(k, some_size(), TOP);
}

static void b1(long count) {
  for (long i = 0; i < count; i++)
    renew((long)below((uint64_t)live));
}

static void b2(long count) {
  for (long i = 0; i < count; i++) {
    uint64_t frames = some_size(), lo = side->ask(live / EACH, frames, TOP);
    must(lo != 0, "there is a place");
    side->drop(live / EACH, lo, frames);
  }
}

static void b3(long count) {
  for (long i = 0; i < count; i++)
    renew(live - 1 - turn++ % 2);
}

/* A search from the top, and what it finds is given up at once. The kernel remembers where it was last, which is set
   back to the top each time, as it is when the highest range is freed. */
static void search(long count) {
  for (long i = 0; i < count; i++) {
    side->from_top();
    uint64_t lo = side->ask(live / EACH, size_of_search, TOP - (uint64_t)(turn++ % 2));
    if (lo)
      side->drop(live / EACH, lo, size_of_search);
  }
}

static const struct {
  const char *name;
  void (*make)(void);
  void (*run)(long count);
  uint64_t size;  /* of what is searched */
  int has_no_rest; /* whether the domain ends where the holes end */
  long steps;     /* at most so many operations times live ranges */
  uint64_t sizes; /* so many sizes from 33 on are asked for */
} trees[] = {
    {"b1", fill, b1, 0, 0, 500000000, 32},       {"b2", fill, b2, 0, 0, LONG_MAX, 32},
    {"b3", fill, b3, 0, 0, LONG_MAX, 32},        {"w1", fill, b1, 0, 0, 500000000, 4000},
    {"w2", fill, b2, 0, 0, LONG_MAX, 4000},      {"w3", fill, b3, 0, 0, LONG_MAX, 4000},
    {"c1", holes, search, 100, 0, 10000000, 32}, {"c3", holes, search, 100, 1, 10000000, 32},
    {"c4", misaligned, search, 64, 0, 10000000, 32},
};
enum { TREES = sizeof trees / sizeof *trees };

static void tell(const char *name, long count, uint64_t nanos) {
  if (is_counted)
    printf("%s  %ld\n", name, count);
  else
    printf("%s  %ld  %.1f\n", name, count, (double)nanos / (double)count);
}

/* The longest of so many operations. */
static uint64_t longest(void (*run)(long count), long count) {
  uint64_t most = 0;
  for (long k = 0; k < count; k++) {
    uint64_t took = timed(run, 1);
    most = took > most ? took : most;
  }
  return most;
}

static void run_tree(const char *name, int which, long beside) {
  long most = least(count, trees[which].steps / beside / (is_counted ? 10 : 1));
  uint64_t best = UINT64_MAX;
  live = beside;
  sizes = trees[which].sizes;
  size_of_search = trees[which].size;
  held = malloc((size_t)live * sizeof *held);
  must(held != NULL, "there is memory");
  state = 42;
  side->begin(trees[which].has_no_rest ? TOP + 1 - (uint64_t)live * 128 : 1, (int)(live / EACH + 1));
  trees[which].make();
  for (int run = 0; run < runs; run++) {
    uint64_t took = is_longest ? longest(trees[which].run, most) : timed(trees[which].run, most);
    best = took < best ? took : best;
  }
  side->flush();
  must(side->live() == live, "all ranges are live, and no other");
  free(held);
  tell(name, is_longest ? 1 : most, best);
}

/* What the heap has lent. */
static double lent(void) {
  struct mallinfo2 now = mallinfo2();
  return (double)(now.uordblks + now.hblkhd);
}

static void memory(void) {
  live = 1000000;
  held = malloc((size_t)live * sizeof *held);
  must(held != NULL, "there is memory");
  state = 42;
  side->begin(1, (int)(live / EACH + 1));
  double before = lent();
  fill();
  printf("live  %ld  %.1f\n", live, (lent() - before) / (double)live);
  if (side != &ours) /* each of its ranges is a block of its own */
    return;
  b1(live);
  printf("exchanged  %ld  %.1f\n", live, (lent() - before) / (double)live);
}

/* Requests through the caches. */

static uint64_t most_frames;

static uint64_t asked(uint64_t frames) {
  uint64_t lo = side->ask(0, frames, TOP);
  must(lo != 0, "there is a range");
  return lo;
}

static void at_once(long count) {
  for (long i = 0; i < count; i++)
    side->drop_and_flush(0, asked(1), 1);
}

static void requests(long count) {
  for (long i = 0; i < count; i++) {
    uint64_t frames = 1 + below(most_frames);
    side->drop(0, asked(frames), frames);
  }
}

static const struct {
  const char *name;
  void (*run)(long count);
  uint64_t most;
} machines[] = {{"a", at_once, 1}, {"au", requests, 1}, {"d", requests, 32}};
enum { MACHINES = sizeof machines / sizeof *machines };

static void run_machine(const char *name, int which) {
  uint64_t best = UINT64_MAX;
  for (int run = 0; run < runs; run++) {
    side->begin(1, 1);
    state = 5;
    most_frames = machines[which].most;
    uint64_t took = timed(machines[which].run, count);
    best = took < best ? took : best;
  }
  tell(name, count, best);
}

/* A driver's steady state beside so many other ranges: 90 frames are asked for and given up, and one flush is made. */

enum { FRAMES = 90, ORDERS = 100 };

static unsigned char orders[ORDERS][FRAMES];

static void some_orders(const char *queued) {
  state = 7;
  for (int o = 0; o < ORDERS; o++) {
    for (int k = 0; k < FRAMES; k++)
      orders[o][k] = (unsigned char)(*queued == 'n' ? FRAMES - 1 - k : k);
    for (int k = 0; *queued == 'r' && k < FRAMES; k++) {
      int other = (int)below((uint64_t)k + 1);
      unsigned char kept = orders[o][k];
      orders[o][k] = orders[o][other];
      orders[o][other] = kept;
    }
  }
}

static void steady(long count) {
  uint64_t given[FRAMES];
  for (long round = 0; round < count / FRAMES; round++) {
    const unsigned char *order = orders[round % ORDERS];
    for (int k = 0; k < FRAMES; k++)
      given[k] = asked(1);
    for (int k = 0; k < FRAMES; k++)
      side->drop(0, given[order[k]], 1);
    side->flush();
  }
}

static void run_steady(const char *name, int beside, const char *order) {
  uint64_t best = UINT64_MAX;
  some_orders(order);
  for (int run = 0; run < runs; run++) {
    side->begin(1, 1);
    for (int other = 0; other < beside; other++)
      asked(1);
    uint64_t took = timed(steady, count / 10 * 9);
    best = took < best ? took : best;
  }
  tell(name, count / 10 * 9, best);
}

/* The requests of a real kernel, as many times as there are operations in a run, each time in a new domain. */

static const char *const kernels[] = {"nvme", "e1000e"};
enum { KERNELS = 2, EVENTS = 100000 };

static struct event events[EVENTS];
static uint64_t given_at[TOP_32 + 1]; /* by the frame that the kernel gave: what was given here */

static void replay(long count) {
  for (long k = 0; k < count; k++) {
    const struct event *event = &events[k];
    if (event->kind == 'm') {
      given_at[event->lo] = side->ask(0, event->frames, TOP_32);
      must(given_at[event->lo] != 0, "there is a range");
    } else if (event->kind == 'u') {
      side->drop(0, given_at[event->lo], event->frames);
    } else {
      side->flush();
    }
  }
}

static void run_kernel(const char *name, int which) {
  char path[1024];
  snprintf(path, sizeof path, "%s/%s.requests", HERE, kernels[which]);
  long all = read_requests(path, events, EVENTS), requests = 0;
  must(all > 0, "there are requests");
  for (long k = 0; k < all; k++)
    requests += events[k].kind == 'm';
  uint64_t best = UINT64_MAX;
  for (int run = 0; run < (is_counted ? 1 : 10 * runs); run++) {
    side->begin(1, 1);
    uint64_t took = timed(replay, all);
    best = took < best ? took : best;
  }
  tell(name, requests, best);
}

/* Whether the word names this case, or the part before a slash does. Without a word the name is printed. */
static int is_meant(const char *name, const char *word) {
  if (!word)
    puts(name);
  size_t length = word ? strlen(word) : 0;
  return word && !strncmp(name, word, length) && (name[length] == '\0' || name[length] == '/');
}

/* Runs the cases that the word names, or prints the names of all. Answers how many were run. */
static int run(const char *word) {
  static const char *const order[] = {"newest", "oldest", "random"};
  static const int beside[] = {0, 500, 4000};
  char name[64];
  int found = 0;
  for (int k = 0; k < MACHINES; k++)
    if (is_meant(machines[k].name, word))
      run_machine(machines[k].name, k), found++;
  for (int k = 0; k < 9; k++) {
    snprintf(name, sizeof name, "l/%d/%s", beside[k / 3], order[k % 3]);
    if (is_meant(name, word))
      run_steady(name, beside[k / 3], order[k % 3]), found++;
  }
  for (int k = 0; k < TREES; k++)
    for (long live = 1000; live <= 100000; live *= 10) {
      snprintf(name, sizeof name, "%s/%ld", trees[k].name, live);
      if (is_meant(name, word))
        run_tree(name, k, live), found++;
    }
  for (int k = 0; k < KERNELS; k++)
    if (is_meant(kernels[k], word))
      run_kernel(kernels[k], k), found++;
  return found;
}

int main(int argc, char **words) {
  if (argc == 1)
    return run(NULL);
  int at = 1;
  if (!strcmp(words[at], "count")) {
    is_counted = 1, runs = 1, count /= 10;
    at++;
  } else if (!strcmp(words[at], "longest")) {
    is_longest = 1, runs = 5, count /= 10;
    at++;
  }
  int is_memory = !strcmp(words[at], "memory");
  at += is_memory;
  must(at < argc && (!strcmp(words[at], "ours") || !strcmp(words[at], "kernel")), "a side is named");
  side = !strcmp(words[at], "ours") ? &ours : &kernel;
  if (is_memory)
    memory();
  for (at++; at < argc; at++)
    must(run(words[at]), words[at]);
  return 0;
}

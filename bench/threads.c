/* Threads of which each asks for ranges and gives them up, on one of several allocators (side.h).

   threads SIDE PATTERN THREADS OPERATIONS         one run: prints the side, the pattern, the threads, millions of operations
                                                   a second, and the nanoseconds of processor time of one
   threads count SIDE PATTERN OPERATIONS           the same with one thread and no word, for a tool that counts the
                                                   instructions of the function `timed` and of what it calls

   An operation is a request and giving it back. Pattern d: 1 to 32 frames, given back at once. Pattern l: 90 requests of one
   frame, which are then given back in random order. What is given back waits for a flush, which comes where 255 wait and
   invalidates nothing. The sides are those of sharing.c, or of cached.c, and `nothing`, which is what the pattern itself
   takes. Each thread runs on a processor of its own, where there are as many. */
#define _GNU_SOURCE
#include "side.h"

#include <pthread.h>
#include <sched.h>
#include <stdio.h>
#include <stdlib.h>
#include <string.h>
#include <time.h>
#include <unistd.h>

enum { THREADS = 16, FRAMES = 90, ORDERS = 100 };

static uint64_t ask_nothing(int client, uint64_t frames, uint64_t limit) { return limit + frames + (uint64_t)client; }

static void drop_nothing(int client, uint64_t lo, uint64_t frames) {
  must(lo == TOP + frames + (uint64_t)client, "what is dropped was asked for");
}

static void begin_nothing(uint64_t start, int clients) { must(start == 1 && clients > 0, "there is a client"); }

static const struct side nothing = {.begin = begin_nothing, .ask = ask_nothing, .drop = drop_nothing};

static const struct side *side;
static char pattern;
static long operations;
static int threads;
static pthread_barrier_t gate;
static unsigned char orders[ORDERS][FRAMES];

static struct thread {
  pthread_t thread;
  int client;
  double began, ended, spent; /* seconds of the clock, and of processor time */
} all[THREADS];

void must(int is, const char *what) {
  if (!is) {
    fprintf(stderr, "threads: not so: %s\n", what);
    exit(1);
  }
}

/* A number below n: SplitMix64. */
static uint64_t below(uint64_t *state, uint64_t n) {
  *state += 0x9e3779b97f4a7c15;
  uint64_t z = *state;
  z = (z ^ (z >> 30)) * 0xbf58476d1ce4e5b9;
  z = (z ^ (z >> 27)) * 0x94d049bb133111eb;
  return (z ^ (z >> 31)) % n;
}

static double seconds(clockid_t clock) {
  struct timespec t;
  clock_gettime(clock, &t);
  return (double)t.tv_sec + (double)t.tv_nsec * 1e-9;
}

static void some_orders(void) {
  uint64_t state = 7;
  for (int o = 0; o < ORDERS; o++)
    for (int k = 0; k < FRAMES; k++) {
      int other = (int)below(&state, (uint64_t)k + 1);
      orders[o][k] = orders[o][other];
      orders[o][other] = (unsigned char)k;
    }
}

static uint64_t asked(int client, uint64_t frames) {
  uint64_t lo = side->ask(client, frames, TOP);
  must(lo != 0, "there is a range");
  return lo;
}

static void run(int client, long count, uint64_t state) {
  uint64_t given[FRAMES];
  for (long k = 0; pattern == 'd' && k < count; k++) {
    uint64_t frames = 1 + below(&state, 32);
    side->drop(client, asked(client, frames), frames);
  }
  for (long round = 0; pattern == 'l' && round < count / FRAMES; round++) {
    const unsigned char *order = orders[round % ORDERS];
    for (int k = 0; k < FRAMES; k++)
      given[k] = asked(client, 1);
    for (int k = 0; k < FRAMES; k++)
      side->drop(client, given[order[k]], 1);
  }
}

/* What is measured. */
void timed(int client, long count);
__attribute__((noinline, noclone)) void timed(int client, long count) { run(client, count, 1000 + (uint64_t)client); }

/* The last processors are taken, one for each thread. */
static void settle_on_a_processor(int client) {
  long processors = sysconf(_SC_NPROCESSORS_ONLN);
  cpu_set_t set;
  if (processors < threads)
    return;
  CPU_ZERO(&set);
  CPU_SET((size_t)(processors - 1 - client), &set);
  pthread_setaffinity_np(pthread_self(), sizeof set, &set); /* where it isn't allowed it is the system's affair */
}

static void *work(void *argument) {
  struct thread *me = argument;
  settle_on_a_processor(me->client);
  if (side->enter)
    side->enter(me->client);
  run(me->client, operations / 20 + 1000, 7 + (uint64_t)me->client);
  pthread_barrier_wait(&gate);
  me->began = seconds(CLOCK_MONOTONIC);
  double since = seconds(CLOCK_THREAD_CPUTIME_ID);
  timed(me->client, operations);
  me->spent = seconds(CLOCK_THREAD_CPUTIME_ID) - since;
  me->ended = seconds(CLOCK_MONOTONIC);
  pthread_barrier_wait(&gate);
  if (side->leave)
    side->leave(me->client);
  return NULL;
}

int main(int argc, char **words) {
  int is_counted = argc == 5 && !strcmp(words[1], "count");
  must(argc == 5, "there are four words");
  const char *name = words[is_counted ? 2 : 1];
  pattern = *words[is_counted ? 3 : 2];
  threads = is_counted ? 1 : atoi(words[3]);
  operations = atol(words[4]);
  side = strcmp(name, "nothing") ? NULL : &nothing;
  for (const struct named_side *named = sides; named->name; named++)
    side = strcmp(named->name, name) ? side : named->side;
  must(side && strchr("dl", pattern) && threads >= 1 && threads <= THREADS, "a side, a pattern and 1 to 16 threads");
  some_orders();
  must(!pthread_barrier_init(&gate, NULL, (unsigned)threads), "there is a gate");
  side->begin(1, threads);
  for (int k = 0; k < threads; k++) {
    all[k].client = k;
    must(!pthread_create(&all[k].thread, NULL, work, &all[k]), "there is a thread");
  }
  for (int k = 0; k < threads; k++)
    pthread_join(all[k].thread, NULL);
  double began = all[0].began, ended = all[0].ended, spent = 0;
  for (int k = 0; k < threads; k++) {
    began = all[k].began < began ? all[k].began : began;
    ended = all[k].ended > ended ? all[k].ended : ended;
    spent += all[k].spent;
  }
  double count = (double)operations * threads;
  if (!is_counted)
    printf("%s %c %d %.2f %.1f\n", name, pattern, threads, count / (ended - began) / 1e6, spent / count * 1e9);
  return 0;
}

/* The sides of bench/threads: the kernel's code, with a processor for each thread; one domain of the library behind a mutex
   or a spinlock; a domain for each thread over a slice of the frames; and a cache for each thread over one domain
   (iova_shared.h). */
#include "side.h"

#include <iova.h>
#include <iova_shared.h>

enum { CLIENTS = 16 };

/* What a thread has, in lines of the processor's cache of its own. */
static struct client {
  iova_domain *domain;
  uint64_t worker, number;
  iova_shared_cache cache;
  char apart[128];
} all[CLIENTS];

static iova_domain *domain;
static _Thread_local struct client *me; /* the one that this thread is */

static void enter(int client) { me = &all[client]; }

/* Empty, but a call. */
static int flush_nothing(void *with) {
  __asm__ volatile("" ::"r"(with) : "memory");
  return 1;
}

static iova_domain *new_domain(uint64_t start, uint64_t last, uint64_t workers) {
  iova_domain *made = iova_domain_new();
  must(made && !iova_domain_make(made, start, last, workers), "there is a domain");
  return made;
}

static void begin_one(uint64_t start, int clients) {
  must(clients <= CLIENTS, "there are 16 clients at most");
  domain = new_domain(start, TOP, (uint64_t)clients);
  for (int k = 0; k < clients; k++) {
    all[k].worker = (uint64_t)k;
    all[k].number = iova_open(domain, all[k].worker, 0).number;
  }
}

/* One domain behind a lock. */

static pthread_mutex_t the_mutex = PTHREAD_MUTEX_INITIALIZER;
static struct {
  char apart[64];
  int held;
  char behind[64];
} the_spinlock;

static void take_mutex(void) { pthread_mutex_lock(&the_mutex); }
static void let_mutex(void) { pthread_mutex_unlock(&the_mutex); }

/* After long without it a thread lets others run. */
static void take_spinlock(void) {
  for (unsigned looks = 1; __atomic_exchange_n(&the_spinlock.held, 1, __ATOMIC_ACQUIRE);)
    while (__atomic_load_n(&the_spinlock.held, __ATOMIC_RELAXED))
      if (looks++ % 4096 == 0)
        sched_yield();
      else
        __builtin_ia32_pause();
}

static void let_spinlock(void) { __atomic_store_n(&the_spinlock.held, 0, __ATOMIC_RELEASE); }

static inline uint64_t ask_under(void (*take)(void), void (*let)(void), uint64_t frames, uint64_t limit) {
  take();
  iova_range range = iova_alloc(domain, me->worker, me->number, frames, limit);
  let();
  return range.refused ? 0 : range.lo;
}

/* The invalidation is made without the lock. */
static inline void drop_under(void (*take)(void), void (*let)(void), uint64_t lo) {
  for (;;) {
    take();
    uint64_t refused = iova_unmap(domain, me->worker, me->number, lo).refused;
    uint64_t flush = refused == IOVA_RING_FULL ? iova_begin(domain).number : 0;
    let();
    if (!refused)
      return;
    must(flush != 0, "what is dropped is held");
    int went_well = flush_nothing(NULL);
    take();
    iova_end(domain, flush, (uint64_t)went_well);
    let();
  }
}

#define UNDER(lock)                                                                                                    \
  static uint64_t ask_##lock(int client, uint64_t frames, uint64_t limit) {                                            \
    (void)client;                                                                                                      \
    return ask_under(take_##lock, let_##lock, frames, limit);                                                          \
  }                                                                                                                    \
  static void drop_##lock(int client, uint64_t lo, uint64_t frames) {                                                  \
    (void)client, (void)frames;                                                                                        \
    drop_under(take_##lock, let_##lock, lo);                                                                           \
  }                                                                                                                    \
  static const struct side lock = {.begin = begin_one, .ask = ask_##lock, .drop = drop_##lock, .enter = enter};

UNDER(mutex)
UNDER(spinlock)

/* A slice of 2^32 frames for each thread, and no lock. */

static void begin_slices(uint64_t start, int clients) {
  must(clients <= CLIENTS, "there are 16 clients at most");
  for (int k = 0; k < clients; k++) {
    uint64_t first = (uint64_t)k << 32;
    all[k].domain = new_domain(first ? first : start, first + (UINT64_C(1) << 32) - 1, 1);
    all[k].number = iova_open(all[k].domain, 0, 0).number;
  }
}

static uint64_t ask_slices(int client, uint64_t frames, uint64_t limit) {
  iova_range range = iova_alloc(me->domain, 0, me->number, frames, limit);
  (void)client;
  return range.refused ? 0 : range.lo;
}

static void drop_slices(int client, uint64_t lo, uint64_t frames) {
  (void)client, (void)frames;
  if (iova_unmap(me->domain, 0, me->number, lo).refused) {
    uint64_t flush = iova_begin(me->domain).number;
    iova_end(me->domain, flush, (uint64_t)flush_nothing(NULL));
    must(!iova_unmap(me->domain, 0, me->number, lo).refused, "what is dropped is held");
  }
}

static const struct side slices = {.begin = begin_slices, .ask = ask_slices, .drop = drop_slices, .enter = enter};

/* A cache for each thread. */

static iova_shared shared;
static _Thread_local iova_shared_cache *mine;

static void begin_caches(uint64_t start, int clients) {
  must(clients <= CLIENTS, "there are 16 clients at most");
  domain = new_domain(start, TOP, (uint64_t)clients);
  must(!iova_shared_init(&shared, domain, flush_nothing, NULL), "the domain is shared");
}

static void enter_cache(int client) {
  mine = &all[client].cache;
  must(!iova_shared_open(mine, &shared, (uint64_t)client, 0), "there is a cache");
}

static uint64_t ask_cache(int client, uint64_t frames, uint64_t limit) {
  iova_range range = iova_shared_alloc(mine, frames, limit);
  (void)client;
  return range.refused ? 0 : range.lo;
}

static void drop_cache(int client, uint64_t lo, uint64_t frames) {
  (void)client, (void)frames;
  if (iova_shared_unmap(mine, lo).refused)
    must(0, "what is dropped is held");
}

static void leave_cache(int client) {
  (void)client;
  must(!iova_shared_close(mine), "the cache is closed");
}

static const struct side caches = {
    .begin = begin_caches, .ask = ask_cache, .drop = drop_cache, .enter = enter_cache, .leave = leave_cache};

const struct named_side sides[] = {{"kernel", &kernel}, {"mutex", &mutex},   {"spinlock", &spinlock},
                                   {"slices", &slices}, {"caches", &caches}, {NULL, NULL}};

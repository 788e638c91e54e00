/* iova_shared.h: a domain of libiova that the threads of a process share, each by a cache of its own. One file, header
 * and code, for C11 and C++17 by GCC or Clang; a program links -liova and the threads of POSIX (-pthread).
 *
 *   static int invalidate_the_iotlb(void *device) { .. return 1; }          0 where it failed
 *
 *   iova_shared shared;                                                     the domain was made by iova_domain_make
 *   iova_shared_init(&shared, domain, invalidate_the_iotlb, device);
 *   .. in each thread:
 *   iova_shared_cache cache;
 *   iova_shared_open(&cache, &shared, worker, 0);
 *   iova_mapping buffer = iova_shared_map(&cache, 65536, UINT32_MAX);
 *   .. map, let the device use buffer.address, unmap ..
 *   iova_shared_unmap_bytes(&cache, buffer.address);
 *   iova_shared_close(&cache);
 *   .. and at the end:
 *   iova_shared_clear(&shared);
 *   iova_domain_free(domain);
 *
 * Most calls touch nothing but the thread's own cache. The lock is taken where a cache's magazines are empty (64
 * requests in one hold), where they are full (64 ranges given back in one hold), for what has more than 32 frames,
 * where there is no space (a worker's ring drained in one hold), at the end (64 ranges), and twice for a flush; the
 * invalidation itself is made without it.
 *
 * Who flushes and when: a thread whose ring of 255 ranges is full, once what other threads' flushes have covered has
 * left it; a thread that finds no space; and whoever calls iova_shared_flush. So `invalidate` may run on several
 * threads at once, up to 32. It invalidates the whole domain, and answers 0 where that failed: what waits stays
 * waiting.
 *
 * `invalidate` makes no flush: there iova_shared_flush is refused by IOVA_FLIGHTS_FULL, and a call that needs a flush by
 * IOVA_RING_FULL or IOVA_NO_SPACE. No call here is a cancellation point: a thread that is cancelled in `invalidate` goes
 * on until the flush has ended. If `invalidate` ends the thread itself, by pthread_exit, or leaves by an exception of
 * C++, the flush ends as one that failed; the thread's cache stays open, and another thread may close it.
 *
 * In a child of fork(2) the domain and the caches are the parent's: each call of a cache is refused by IOVA_NO_CACHE, and
 * iova_shared_flush and iova_shared_open by IOVA_NO_DOMAIN. The child may make a domain of its own, and share it. vfork,
 * _Fork and a clone(2) of the program's own run no handler of pthread_atfork, so there the program itself must not call.
 *
 * A domain that is full: a thread that finds no space flushes, gives back what its own cache has, and asks once more.
 * If there is none even so it is refused by IOVA_NO_SPACE, and all other caches give back what is clean at their next
 * call: so it asks again later. A thread that will make no call for long calls iova_shared_give_back first.
 *
 * What a program owes, beside what it owes for iova.h:
 *  - the domain is called by this header alone, or with the lock `shared.lock` held; flushes are made by
 *    iova_shared_flush alone;
 *  - a cache is used by one thread at a time, but for iova_shared_unmap_by_other. An iova_shared and a cache that is
 *    open stay where they are in memory;
 *  - what is unmapped was unmapped for the device before, by stores that the thread has made, or that are ordered
 *    before its call;
 *  - no call from a signal handler, and no thread that is cancelled at any instruction (PTHREAD_CANCEL_ASYNCHRONOUS).
 *
 * What this header owes the caches, which the library can't see. It is held to by tests/c (shared, races, fences), not
 * proved:
 *  G1  `begun` is stored in the hold in which the flush begins; behind it comes a full fence, and behind that the
 *      invalidation.
 *  G2  A full fence stands between the device's mapping being cleared and the load of `begun` for the range that is
 *      given up.
 *  G3  `ended` is stored in the hold in which the flush ends, and is the greatest number of one that ended well; it is
 *      loaded by acquire.
 *  G4  What takes the domain and a cache runs in a hold of the lock.
 */
#ifndef IOVA_SHARED_H
#define IOVA_SHARED_H

#include "iova.h"

#include <pthread.h>
#include <sched.h>

#ifdef __cplusplus
extern "C" {
#endif

/* Ranges that other threads have given up for a cache, at most, until its thread takes them. */
#define IOVA_SHARED_LEFT 255

/* A domain that threads share. `lock` is held around each call of the domain. What else is in it is this header's. */
typedef struct iova_shared {
    pthread_mutex_t lock;
    iova_domain *domain;
    uint64_t granule; /* the bytes of a frame */
    int (*invalidate)(void *with);
    void *with;
    struct iova_shared_cache *caches; /* those that are open; changed under the lock and that of `forks` */
    struct iova_own_flight *flights;  /* the flushes that threads are making; under the lock */
    struct iova_own_forks *forks;
    struct iova_shared *next, **at; /* of `forks` */
    int is_forked;                  /* this process is a child of the domain's */
    char apart[64];                 /* no other number lies in the processor's line with these two */
    uint64_t begun;                   /* the last flush that has begun */
    uint64_t ended;                   /* the greatest number of a flush that ended well */
    char behind[64];
} iova_shared;

/* A thread's cache of a shared domain. What is in it is this header's. */
typedef struct iova_shared_cache {
    iova_cache cache;
    iova_shared *shared;
    unsigned shift; /* of the bytes of a frame */
    uint64_t worker, client;
    uint64_t frames, limit, lo;     /* what the thread's call asks for, and is answered where it goes the long way */
    iova_range answer;
    uint64_t clean;                 /* at least so many of the oldest in the ring were covered by a flush */
    int is_closing;
    struct iova_shared_cache *next; /* of `caches` */
    char apart[64];
    uint64_t called; /* not 0: something is to be done at the next call, enum iova_own_call */
    pthread_mutex_t left_lock;
    uint64_t left_count, left_wrong, left[IOVA_SHARED_LEFT]; /* what others have given up; under left_lock */
} iova_shared_cache;

/* How many ranges of a cache are where: with the user, in the ring, in magazines, and given up by other threads and not
 * taken yet, which count as the user's too. `wrong` is how many first frames other threads gave that began no range of
 * the user. */
typedef struct iova_shared_counts {
    uint64_t refused, held, waiting, cached, left, wrong;
} iova_shared_counts;

/* What the calls below are made of: names that begin with iova_own are nobody else's. */

#define IOVA_OWN_LIKELY(is) __builtin_expect(!!(is), 1)
/* What is seldom called stands apart, so that the rest is short; where nobody calls it it is left out. */
#ifdef __OPTIMIZE__
#define IOVA_OWN_COLD __attribute__((noinline, cold, unused)) static
#else
#define IOVA_OWN_COLD static inline
#endif
#define IOVA_OWN_ORDERS 6
#define IOVA_OWN_MAGAZINE 256
#define IOVA_OWN_RING 255
#define IOVA_OWN_EXCHANGED 64
#define IOVA_OWN_WAITS UINT64_MAX

enum iova_own_call { IOVA_OWN_WANTED = 1, IOVA_OWN_LEFT = 2, IOVA_OWN_FORKED = 4 };

/* A flush that a thread is making, on the thread's stack. */
struct iova_own_flight {
    iova_shared *shared;
    uint64_t number;
    pthread_t thread;
    int cancels; /* whether the thread could be cancelled before */
    struct iova_own_flight *next, **at;
};

/* The domains that this file of the program has shared, which a forked child marks. */
struct iova_own_forks {
    pthread_mutex_t lock;
    iova_shared *first;
    int has_handlers;
};

static struct iova_own_forks iova_own_forks __attribute__((unused)) = {PTHREAD_MUTEX_INITIALIZER, NULL, 0};

IOVA_OWN_COLD void iova_own_fork_begins(void) { pthread_mutex_lock(&iova_own_forks.lock); }

IOVA_OWN_COLD void iova_own_fork_ended(void) { pthread_mutex_unlock(&iova_own_forks.lock); }

/* In the child: neither domains nor caches are its own, nor those of its children. */
IOVA_OWN_COLD void iova_own_is_child(void) {
    iova_shared *shared;
    iova_shared_cache *cache;
    for (shared = iova_own_forks.first; shared; shared = shared->next) {
        shared->is_forked = 1;
        for (cache = shared->caches; cache; cache = cache->next)
            __atomic_fetch_or(&cache->called, (uint64_t)IOVA_OWN_FORKED, __ATOMIC_RELEASE);
    }
    iova_own_forks.first = NULL;
    pthread_mutex_unlock(&iova_own_forks.lock);
}

/* A child will find the domain. Whether there was memory for that. */
IOVA_OWN_COLD int iova_own_begin_watch(iova_shared *shared) {
    struct iova_own_forks *forks = &iova_own_forks;
    int is_watched;
    shared->forks = forks;
    pthread_mutex_lock(&forks->lock);
    if (!forks->has_handlers)
        forks->has_handlers = !pthread_atfork(iova_own_fork_begins, iova_own_fork_ended, iova_own_is_child);
    is_watched = forks->has_handlers;
    if (is_watched) {
        shared->next = forks->first;
        shared->at = &forks->first;
        if (shared->next)
            shared->next->at = &shared->next;
        forks->first = shared;
    }
    pthread_mutex_unlock(&forks->lock);
    return is_watched;
}

IOVA_OWN_COLD void iova_own_end_watch(iova_shared *shared) {
    pthread_mutex_lock(&shared->forks->lock);
    *shared->at = shared->next;
    if (shared->next)
        shared->next->at = shared->at;
    pthread_mutex_unlock(&shared->forks->lock);
}

/* Whether a call that isn't quick is made in a child: also of a cache that another thread was just opening or closing. */
static inline int iova_own_is_forked(const iova_shared_cache *cache) { return cache->shared->is_forked; }

#if defined(__SANITIZE_THREAD__)
#define IOVA_OWN_TSAN 1
#elif defined(__has_feature)
#if __has_feature(thread_sanitizer)
#define IOVA_OWN_TSAN 1
#endif
#endif

/* A full fence: no store before it comes behind a load after it. ThreadSanitizer doesn't know fences, and is shown an
 * exchange, which is one on the processors that it runs on. */
static inline void iova_own_fence(void) {
#ifdef IOVA_OWN_TSAN
    uint64_t word = 0;
    __atomic_exchange_n(&word, 1, __ATOMIC_SEQ_CST);
#else
    __atomic_thread_fence(__ATOMIC_SEQ_CST);
#endif
}

static inline iova_range iova_own_refused(uint64_t refused) {
    iova_range range;
    range.refused = refused;
    range.lo = range.len = 0;
    return range;
}

/* The answer of a call that wasn't refused. */
static inline iova_range iova_own_given(iova_packed_range packed) {
    iova_range range;
    range.refused = 0;
    range.lo = packed.lo;
    range.len = packed.len;
    return range;
}

static inline void iova_own_lock(iova_shared *shared) { pthread_mutex_lock(&shared->lock); }

static inline void iova_own_unlock(iova_shared *shared) { pthread_mutex_unlock(&shared->lock); }

/* The number that a range is given up with (G2). The page table entry was cleared by a store, and `begun` is a load:
 * without the fence the processor may load first. Then it is an old number that is loaded, that of a flush before the
 * next; the next one invalidates, the device walks the page table again, finds the entry that the store hasn't reached,
 * and keeps a translation; and the next flush's end would let the range go. With both fences, this one and that of
 * iova_shared_flush, either the number of the next flush is loaded, which a later one has to cover, or its invalidation
 * comes behind the store. */
static inline uint64_t iova_own_begun(iova_shared *shared) {
    iova_own_fence();
    return __atomic_load_n(&shared->begun, __ATOMIC_SEQ_CST);
}

/* Begins a flush of this thread. Answers 0, or the refusal; IOVA_OWN_WAITS where 32 are in flight, which will end. */
IOVA_OWN_COLD uint64_t iova_own_begin_flight(iova_shared *shared, struct iova_own_flight *flight) {
    struct iova_own_flight *other;
    uint64_t refused = 0;
    flight->shared = shared;
    flight->thread = pthread_self();
    iova_own_lock(shared);
    for (other = shared->flights; other; other = other->next)
        if (pthread_equal(other->thread, flight->thread))
            refused = IOVA_FLIGHTS_FULL; /* in its `invalidate` */
    if (!refused) {
        iova_number flush = iova_begin(shared->domain);
        flight->number = flush.number;
        refused = flush.refused == IOVA_FLIGHTS_FULL ? IOVA_OWN_WAITS : flush.refused;
    }
    if (!refused) {
        __atomic_store_n(&shared->begun, flight->number, __ATOMIC_SEQ_CST); /* G1: in this hold, so that it rises */
        flight->next = shared->flights;
        flight->at = &shared->flights;
        if (flight->next)
            flight->next->at = &flight->next;
        shared->flights = flight;
    }
    iova_own_unlock(shared);
    return refused;
}

IOVA_OWN_COLD void iova_own_end_flight(struct iova_own_flight *flight, int went_well) {
    iova_shared *shared = flight->shared;
    iova_own_lock(shared);
    *flight->at = flight->next;
    if (flight->next)
        flight->next->at = flight->at;
    iova_end(shared->domain, flight->number, (uint64_t)went_well);
    /* G3: `newest` and not `finish`, which would wait for flushes in flight that began before. Of one that failed it's
     * an older number, which frees nothing. */
    __atomic_store_n(&shared->ended, iova_flushes_of(shared->domain).newest, __ATOMIC_RELEASE);
    iova_own_unlock(shared);
}

/* The thread ends in `invalidate`, or leaves it by an exception of C++. */
IOVA_OWN_COLD void iova_own_fail(void *of) {
    struct iova_own_flight *flight = (struct iova_own_flight *)of;
    iova_own_end_flight(flight, 0);
    pthread_setcancelstate(flight->cancels, &flight->cancels);
}

IOVA_OWN_COLD int iova_own_invalidate(struct iova_own_flight *flight) {
    int went_well;
    pthread_cleanup_push(iova_own_fail, flight);
    went_well = flight->shared->invalidate(flight->shared->with) != 0;
    pthread_cleanup_pop(0);
    return went_well;
}

/* A flush of the whole domain now. Waits where 32 are in flight. Answers 0, IOVA_SINK_FAULT where the invalidation
 * failed, IOVA_FLIGHTS_FULL in an `invalidate` of this thread, or IOVA_WORN or IOVA_NO_DOMAIN. */
static inline uint64_t iova_shared_flush(iova_shared *shared) {
    struct iova_own_flight flight;
    uint64_t refused;
    int went_well;
    if (shared->is_forked)
        return IOVA_NO_DOMAIN;
    while ((refused = iova_own_begin_flight(shared, &flight)) == IOVA_OWN_WAITS)
        sched_yield();
    if (refused)
        return refused;
    pthread_setcancelstate(PTHREAD_CANCEL_DISABLE, &flight.cancels);
    /* G1: behind this whatever a device finds in the page table is without the entries that were cleared before an
     * older number was loaded, and only then are translations taken away. */
    iova_own_fence();
    went_well = iova_own_invalidate(&flight);
    iova_own_end_flight(&flight, went_well);
    pthread_setcancelstate(flight.cancels, &flight.cancels);
    return went_well ? 0 : (uint64_t)IOVA_SINK_FAULT;
}

/* What flushes have covered leaves the cache's ring (G3). Answers how many ranges. */
static inline uint64_t iova_own_settle(iova_shared_cache *cache) {
    uint64_t ended = __atomic_load_n(&cache->shared->ended, __ATOMIC_ACQUIRE);
    uint64_t count = iova_cache_settle(&cache->cache, ended).number;
    cache->clean = count < cache->clean ? cache->clean - count : 0;
    return count;
}

/* A flush for what waits in the cache's ring, so many ranges, all of which it covers. Answers how many left it. */
IOVA_OWN_COLD uint64_t iova_own_flush(iova_shared_cache *cache, uint64_t waiting) {
    if (waiting && !iova_shared_flush(cache->shared))
        cache->clean = waiting;
    return iova_own_settle(cache);
}

/* Gives ranges of an order back to the domain, the newest first, up to so many: 64 in each hold (G4). Where the
 * domain's own ring is full it is flushed. Answers how many. */
IOVA_OWN_COLD uint64_t iova_own_spill(iova_shared_cache *cache, uint64_t order, uint64_t most) {
    uint64_t spilled = 0;
    int flushes = 0;
    while (spilled < most) {
        iova_number gone;
        iova_own_lock(cache->shared);
        gone = iova_cache_spill(cache->shared->domain, &cache->cache, order, most - spilled);
        iova_own_unlock(cache->shared);
        spilled += gone.number;
        if (gone.number)
            flushes = 0;
        else if (gone.refused != IOVA_RING_FULL || ++flushes > 4 || iova_shared_flush(cache->shared))
            break; /* one flush isn't enough where an older one is in flight: the domain's ring goes by `finish` */
    }
    return spilled;
}

/* Gives back all that nobody uses and that waits for no flush. */
IOVA_OWN_COLD void iova_own_give_back(iova_shared_cache *cache) {
    uint64_t moved = 1, order;
    while (moved) {
        iova_own_settle(cache);
        for (moved = 0, order = 0; order < IOVA_OWN_ORDERS; order++)
            moved += iova_own_spill(cache, order, UINT64_MAX);
    }
}

/* Calls all other caches, since there is no space. */
IOVA_OWN_COLD void iova_own_want(iova_shared_cache *cache) {
    iova_shared_cache *other;
    iova_own_lock(cache->shared);
    for (other = cache->shared->caches; other; other = other->next)
        if (other != cache)
            __atomic_fetch_or(&other->called, (uint64_t)IOVA_OWN_WANTED, __ATOMIC_RELEASE);
    iova_own_unlock(cache->shared);
}

/* Makes room in the cache's ring, which is full. Answers 0, or IOVA_RING_FULL. */
IOVA_OWN_COLD uint64_t iova_own_make_room(iova_shared_cache *cache) {
    iova_cache_counts counts;
    uint64_t order;
    if (iova_own_settle(cache) || (!cache->clean && iova_own_flush(cache, IOVA_OWN_RING)))
        return 0;
    if (!cache->clean)
        return IOVA_RING_FULL; /* the flush failed */
    counts = iova_cache_counts_of(&cache->cache); /* the oldest is clean, and its magazines are full */
    for (order = 0; order < IOVA_OWN_ORDERS; order++)
        if (counts.magazines[order] >= IOVA_OWN_MAGAZINE)
            iova_own_spill(cache, order, IOVA_OWN_EXCHANGED);
    return iova_own_settle(cache) ? 0 : (uint64_t)IOVA_RING_FULL;
}

/* The range goes into the domain's ring: it is of more than 32 frames (G4). */
IOVA_OWN_COLD iova_range iova_own_unmap_by(iova_shared_cache *cache, uint64_t lo) {
    iova_range range;
    int flushes = 0;
    for (;;) {
        iova_own_lock(cache->shared);
        range = iova_cache_unmap_by(cache->shared->domain, &cache->cache, lo);
        iova_own_unlock(cache->shared);
        if (range.refused != IOVA_RING_FULL || ++flushes > 4 || iova_shared_flush(cache->shared))
            return range;
    }
}

IOVA_OWN_COLD iova_range iova_own_give_up(iova_shared_cache *cache, uint64_t lo) {
    iova_range range = iova_cache_unmap(&cache->cache, lo, iova_own_begun(cache->shared));
    if (range.refused == IOVA_NO_ORDER)
        return iova_own_unmap_by(cache, lo);
    if (range.refused == IOVA_RING_FULL && !iova_own_make_room(cache))
        return iova_cache_unmap(&cache->cache, lo, iova_own_begun(cache->shared));
    return range;
}

/* Gives up what other threads have left. The number of each is read now, behind their stores, and is late at most,
 * which is sound. From the first on for which there is no room all stay: behind a flush that failed no other is made.
 * Others only add, behind what is copied here. */
IOVA_OWN_COLD void iova_own_take_left(iova_shared_cache *cache) {
    uint64_t left[IOVA_SHARED_LEFT], count, at, kept = 0, wrong = 0;
    pthread_mutex_lock(&cache->left_lock);
    count = cache->left_count;
    for (at = 0; at < count; at++)
        left[at] = cache->left[at];
    pthread_mutex_unlock(&cache->left_lock);
    for (at = 0; at < count; at++) {
        uint64_t refused = iova_own_give_up(cache, left[at]).refused;
        if (refused == IOVA_RING_FULL)
            break;
        wrong += refused != 0;
    }
    for (; at < count; at++)
        left[kept++] = left[at];
    pthread_mutex_lock(&cache->left_lock);
    cache->left_wrong += wrong;
    for (at = 0; at < kept; at++)
        cache->left[at] = left[at];
    for (at = count; at < cache->left_count; at++)
        cache->left[kept++] = cache->left[at];
    cache->left_count = kept;
    if (kept)
        __atomic_fetch_or(&cache->called, (uint64_t)IOVA_OWN_LEFT, __ATOMIC_RELEASE);
    pthread_mutex_unlock(&cache->left_lock);
}

/* Does what others have called for. */
static inline void iova_own_answer(iova_shared_cache *cache) {
    uint64_t called = __atomic_load_n(&cache->called, __ATOMIC_RELAXED);
    if (called)
        called = __atomic_exchange_n(&cache->called, 0, __ATOMIC_ACQ_REL);
    if (called & IOVA_OWN_LEFT)
        iova_own_take_left(cache);
    if (called & IOVA_OWN_WANTED)
        iova_own_give_back(cache);
}

/* A range of the magazines, once what is clean is in them. */
static inline iova_range iova_own_take(iova_shared_cache *cache, uint64_t frames, uint64_t limit) {
    iova_range range = iova_cache_alloc(&cache->cache, frames, limit);
    if ((range.refused == IOVA_DRY || range.refused == IOVA_MISS) && iova_own_settle(cache))
        range = iova_cache_alloc(&cache->cache, frames, limit);
    return range;
}

/* A range of the domain (G4). `why` is what the magazines answered: where they are empty they get `most` by the way. */
IOVA_OWN_COLD iova_range iova_own_ask(iova_shared_cache *cache, uint64_t frames, uint64_t limit, uint64_t why,
                                      uint64_t most) {
    iova_range range = iova_own_refused(why);
    iova_own_lock(cache->shared);
    if (why == IOVA_DRY) {
        iova_number got = iova_cache_refill(cache->shared->domain, &cache->cache, frames, limit, most);
        range = got.refused ? iova_own_refused(got.refused) : iova_cache_alloc(&cache->cache, frames, limit);
        why = range.refused; /* IOVA_MISS where there was none below 4 GiB for a cache that is sac */
    }
    if (why == IOVA_MISS || why == IOVA_NO_ORDER)
        range = iova_cache_alloc_by(cache->shared->domain, &cache->cache, frames, limit);
    iova_own_unlock(cache->shared);
    return range;
}

/* All that was given back to the domain, by whomever, is to be had again. */
IOVA_OWN_COLD void iova_own_recover(iova_shared *shared) {
    uint64_t workers, worker, waiting;
    iova_own_lock(shared);
    waiting = iova_counts_of(shared->domain).ring;
    workers = iova_bounds_of(shared->domain).workers;
    iova_own_unlock(shared);
    if (!waiting || iova_shared_flush(shared))
        return;
    for (worker = 0; worker < workers; worker++) {
        iova_own_lock(shared);
        iova_drain(shared->domain, worker, worker);
        iova_own_unlock(shared);
    }
}

static inline int iova_own_is_unmet(uint64_t refused) {
    return refused == IOVA_DRY || refused == IOVA_MISS || refused == IOVA_NO_ORDER;
}

/* The long way of a request. */
static inline iova_range iova_own_request(iova_shared_cache *cache, uint64_t frames, uint64_t limit) {
    iova_range range;
    int tries;
    if (iova_own_is_forked(cache))
        return iova_own_refused(IOVA_NO_CACHE);
    if (cache->is_closing)
        return iova_own_refused(IOVA_CLOSING);
    iova_own_answer(cache);
    for (tries = 0;; tries++) {
        range = iova_own_take(cache, frames, limit);
        if (!iova_own_is_unmet(range.refused))
            return range;
        range = iova_own_ask(cache, frames, limit, range.refused, tries ? 1 : IOVA_OWN_EXCHANGED);
        if ((range.refused != IOVA_NO_SPACE && range.refused != IOVA_HOLDINGS_FULL) || tries == 2)
            break;
        if (tries == 0 && iova_own_flush(cache, iova_cache_counts_of(&cache->cache).waiting))
            continue; /* what waited here may do */
        iova_own_give_back(cache);
        iova_own_recover(cache->shared);
        tries = 1;
    }
    if (range.refused == IOVA_NO_SPACE)
        iova_own_want(cache);
    return range;
}

/* The long ways. What is asked and answered lies in the cache, so that the short ways keep nothing in registers. */
IOVA_OWN_COLD void iova_own_alloc(iova_shared_cache *cache) {
    cache->answer = iova_own_request(cache, cache->frames, cache->limit);
}

IOVA_OWN_COLD void iova_own_unmap(iova_shared_cache *cache) {
    if (cache->is_closing || iova_own_is_forked(cache)) {
        cache->answer = iova_own_refused(iova_own_is_forked(cache) ? IOVA_NO_CACHE : IOVA_CLOSING);
        return;
    }
    iova_own_answer(cache);
    cache->answer = iova_own_give_up(cache, cache->lo);
}

static inline int iova_own_is_called(const iova_shared_cache *cache) {
    return __atomic_load_n(&cache->called, __ATOMIC_RELAXED) != 0;
}

/* What a program calls. */

/* Shares a domain that was made, and on which no call is made meanwhile. `invalidate` is given `with`, and is as is
 * said above. Answers 0, or IOVA_NO_DOMAIN, or IOVA_NO_MEMORY where the system has no lock. */
static inline uint64_t iova_shared_init(iova_shared *shared, iova_domain *domain, int (*invalidate)(void *with),
                                        void *with) {
    iova_flushes flushes = iova_flushes_of(domain);
    if (flushes.refused)
        return flushes.refused;
    shared->domain = domain;
    shared->granule = iova_granule_of(domain).number;
    shared->invalidate = invalidate;
    shared->with = with;
    shared->caches = NULL;
    shared->flights = NULL;
    shared->is_forked = 0;
    shared->begun = flushes.start;
    shared->ended = flushes.newest;
    if (pthread_mutex_init(&shared->lock, NULL))
        return IOVA_NO_MEMORY;
    if (iova_own_begin_watch(shared))
        return 0;
    pthread_mutex_destroy(&shared->lock);
    return IOVA_NO_MEMORY;
}

/* The domain is shared no more: all caches were closed. It is the program's again. In a forked child nothing is done. */
static inline void iova_shared_clear(iova_shared *shared) {
    if (shared->is_forked)
        return;
    iova_own_end_watch(shared);
    pthread_mutex_destroy(&shared->lock);
}

/* Opens a cache for a thread, in room of the program's own: a client of the worker, with `sac` as for iova_open.
 * Several caches may be of one worker. Answers 0, or a refusal of iova_cache_make or, in a forked child,
 * IOVA_NO_DOMAIN, and then the room is left as it may be. */
static inline uint64_t iova_shared_open(iova_shared_cache *cache, iova_shared *shared, uint64_t worker, uint64_t sac) {
    iova_number client;
    if (shared->is_forked)
        return IOVA_NO_DOMAIN;
    iova_cache_init(&cache->cache);
    cache->shared = shared;
    cache->shift = (unsigned)__builtin_ctzll(shared->granule);
    cache->worker = worker;
    cache->clean = cache->called = cache->left_count = cache->left_wrong = 0;
    cache->is_closing = 0;
    if (pthread_mutex_init(&cache->left_lock, NULL))
        return IOVA_NO_MEMORY;
    iova_own_lock(shared);
    client = iova_cache_make(shared->domain, &cache->cache, worker, sac);
    cache->client = client.number;
    if (!client.refused) {
        pthread_mutex_lock(&shared->forks->lock);
        cache->next = shared->caches;
        shared->caches = cache;
        pthread_mutex_unlock(&shared->forks->lock);
    }
    iova_own_unlock(shared);
    if (client.refused)
        pthread_mutex_destroy(&cache->left_lock);
    return client.refused;
}

/* Gives a range, as iova_alloc does; but up to 32 frames it need not be the highest that fits. Refusals: those of
 * iova_alloc. By IOVA_HOLDINGS_FULL the user itself has 4,096 ranges that it holds or that wait. */
static inline iova_range iova_shared_alloc(iova_shared_cache *cache, uint64_t frames, uint64_t limit) {
    cache->frames = frames;
    cache->limit = limit;
    if (IOVA_OWN_LIKELY(!iova_own_is_called(cache))) {
        iova_packed_range range = iova_cache_alloc_packed(&cache->cache, frames, limit);
        if (IOVA_OWN_LIKELY(range.len))
            return iova_own_given(range);
    }
    iova_own_alloc(cache);
    return cache->answer;
}

/* Gives up the range that begins at frame `lo`: the device has stopped using it, and its mapping is cleared.
 * IOVA_NOT_HELD: the cache's user holds no range that begins there. IOVA_RING_FULL: 255 wait, and flushes didn't help;
 * the range is still held. IOVA_CLOSING. */
static inline iova_range iova_shared_unmap(iova_shared_cache *cache, uint64_t lo) {
    cache->lo = lo;
    if (IOVA_OWN_LIKELY(!iova_own_is_called(cache))) {
        iova_packed_range range = iova_cache_unmap_packed(&cache->cache, lo, iova_own_begun(cache->shared));
        if (IOVA_OWN_LIKELY(range.len))
            return iova_own_given(range);
    }
    iova_own_unmap(cache);
    return cache->answer;
}

static inline iova_mapping iova_own_mapping(iova_range range, unsigned shift) {
    iova_mapping mapping;
    mapping.refused = range.refused;
    mapping.address = range.lo << shift;
    mapping.bytes = range.len << shift;
    return mapping;
}

/* The same in bytes, as iova_map and iova_unmap_bytes are: by the domain's granule. */
static inline iova_mapping iova_shared_map(iova_shared_cache *cache, uint64_t bytes, uint64_t dma_mask) {
    unsigned shift = cache->shift;
    uint64_t below = (UINT64_C(1) << shift) - 1; /* the mask ends a frame where its last byte is in it */
    uint64_t frames = (bytes >> shift) + ((bytes & below) != 0);
    uint64_t limit = dma_mask < below ? 0 : (dma_mask - below) >> shift;
    return iova_own_mapping(iova_shared_alloc(cache, frames, limit), shift);
}

static inline iova_mapping iova_shared_unmap_bytes(iova_shared_cache *cache, uint64_t address) {
    return iova_own_mapping(iova_shared_unmap(cache, address >> cache->shift), cache->shift);
}

/* The range that begins at frame `lo` of another thread's cache is given up, by whatever thread: the cache's own thread
 * takes it at its next call. The cache is open, and isn't closed meanwhile. Answers 0; whether the cache's user holds
 * such a range is seen only then, and counted (iova_shared_counts). IOVA_RING_FULL: 255 wait to be taken; the range is
 * still held. */
static inline uint64_t iova_shared_unmap_by_other(iova_shared_cache *cache, uint64_t lo) {
    uint64_t refused = 0;
    if (iova_own_is_forked(cache))
        return IOVA_NO_CACHE;
    pthread_mutex_lock(&cache->left_lock);
    if (cache->left_count < IOVA_SHARED_LEFT)
        cache->left[cache->left_count++] = lo;
    else
        refused = IOVA_RING_FULL;
    pthread_mutex_unlock(&cache->left_lock);
    __atomic_fetch_or(&cache->called, (uint64_t)IOVA_OWN_LEFT, __ATOMIC_RELEASE);
    return refused;
}

/* Gives back all that nobody uses and that waits for no flush, and takes what other threads have left: for a thread
 * that will make no call for long. Answers 0, or IOVA_CLOSING. */
static inline uint64_t iova_shared_give_back(iova_shared_cache *cache) {
    if (iova_own_is_forked(cache))
        return IOVA_NO_CACHE;
    if (cache->is_closing)
        return IOVA_CLOSING;
    iova_own_answer(cache);
    iova_own_give_back(cache);
    return 0;
}

/* How many ranges are where. It walks over what the user holds. IOVA_CLOSING. */
static inline iova_shared_counts iova_shared_counts_of(iova_shared_cache *cache) {
    iova_shared_counts counts = {IOVA_CLOSING, 0, 0, 0, 0, 0};
    iova_cache_counts own;
    uint64_t order;
    if (iova_own_is_forked(cache))
        counts.refused = IOVA_NO_CACHE;
    if (cache->is_closing || iova_own_is_forked(cache))
        return counts;
    own = iova_cache_counts_of(&cache->cache);
    counts.refused = own.refused;
    counts.held = own.held;
    counts.waiting = own.waiting;
    for (order = 0; order < IOVA_OWN_ORDERS; order++)
        counts.cached += own.magazines[order];
    pthread_mutex_lock(&cache->left_lock);
    counts.left = cache->left_count;
    counts.wrong = cache->left_wrong;
    pthread_mutex_unlock(&cache->left_lock);
    return counts;
}

/* Ends the cache: all its ranges, those that the user holds too, wait for a flush in the domain. The device has stopped
 * using them. 0: it is gone. Else, as by IOVA_RING_FULL where no flush goes well, it is closing: each other call is
 * refused by IOVA_CLOSING, and this one may be made again. In a forked child IOVA_NO_CACHE, and nothing is done. */
static inline uint64_t iova_shared_close(iova_shared_cache *cache) {
    iova_shared *shared = cache->shared;
    iova_shared_cache **at;
    int flushes = 0;
    if (iova_own_is_forked(cache))
        return IOVA_NO_CACHE;
    if (!cache->is_closing) {
        iova_own_lock(shared);
        iova_cache_end(shared->domain, &cache->cache);
        pthread_mutex_lock(&shared->forks->lock);
        for (at = &shared->caches; *at; at = &(*at)->next)
            if (*at == cache) {
                *at = cache->next;
                break;
            }
        pthread_mutex_unlock(&shared->forks->lock);
        iova_own_unlock(shared);
        cache->is_closing = 1;
        pthread_mutex_destroy(&cache->left_lock);
    }
    for (;;) {
        iova_range range = iova_own_refused(0);
        uint64_t gone;
        iova_own_lock(shared);
        for (gone = 0; gone < IOVA_OWN_EXCHANGED; gone++) {
            range = iova_close_one(shared->domain, cache->worker, cache->client);
            if (range.refused || !range.len)
                break;
        }
        iova_own_unlock(shared);
        flushes = gone ? 0 : flushes + 1;
        if (range.refused == IOVA_NO_CLIENT || (!range.refused && !range.len))
            return 0; /* it is gone, or was before */
        if (range.refused && (range.refused != IOVA_RING_FULL || flushes > 4 || iova_shared_flush(shared)))
            return range.refused;
    }
}

#ifdef __cplusplus
}
#endif

#endif

/* shadow.h: what a device may reach, kept beside an allocator that threads or processes use, and a log of what they
 * did.
 *
 * For each frame the shadow has who owns it, a page table entry, and what the device's IOTLB has. A thread of the
 * device loads entries into the IOTLB at random; an invalidation clears it, or fails, and then clears a part. When a
 * range is given nobody owns it, the IOTLB has nothing of it, and a flush that began after it was last given up has
 * ended well. What was mapped, unmapped and flushed stands in logs, one for each user, which make one log for `iovad
 * check`: an unmap is stamped before its call, a map behind it, and a flush by who invalidates. All of it lies in
 * memory that the processes of a test share. */
#ifndef SHADOW_H
#define SHADOW_H

#include <inttypes.h>
#include <pthread.h>
#include <sched.h>
#include <stdatomic.h>
#include <stdint.h>
#include <stdio.h>
#include <stdlib.h>
#include <string.h>
#include <sys/mman.h>
#include <time.h>
#include <unistd.h>

enum { SHADOW_FRAMES = 1 << 17, SHADOW_LOGS = 40, SHADOW_A_SECOND = 1 << 19 };
enum shadow_kind { SHADOW_MAP, SHADOW_UNMAP, SHADOW_BEGIN, SHADOW_OK, SHADOW_FAIL };

/* `what` is a kind above 60 bits, a length above 40, and a first frame or the number of a flush. */
struct shadow_event {
    uint64_t stamp, what;
};

/* There is room for so many events, of which a user makes fewer than SHADOW_A_SECOND. */
struct shadow_log {
    _Atomic uint64_t count;
    uint64_t room;
    struct shadow_event *events;
};

struct shadow {
    _Atomic uint32_t owner[SHADOW_FRAMES], entry[SHADOW_FRAMES], tlb[SHADOW_FRAMES];
    _Atomic uint64_t given_up[SHADOW_FRAMES]; /* a stamp, 0 where it never was */
    _Atomic uint64_t stamp, best_begun, flushes, good, bad;
    _Atomic uint64_t allocs, frees, no_space, ring_full;
    _Atomic int stops, fails_in; /* one invalidation in so many fails; 0: none */
    uint64_t last;               /* the frames are 1 to this one */
    struct shadow_log logs[SHADOW_LOGS];
};

static struct shadow *shadow;
static pthread_mutex_t shadow_device_lock = PTHREAD_MUTEX_INITIALIZER;

#define MUST(is)                                                               \
    do {                                                                       \
        if (!(is)) {                                                           \
            fprintf(stderr, "%s:%d: not so: %s\n", __FILE__, __LINE__, #is);   \
            abort();                                                           \
        }                                                                      \
    } while (0)

#define UNUSED __attribute__((unused)) static

/* SplitMix64: a number below n. */
UNUSED uint64_t below(uint64_t *state, uint64_t n) {
    uint64_t z = (*state += 0x9e3779b97f4a7c15);
    z = (z ^ (z >> 30)) * 0xbf58476d1ce4e5b9;
    z = (z ^ (z >> 27)) * 0x94d049bb133111eb;
    return (z ^ (z >> 31)) % n;
}

/* A test that hangs ends here. */
UNUSED void ends_within(unsigned seconds) { alarm(seconds); }

UNUSED double seconds_now(void) {
    struct timespec t;
    timespec_get(&t, TIME_UTC);
    return (double)t.tv_sec + (double)t.tv_nsec * 1e-9;
}

UNUSED void *shadow_memory(size_t bytes) {
    void *at = mmap(NULL, bytes, PROT_READ | PROT_WRITE, MAP_SHARED | MAP_ANONYMOUS | MAP_NORESERVE, -1, 0);
    MUST(at != MAP_FAILED);
    return at;
}

/* For a test of so many seconds, or of less than one's events. */
UNUSED void shadow_make(uint64_t last, double seconds) {
    uint64_t room = SHADOW_A_SECOND * (1 + (uint64_t)seconds);
    MUST(last < SHADOW_FRAMES);
    shadow = shadow_memory(sizeof *shadow);
    for (int log = 0; log < SHADOW_LOGS; log++) {
        shadow->logs[log].events = shadow_memory(room * sizeof(struct shadow_event));
        shadow->logs[log].room = room;
    }
    shadow->last = last;
    atomic_store(&shadow->stamp, 1);
    atomic_store(&shadow->fails_in, 4);
}

/* A line of a user's log, stamped now: whoever reads it up to its count sees whole lines. */
UNUSED uint64_t shadow_note(int log, enum shadow_kind kind, uint64_t lo, uint64_t len) {
    struct shadow_log *of = &shadow->logs[log];
    uint64_t count = atomic_load_explicit(&of->count, memory_order_relaxed);
    uint64_t stamp = atomic_fetch_add(&shadow->stamp, 1);
    MUST(count < of->room);
    of->events[count].stamp = stamp;
    of->events[count].what = (uint64_t)kind << 61 | len << 40 | lo;
    atomic_store_explicit(&of->count, count + 1, memory_order_release);
    return stamp;
}

/* Before a range is given up: the device's mapping is cleared. */
UNUSED void shadow_unmap(int log, uint64_t lo, uint64_t len, uint32_t me) {
    for (uint64_t f = lo; f < lo + len; f++) {
        atomic_store_explicit(&shadow->entry[f], 0, memory_order_relaxed);
        MUST(atomic_exchange(&shadow->owner[f], 0) == me);
    }
    uint64_t stamp = shadow_note(log, SHADOW_UNMAP, lo, len);
    for (uint64_t f = lo; f < lo + len; f++)
        atomic_store(&shadow->given_up[f], stamp);
}

/* Behind a request that gave a range. */
UNUSED void shadow_map(int log, uint64_t lo, uint64_t len, uint32_t me) {
    MUST(lo >= 1 && len >= 1 && lo + len - 1 <= shadow->last);
    for (uint64_t f = lo; f < lo + len; f++) {
        MUST(atomic_exchange(&shadow->owner[f], me) == 0);
        MUST(atomic_load_explicit(&shadow->tlb[f], memory_order_relaxed) == 0);
        uint64_t since = atomic_load(&shadow->given_up[f]);
        MUST(!since || atomic_load(&shadow->best_begun) > since);
    }
    shadow_note(log, SHADOW_MAP, lo, len);
    for (uint64_t f = lo; f < lo + len; f++)
        atomic_store_explicit(&shadow->entry[f], me, memory_order_relaxed);
}

/* A flush that ended well leaves nothing in the IOTLB. Answers whether it did. Its number is the shadow's own. */
UNUSED int shadow_invalidate(int log, uint64_t *state, int may_fail) {
    uint64_t number = atomic_fetch_add(&shadow->flushes, 1) + 1, began = shadow_note(log, SHADOW_BEGIN, number, 0);
    uint64_t in = (uint64_t)atomic_load(&shadow->fails_in);
    int ok = !may_fail || !in || below(state, in) != 0;
    if (below(state, 8) == 0)
        for (int k = 0; k < 5; k++)
            sched_yield(); /* so that flushes overlap */
    pthread_mutex_lock(&shadow_device_lock);
    for (uint64_t f = 0; f <= shadow->last; f++)
        if (ok || f % 2)
            atomic_store_explicit(&shadow->tlb[f], 0, memory_order_relaxed);
    pthread_mutex_unlock(&shadow_device_lock);
    atomic_fetch_add(ok ? &shadow->good : &shadow->bad, 1);
    uint64_t was = atomic_load(&shadow->best_begun);
    while (ok && was < began && !atomic_compare_exchange_weak(&shadow->best_begun, &was, began))
        ;
    shadow_note(log, ok ? SHADOW_OK : SHADOW_FAIL, number, 0);
    return ok;
}

/* The device: its page walks are under its lock, as an invalidation waits for walks that are under way. */
UNUSED void *shadow_device(void *none) {
    uint64_t state = 99;
    while (!atomic_load_explicit(&shadow->stops, memory_order_relaxed)) {
        pthread_mutex_lock(&shadow_device_lock);
        for (int k = 0; k < 64; k++) {
            uint64_t f = below(&state, shadow->last + 1);
            uint32_t is = atomic_load_explicit(&shadow->entry[f], memory_order_relaxed);
            if (is)
                atomic_store_explicit(&shadow->tlb[f], is, memory_order_relaxed);
        }
        pthread_mutex_unlock(&shadow_device_lock);
        sched_yield();
    }
    return none;
}

UNUSED void shadow_line(FILE *file, uint64_t what) {
    static const char *const words[] = {"map", "unmap", "begin", "end", "end"};
    uint64_t kind = what >> 61, len = what << 3 >> 43, lo = what & ((UINT64_C(1) << 40) - 1);
    fprintf(file, "%s %" PRIu64, words[kind], lo);
    if (kind < SHADOW_BEGIN)
        fprintf(file, " %" PRIu64 "\n", len);
    else
        fputs(kind == SHADOW_BEGIN ? "\n" : kind == SHADOW_OK ? " ok\n" : " fail\n", file);
}

/* All logs as one, by their stamps, as `iovad check` reads it. Nothing where no path is named. */
UNUSED void shadow_write(const char *path) {
    uint64_t at[SHADOW_LOGS] = {0};
    FILE *file = path ? fopen(path, "w") : NULL;
    MUST(!path || file);
    if (!path)
        return;
    fprintf(file, "iovalog 1 1 %" PRIu64 "\n", shadow->last);
    for (;;) {
        const struct shadow_event *least = NULL;
        int whose = 0;
        for (int log = 0; log < SHADOW_LOGS; log++) {
            const struct shadow_log *of = &shadow->logs[log];
            if (at[log] < of->count && (!least || of->events[at[log]].stamp < least->stamp))
                least = &of->events[at[whose = log]];
        }
        if (!least)
            break;
        shadow_line(file, least->what);
        at[whose]++;
    }
    MUST(!fclose(file));
}

#endif

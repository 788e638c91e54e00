/* Threads that end in `invalidate`, an `invalidate` that flushes, one that fails while much is to be given up, and a
 * process that forks, each with caches before one domain (iova_shared.h). */
#define _GNU_SOURCE
#include "iova_shared.h"
#include "shadow.h"

#include <signal.h>
#include <sys/wait.h>

enum { THREADS = 70, LEFT = 200, LAST = 100000 };
enum what { GOES_WELL, FAILS, WAITS, MAY_BE_CANCELLED, EXITS, FLUSHES };

static iova_domain *domain;
static iova_shared shared;
static iova_shared_cache cache, other;
static _Atomic int what, entered, goes_on;
static _Atomic uint64_t invalidations, nested, full;

static int invalidate(void *none) {
    int was;
    (void)none;
    atomic_fetch_add(&invalidations, 1);
    switch (atomic_load(&what)) {
    case MAY_BE_CANCELLED:
        pthread_setcancelstate(PTHREAD_CANCEL_ENABLE, &was);
        /* fall through */
    case WAITS:
        atomic_store(&entered, 1);
        while (!atomic_load(&goes_on))
            usleep(100); /* a cancellation point */
        return 1;
    case EXITS:
        pthread_exit(NULL);
    case FLUSHES:
        atomic_store(&nested, iova_shared_flush(&shared));
        atomic_store(&full, iova_shared_unmap(&other, atomic_load(&full)).refused);
        return 1;
    default:
        return atomic_load(&what) == GOES_WELL;
    }
}

static void begin(void) {
    domain = iova_domain_new();
    MUST(domain && !iova_domain_make(domain, 1, LAST, 1) && !iova_shared_init(&shared, domain, invalidate, NULL));
    MUST(!iova_shared_open(&cache, &shared, 0, 0) && !iova_shared_open(&other, &shared, 0, 0));
    atomic_store(&what, GOES_WELL);
    atomic_store(&invalidations, 0);
}

static void end(void) {
    MUST(!iova_shared_close(&cache) && !iova_shared_close(&other));
    iova_shared_clear(&shared);
    iova_domain_free(domain);
}

/* 255 ranges of the cache wait, and no flush has covered them. */
static void fill_ring(iova_shared_cache *of) {
    uint64_t lo[255];
    for (int k = 0; k < 255; k++)
        MUST((lo[k] = iova_shared_alloc(of, 1, LAST).lo) != 0);
    for (int k = 0; k < 255; k++)
        MUST(!iova_shared_unmap(of, lo[k]).refused);
}

static void *flush(void *none) {
    iova_shared_flush(&shared);
    return none;
}

/* Each thread is cancelled in `invalidate`, or ends itself there. No flush stays in flight. */
static void threads_end(enum what how) {
    begin();
    for (int k = 0; k < THREADS; k++) {
        pthread_t thread;
        void *ended;
        atomic_store(&what, how);
        atomic_store(&entered, 0);
        atomic_store(&goes_on, 0);
        MUST(!pthread_create(&thread, NULL, flush, NULL));
        while (how != EXITS && !atomic_load(&entered))
            usleep(100);
        if (how != EXITS)
            MUST(!pthread_cancel(thread));
        usleep(200);
        atomic_store(&goes_on, how == WAITS);
        MUST(!pthread_join(thread, &ended));
        MUST((ended == PTHREAD_CANCELED) == (how == MAY_BE_CANCELLED));
        atomic_store(&what, GOES_WELL);
        MUST(iova_flushes_of(domain).in_flight == 0);
        MUST(how == WAITS || iova_flushes_of(domain).newest < iova_flushes_of(domain).start);
        MUST(!iova_shared_flush(&shared));
    }
    end();
}

static void invalidate_flushes(void) {
    uint64_t last;
    begin();
    MUST((last = iova_shared_alloc(&other, 1, LAST).lo) != 0);
    fill_ring(&other);
    atomic_store(&full, last);
    atomic_store(&what, FLUSHES);
    MUST(!iova_shared_flush(&shared));
    MUST(nested == IOVA_FLIGHTS_FULL && full == IOVA_RING_FULL && invalidations == 1);
    MUST(iova_flushes_of(domain).in_flight == 0);
    atomic_store(&what, GOES_WELL);
    MUST(!iova_shared_unmap(&other, last).refused);
    end();
}

/* Behind a flush that failed no other is made for what other threads have left. */
static void much_is_left(void) {
    uint64_t lo[LEFT], before;
    begin();
    for (int k = 0; k < LEFT; k++)
        MUST((lo[k] = iova_shared_alloc(&cache, 1, LAST).lo) != 0);
    fill_ring(&cache);
    for (int k = 0; k < LEFT; k++)
        MUST(!iova_shared_unmap_by_other(&cache, lo[k]));
    atomic_store(&what, FAILS);
    before = invalidations;
    MUST(!iova_shared_alloc(&cache, 1, LAST).refused);
    MUST(invalidations - before <= 1);
    MUST(iova_shared_counts_of(&cache).left == LEFT);
    atomic_store(&what, GOES_WELL);
    MUST(!iova_shared_alloc(&cache, 1, LAST).refused);
    iova_shared_counts counts = iova_shared_counts_of(&cache);
    MUST(counts.left == 0 && counts.wrong == 0 && counts.held == 2);
    end();
}

static void want_refused(void) {
    for (int k = 0; k < 3; k++) {
        MUST(iova_shared_alloc(&cache, 1, LAST).refused == IOVA_NO_CACHE);
        MUST(iova_shared_unmap(&cache, 1).refused == IOVA_NO_CACHE);
        MUST(iova_shared_map(&cache, 1, UINT64_MAX).refused == IOVA_NO_CACHE);
        MUST(iova_shared_unmap_bytes(&cache, 4096).refused == IOVA_NO_CACHE);
        MUST(iova_shared_unmap_by_other(&cache, 1) == IOVA_NO_CACHE);
        MUST(iova_shared_give_back(&cache) == IOVA_NO_CACHE);
        MUST(iova_shared_counts_of(&cache).refused == IOVA_NO_CACHE);
        MUST(iova_shared_flush(&shared) == IOVA_NO_DOMAIN);
        MUST(iova_shared_close(&cache) == IOVA_NO_CACHE);
    }
    MUST(iova_shared_open(&other, &shared, 0, 0) == IOVA_NO_DOMAIN);
    iova_shared_clear(&shared);
}

static void *map_on(void *none) {
    while (!atomic_load(&goes_on)) {
        uint64_t lo = iova_shared_alloc(&other, 40, LAST).lo;
        MUST(lo && !iova_shared_unmap(&other, lo).refused);
    }
    return none;
}

/* A child and its own child, while another thread holds locks. */
static void process_forks(void) {
    pthread_t thread;
    uint64_t lo;
    begin();
    MUST((lo = iova_shared_alloc(&cache, 1, LAST).lo) != 0);
    atomic_store(&goes_on, 0);
    MUST(!pthread_create(&thread, NULL, map_on, NULL));
    for (int k = 0; k < 50; k++) {
        int status;
        pid_t child = fork();
        MUST(child >= 0);
        if (child == 0) {
            ends_within(60);
            want_refused();
            begin(); /* its own */
            MUST(!iova_shared_alloc(&cache, 1, LAST).refused);
            child = fork();
            MUST(child >= 0);
            if (child == 0) {
                ends_within(60);
                want_refused();
                _exit(0);
            }
            MUST(waitpid(child, &status, 0) == child && status == 0);
            end();
            _exit(0);
        }
        MUST(waitpid(child, &status, 0) == child && status == 0);
    }
    atomic_store(&goes_on, 1);
    pthread_join(thread, NULL);
    MUST(!iova_shared_unmap(&cache, lo).refused);
    end();
}

int main(void) {
    ends_within(600);
    threads_end(WAITS);
#ifndef __SANITIZE_ADDRESS__ /* which takes the frames that such an end leaves for frames in use */
    threads_end(MAY_BE_CANCELLED);
    threads_end(EXITS);
#endif
    invalidate_flushes();
    much_is_left();
    process_forks();
    return 0;
}

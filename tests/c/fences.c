/* Why a range is given up behind a full fence: store buffering, counted.
 *
 *     fences [ROUNDS]
 *
 * One thread clears a page table entry and reads `begun`, as iova_shared_unmap does; another writes `begun` and then,
 * behind its own fence, looks at the entry, as a device does that walks the page table after an invalidation. What
 * must not be is that the first has read the old number, so that this flush would cover its range, and the second has
 * found the entry. With both fences there is no such round. How many there are without the first is printed, and may
 * be none: that is the processor's affair. */
#define _GNU_SOURCE
#include "iova_shared.h"
#include "shadow.h"

/* each in a line of the processor's cache of its own */
static struct {
    uint64_t apart[16], entry, between[16], ready, behind[16];
} words;
static iova_shared shared;
static long rounds;
static int has_fence;
static unsigned char *read_old, *found;

static void meet(uint64_t count) {
    __atomic_fetch_add(&words.ready, 1, __ATOMIC_SEQ_CST);
    for (long looks = 1; __atomic_load_n(&words.ready, __ATOMIC_ACQUIRE) < 2 * count; looks++)
        if (looks % 10000 == 0)
            sched_yield(); /* the other one may have no processor */
}

static void *gives_up(void *none) {
    for (uint64_t k = 0; k < (uint64_t)rounds; k++) {
        __atomic_store_n(&words.entry, 1, __ATOMIC_RELAXED);
        meet(2 * k + 1);
        __atomic_store_n(&words.entry, 0, __ATOMIC_RELAXED);
        uint64_t begun = has_fence ? iova_own_begun(&shared) : __atomic_load_n(&shared.begun, __ATOMIC_SEQ_CST);
        read_old[k] = begun == k;
        meet(2 * k + 2);
    }
    return none;
}

static void *flushes(void *none) {
    for (uint64_t k = 0; k < (uint64_t)rounds; k++) {
        meet(2 * k + 1);
        __atomic_store_n(&shared.begun, k + 1, __ATOMIC_SEQ_CST);
        iova_own_fence();
        found[k] = (unsigned char)__atomic_load_n(&words.entry, __ATOMIC_RELAXED);
        meet(2 * k + 2);
    }
    return none;
}

static long run(int fence) {
    pthread_t one, two;
    long bad = 0;
    words.ready = shared.begun = 0;
    has_fence = fence;
    MUST(!pthread_create(&one, NULL, gives_up, NULL) && !pthread_create(&two, NULL, flushes, NULL));
    pthread_join(one, NULL);
    pthread_join(two, NULL);
    for (long k = 0; k < rounds; k++)
        bad += read_old[k] && found[k];
    return bad;
}

int main(int count, char **arguments) {
    ends_within(600);
    rounds = count > 1 ? strtol(arguments[1], NULL, 10) : 20000;
    MUST(rounds > 0 && (read_old = calloc(1, (size_t)rounds)) && (found = calloc(1, (size_t)rounds)));
    long without = run(0);
    MUST(run(1) == 0);
    if (count > 1)
        printf("fences: without the fence %ld of %ld rounds break the rule, with it none\n", without, rounds);
    free(read_old);
    free(found);
    return 0;
}

/* Caches of four threads before one domain, with nothing of the test's own that orders the threads, for
 * ThreadSanitizer. Each thread writes into the memory of its frames, as into a driver's buffers: a frame with two
 * owners would be a race, and so would be one that comes to another thread through the domain without an order. Some
 * ranges are given up by the next thread, which gets them through a box that orders nothing else. */
#define _GNU_SOURCE
#include "iova_shared.h"
#include "shadow.h"

enum { LAST = 2500, ROUNDS = 30000, THREADS = 4, HELD = 64 };

static uint64_t memory[LAST + 1]; /* whose a frame is, not atomic */
static iova_shared shared;

struct user {
    iova_shared_cache cache;
    uint64_t me, state, held;
    iova_range have[HELD];
    pthread_mutex_t lock; /* of the box: a range of this user's that the next one is to give up */
    iova_range box;
    int is_giving;
};

static struct user users[THREADS];

static int invalidate(void *none) { return none == NULL; }

static void write_frames(const iova_range *range, uint64_t is, uint64_t becomes) {
    for (uint64_t f = range->lo; f < range->lo + range->len; f++) {
        MUST(is == 0 || memory[f] == is);
        memory[f] = becomes;
    }
}

static void give_up(struct user *user) {
    iova_range *range = &user->have[--user->held];
    write_frames(range, user->me, 0);
    MUST(!iova_shared_unmap(&user->cache, range->lo).refused);
}

/* Puts a range of one's own into one's box, and gives up what is in the other's. */
static void pass_on(struct user *user, struct user *other) {
    iova_range range = {0, 0, 0};
    pthread_mutex_lock(&user->lock);
    if (!user->box.len && !user->is_giving && user->held)
        user->box = user->have[--user->held];
    pthread_mutex_unlock(&user->lock);
    pthread_mutex_lock(&other->lock);
    if (other->box.len && !other->is_giving) {
        range = other->box;
        other->box.len = 0;
        other->is_giving = 1;
    }
    pthread_mutex_unlock(&other->lock);
    if (!range.len)
        return;
    write_frames(&range, other->me, 0);
    while (iova_shared_unmap_by_other(&other->cache, range.lo))
        sched_yield();
    pthread_mutex_lock(&other->lock);
    other->is_giving = 0;
    pthread_mutex_unlock(&other->lock);
}

static void *run(void *argument) {
    struct user *user = argument;
    struct user *other = &users[user->me % THREADS];
    for (int k = 0; k < ROUNDS; k++) {
        if (user->held < HELD && (user->held == 0 || below(&user->state, 2))) {
            iova_range range = iova_shared_alloc(&user->cache, 1 + below(&user->state, 34), IOVA_NO_LIMIT);
            if (range.refused) {
                MUST(range.refused == IOVA_NO_SPACE);
                if (user->held)
                    give_up(user);
                continue;
            }
            write_frames(&range, 0, user->me);
            user->have[user->held++] = range;
        } else if (below(&user->state, 100) == 0) {
            pass_on(user, other);
        } else {
            give_up(user);
        }
    }
    while (user->held)
        give_up(user);
    return NULL;
}

int main(void) {
    pthread_t threads[THREADS];
    ends_within(600);
    iova_domain *domain = iova_domain_new();
    MUST(domain && !iova_domain_make(domain, 1, LAST, 2) && !iova_shared_init(&shared, domain, invalidate, NULL));
    for (uint64_t k = 0; k < THREADS; k++) {
        users[k].me = k + 1;
        users[k].state = k + 5;
        MUST(!pthread_mutex_init(&users[k].lock, NULL) && !iova_shared_open(&users[k].cache, &shared, k % 2, 0));
    }
    for (int k = 0; k < THREADS; k++)
        MUST(!pthread_create(&threads[k], NULL, run, &users[k]));
    for (int k = 0; k < THREADS; k++)
        pthread_join(threads[k], NULL);
    for (int k = 0; k < THREADS; k++) {
        MUST(iova_shared_counts_of(&users[k].cache).wrong == 0 && !iova_shared_close(&users[k].cache));
        pthread_mutex_destroy(&users[k].lock);
    }
    MUST(iova_totals_of(domain).count == 0);
    iova_shared_clear(&shared);
    iova_domain_free(domain);
    return 0;
}

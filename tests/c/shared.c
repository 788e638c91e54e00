/* Caches of several threads before one domain, against a shadow of what a device may reach (shadow.h).
 *
 *     shared [SEED [SECONDS [THREADS [FRAMES [LOG [ENDS]]]]]]
 *
 * The threads run for so many seconds, or without them for 20,000 operations each. One invalidation in four fails. Now
 * and then a thread gives up a range of another one's, flushes, gives all back, ends its cache and opens another one.
 * With ENDS other threads flush that are cancelled in `invalidate`, before it or behind it, or that end themselves
 * there, `invalidate` flushes now and then, and the process forks children, to which each call is refused.
 * At random what the domain's ledger has of a client is what its cache has at its places, and at the end all caches
 * are closed, and the domain has lost nothing. What was done goes to LOG, as `iovad check` reads it. */
#define _GNU_SOURCE
#include "iova_shared.h"
#include "shadow.h"

#include <sys/wait.h>

enum { HELD = 3000, THREADS = 16, WORKERS = 4, OPERATIONS = 20000, ENDING_LOG = THREADS + 1 };
enum end { FLUSHES, MAY_BE_CANCELLED, EXITS, ENDS };

struct user {
    pthread_t thread;
    uint64_t number, state, held, target;
    struct {
        uint64_t lo, len;
    } have[HELD];
    iova_shared_cache cache;
    /* what the next thread is given to give up, one at a time: 0, or its first frame and above 40 bits its length */
    _Atomic uint64_t handed;
    _Atomic int is_pending; /* until that is done */
    _Atomic int is_over;
};

static iova_shared shared;
static struct user users[THREADS];
static uint64_t threads;
static double until; /* 0: by OPERATIONS */
static _Atomic uint64_t holdings_full, closed, handed_over;
static _Thread_local int my_log;
static _Thread_local uint64_t my_state;
static _Thread_local enum end my_end;
static int has_ends;
static _Atomic uint64_t ended, forked, nested;
static _Atomic int is_over;

static int invalidate(void *none) {
    int was, went_well;
    (void)none;
    if (has_ends && below(&my_state, 50) == 0) {
        MUST(iova_shared_flush(&shared) == IOVA_FLIGHTS_FULL);
        atomic_fetch_add(&nested, 1);
    }
    if (my_end == MAY_BE_CANCELLED) {
        pthread_setcancelstate(PTHREAD_CANCEL_ENABLE, &was);
        usleep((useconds_t)below(&my_state, 300));
        pthread_setcancelstate(PTHREAD_CANCEL_DISABLE, &was);
    }
    went_well = shadow_invalidate(my_log, &my_state, 1);
    if (my_end == MAY_BE_CANCELLED) {
        pthread_setcancelstate(PTHREAD_CANCEL_ENABLE, &was);
        usleep((useconds_t)below(&my_state, 300));
        pthread_setcancelstate(PTHREAD_CANCEL_DISABLE, &was);
    }
    if (my_end == EXITS)
        pthread_exit(NULL);
    return went_well;
}

static uint32_t id_of(const struct user *user) { return (uint32_t)user->number + 1; }

static void check_ledger(struct user *user) {
    iova_shared_counts counts = iova_shared_counts_of(&user->cache);
    pthread_mutex_lock(&shared.lock);
    iova_client client = iova_client_of(shared.domain, user->cache.client);
    pthread_mutex_unlock(&shared.lock);
    /* what another thread gives up counts as held until it is taken */
    MUST(counts.held >= user->held && counts.held <= user->held + counts.left + 1 && counts.wrong == 0);
    MUST(!client.refused && client.holdings == counts.held + counts.cached + counts.waiting);
}

static void give_up(struct user *user, uint64_t at) {
    uint64_t lo = user->have[at].lo, len = user->have[at].len;
    user->have[at] = user->have[--user->held];
    shadow_unmap(my_log, lo, len, id_of(user));
    for (;;) {
        iova_range range = iova_shared_unmap(&user->cache, lo);
        if (range.refused != IOVA_RING_FULL) {
            MUST(!range.refused && range.lo == lo && range.len == len);
            break;
        }
        atomic_fetch_add(&shadow->ring_full, 1);
    }
    atomic_fetch_add_explicit(&shadow->frees, 1, memory_order_relaxed);
}

/* The user before this one has handed a range over: its mapping is cleared here, and it is given up here. */
static void give_up_for_another(struct user *user) {
    struct user *other = &users[(user->number + threads - 1) % threads];
    uint64_t word = atomic_exchange(&other->handed, 0), lo = word & ((UINT64_C(1) << 40) - 1);
    if (!word)
        return;
    shadow_unmap(my_log, lo, word >> 40, id_of(other));
    /* its thread may need a flush that goes well to make room */
    while (iova_shared_unmap_by_other(&other->cache, lo) == IOVA_RING_FULL)
        sched_yield();
    atomic_store(&other->is_pending, 0);
    atomic_fetch_add(&handed_over, 1);
    atomic_fetch_add_explicit(&shadow->frees, 1, memory_order_relaxed);
}

static void hand_over(struct user *user) {
    if (threads > 1 && user->held && !atomic_load(&user->is_pending)) {
        uint64_t at = below(&user->state, user->held);
        uint64_t word = user->have[at].len << 40 | user->have[at].lo;
        user->have[at] = user->have[--user->held];
        atomic_store(&user->is_pending, 1);
        atomic_store(&user->handed, word);
    }
}

/* What was handed over is taken back, if nobody has it, or waited for until it is given up. */
static void settle_handed(struct user *user) {
    uint64_t word = atomic_exchange(&user->handed, 0);
    if (word) {
        user->have[user->held].lo = word & ((UINT64_C(1) << 40) - 1);
        user->have[user->held++].len = word >> 40;
        atomic_store(&user->is_pending, 0);
    }
    while (atomic_load(&user->is_pending))
        sched_yield();
    while (iova_shared_counts_of(&user->cache).held > user->held)
        MUST(!iova_shared_give_back(&user->cache));
}

static void ask(struct user *user) {
    uint64_t *state = &user->state;
    uint64_t frames = below(state, 20) ? 1 + below(state, 32) : 33 + below(state, 64);
    uint64_t limit = below(state, 20) ? IOVA_NO_LIMIT : below(state, shadow->last);
    iova_range range = iova_shared_alloc(&user->cache, frames, limit);
    if (range.refused) {
        MUST(range.refused == IOVA_NO_SPACE || range.refused == IOVA_HOLDINGS_FULL);
        atomic_fetch_add(range.refused == IOVA_NO_SPACE ? &shadow->no_space : &holdings_full, 1);
        user->target = user->held / 2;
        return;
    }
    MUST(range.len >= frames && range.lo + range.len - 1 <= limit);
    shadow_map(my_log, range.lo, range.len, id_of(user));
    atomic_fetch_add_explicit(&shadow->allocs, 1, memory_order_relaxed);
    user->have[user->held].lo = range.lo;
    user->have[user->held++].len = range.len;
}

static void close_cache(struct user *user) {
    settle_handed(user);
    while (user->held) {
        user->held--;
        shadow_unmap(my_log, user->have[user->held].lo, user->have[user->held].len, id_of(user));
    }
    while (iova_shared_close(&user->cache))
        MUST(iova_shared_alloc(&user->cache, 1, IOVA_NO_LIMIT).refused == IOVA_CLOSING &&
             iova_shared_unmap(&user->cache, 5).refused == IOVA_CLOSING);
    atomic_fetch_add(&closed, 1);
}

static void open_cache(struct user *user) {
    MUST(!iova_shared_open(&user->cache, &shared, user->number % WORKERS, 0));
}

static void operate(struct user *user) {
    uint64_t *state = &user->state, what = below(state, 1000);
    if (below(state, 2000) == 0)
        user->target = below(state, 3) ? 1 + below(state, 200) : below(state, HELD);
    uint64_t asks = user->held == 0 ? 100 : user->held < user->target ? 60 : 45;
    if (what < 960) {
        if (below(state, 100) < asks && user->held < HELD - 2)
            ask(user);
        else
            give_up(user, below(state, user->held));
    } else if (what < 970) {
        hand_over(user);
    } else if (what < 985) {
        uint64_t lo = below(state, shadow->last + 2);
        int mine = atomic_load(&user->is_pending) || iova_shared_counts_of(&user->cache).left;
        for (uint64_t at = 0; at < user->held; at++)
            mine |= user->have[at].lo == lo;
        MUST(mine || iova_shared_unmap(&user->cache, lo).refused == IOVA_NOT_HELD);
    } else if (what < 990) {
        iova_shared_flush(&shared);
    } else if (what < 994) {
        MUST(!iova_shared_give_back(&user->cache));
    } else if (what < 999) {
        check_ledger(user);
    } else if (below(state, 20) == 0) {
        close_cache(user);
        open_cache(user);
    }
    if (what % 50 == 0)
        give_up_for_another(user);
}

static void *run(void *argument) {
    struct user *user = argument;
    my_log = (int)user->number + 1;
    my_state = user->state + 7;
    for (uint64_t k = 0; until > 0 ? k % 64 || seconds_now() < until : k < OPERATIONS; k++)
        operate(user);
    atomic_store(&user->is_over, 1);
    /* another thread may still give up what this one has handed over, or wait for this one */
    for (uint64_t at = 0; at < threads; at++)
        while (!atomic_load(&users[at].is_over)) {
            give_up_for_another(user);
            iova_shared_give_back(&user->cache);
            sched_yield();
        }
    close_cache(user);
    return NULL;
}

/* A thread that flushes, and may end in that. */
static void *flush_and_end(void *argument) {
    uint64_t word = *(uint64_t *)argument;
    my_log = ENDING_LOG;
    my_state = word;
    my_end = (enum end)(word % ENDS);
    iova_shared_flush(&shared);
    usleep(100);
    return NULL;
}

static void fork_child(void) {
    int status;
    pid_t child = fork();
    MUST(child >= 0);
    if (child == 0) {
        alarm(60);
        for (iova_shared_cache *cache = shared.caches; cache; cache = cache->next)
            MUST(iova_shared_alloc(cache, 1, IOVA_NO_LIMIT).refused == IOVA_NO_CACHE &&
                 iova_shared_unmap(cache, 1).refused == IOVA_NO_CACHE);
        for (uint64_t k = 0; k < threads; k++)
            MUST(iova_shared_give_back(&users[k].cache) == IOVA_NO_CACHE);
        MUST(iova_shared_flush(&shared) == IOVA_NO_DOMAIN);
        _exit(0);
    }
    MUST(waitpid(child, &status, 0) == child && status == 0);
    atomic_fetch_add(&forked, 1);
}

/* Threads end and children are forked, until the users are done. */
static void *make_ends(void *argument) {
    uint64_t state = *(uint64_t *)argument;
    while (!atomic_load(&is_over)) {
        pthread_t thread;
        uint64_t word = below(&state, UINT32_MAX);
        MUST(!pthread_create(&thread, NULL, flush_and_end, &word));
        usleep((useconds_t)below(&state, 800));
        if (below(&state, 2))
            pthread_cancel(thread);
        MUST(!pthread_join(thread, NULL));
        atomic_fetch_add(&ended, 1);
        if (below(&state, 100) == 0)
            fork_child();
    }
    return NULL;
}

int main(int count, char **words) {
    uint64_t seed = count > 1 ? strtoull(words[1], NULL, 10) : 1;
    double seconds = count > 2 ? strtod(words[2], NULL) : 0;
    threads = count > 3 ? strtoull(words[3], NULL, 10) : 4;
    MUST(threads >= 1 && threads <= THREADS);
    ends_within(600 + 2 * (unsigned)seconds);
    shadow_make(count > 4 ? strtoull(words[4], NULL, 10) : 20000, seconds);
    until = seconds > 0 ? seconds_now() + seconds : 0;
    iova_domain *domain = iova_domain_new();
    MUST(domain && !iova_domain_make(domain, 1, shadow->last, WORKERS));
    MUST(!iova_shared_init(&shared, domain, invalidate, NULL));
    pthread_t device;
    MUST(!pthread_create(&device, NULL, shadow_device, NULL));
    for (uint64_t k = 0; k < threads; k++) {
        users[k].number = k;
        users[k].state = seed << 8 | k;
        users[k].target = 100;
        open_cache(&users[k]);
    }
    pthread_t ends;
    has_ends = count > 6 && strcmp(words[6], "0");
    if (has_ends)
        MUST(!pthread_create(&ends, NULL, make_ends, &seed));
    for (uint64_t k = 0; k < threads; k++)
        MUST(!pthread_create(&users[k].thread, NULL, run, &users[k]));
    for (uint64_t k = 0; k < threads; k++)
        pthread_join(users[k].thread, NULL);
    atomic_store(&is_over, 1);
    if (has_ends)
        pthread_join(ends, NULL);
    MUST(iova_flushes_of(domain).in_flight == 0);
    atomic_store(&shadow->stops, 1);
    pthread_join(device, NULL);
    atomic_store(&shadow->fails_in, 0);
    MUST(!iova_shared_flush(&shared));
    for (uint64_t k = 0; k < WORKERS; k++)
        iova_drain(domain, k, k);
    iova_counts counts = iova_counts_of(domain);
    MUST(counts.client == 0 && counts.ring == 0 && counts.clients == 0);
    MUST(counts.free + counts.magazine + counts.depot == shadow->last);
    for (uint64_t f = 0; f <= shadow->last; f++)
        MUST(shadow->owner[f] == 0);
    if (count > 2)
        printf("shared: %" PRIu64 " given, %" PRIu64 " given up, %" PRIu64 " of them by another thread"
               ", NoSpace %" PRIu64 ", HoldingsFull %" PRIu64 ", RingFull %" PRIu64 ", flushes %" PRIu64 " good %" PRIu64
               " failed, %" PRIu64 " caches closed, %" PRIu64 " threads ended, %" PRIu64 " children, %" PRIu64
               " flushes in invalidate\n",
               shadow->allocs, shadow->frees, handed_over, shadow->no_space, holdings_full, shadow->ring_full,
               shadow->good, shadow->bad, closed, ended, forked, nested);
    shadow_write(count > 5 ? words[5] : NULL);
    iova_shared_clear(&shared);
    iova_domain_free(domain);
    return 0;
}

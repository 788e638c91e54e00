/* A domain with caches does what its steps do, byte for byte.
 *
 *     traced SEED OPERATIONS TRACE REPLIES
 *
 * Random operations on four caches over a domain, each of which asks the domain for some steps. Another domain is
 * asked for these steps one by one, and caches apart (iova_cache_apart) stand for those over the first one: what they
 * answer and have is the same. TRACE is the trace of the steps, and REPLIES what `iovad replay --report` has to print
 * of it: the replies, and the report of the domain that had the caches. */
#define _GNU_SOURCE
#include "replies.h"
#include "shadow.h"

enum { CACHES = 4, WORKERS = 2, LAST = 16000, HELD = 700, ORDERS = 6, MAGAZINE = 256, EXCHANGED = 64 };

struct user {
    iova_cache cache, apart;
    uint64_t worker, client, held;
    uint64_t have[HELD];
};

static iova_domain *domain, *stepped;
static struct user users[CACHES];
static FILE *trace, *replies;
static uint64_t state, in_flight[4], flights;

static int same(iova_range one, iova_range other) {
    return one.refused == other.refused && one.lo == other.lo && one.len == other.len;
}

/* The steps. */

static iova_range step_alloc(const struct user *user, uint64_t frames, uint64_t limit) {
    iova_range range = iova_alloc(stepped, user->worker, user->client, frames, limit);
    fprintf(trace, "alloc %" PRIu64 " %" PRIu64 " %" PRIu64 " %" PRIu64 "\n", user->worker, user->client, frames, limit);
    told_range(replies, "given", range);
    return range;
}

static iova_range step_unmap(const struct user *user, uint64_t lo) {
    iova_range range = iova_unmap(stepped, user->worker, user->client, lo);
    fprintf(trace, "unmap %" PRIu64 " %" PRIu64 " %" PRIu64 "\n", user->worker, user->client, lo);
    told_range(replies, "queued", range);
    return range;
}

/* What both domains are asked alike. */

static void open_cache(struct user *user, uint64_t worker, uint64_t sac) {
    iova_number client = iova_cache_make(domain, &user->cache, worker, sac);
    fprintf(trace, "open %" PRIu64 " %s\n", worker, sac ? "sac" : "dac");
    told_number(replies, "opened", client);
    MUST(!client.refused && iova_open(stepped, worker, sac).number == client.number);
    MUST(!iova_cache_apart(&user->apart, sac));
    user->worker = worker;
    user->client = client.number;
    user->held = 0;
}

static void close_cache(struct user *user) {
    iova_number marked = iova_cache_end(domain, &user->cache);
    iova_range range;
    fprintf(trace, "close %" PRIu64 " %" PRIu64 "\n", user->worker, user->client);
    told_number(replies, "marked", marked);
    MUST(!marked.refused && iova_close(stepped, user->worker, user->client).number == marked.number);
    iova_cache_clear(&user->apart);
    do {
        range = iova_close_one(domain, user->worker, user->client);
        fprintf(trace, "closeone %" PRIu64 " %" PRIu64 "\n", user->worker, user->client);
        told_range(replies, "queued", range);
        MUST(same(range, iova_close_one(stepped, user->worker, user->client)));
        if (range.refused == IOVA_RING_FULL) {
            iova_number begun = iova_begin(domain);
            fprintf(trace, "begin\nend %" PRIu64 " ok\n", begun.number);
            told_number(replies, "begun", begun);
            fputs("ended\n", replies);
            MUST(iova_begin(stepped).number == begun.number);
            MUST(!iova_end(domain, begun.number, 1) && !iova_end(stepped, begun.number, 1));
        }
    } while (range.refused || range.len);
}

static void flush(void) {
    if (flights < 4 && below(&state, 2)) {
        iova_number begun = iova_begin(domain);
        fputs("begin\n", trace);
        told_number(replies, "begun", begun);
        MUST(!begun.refused && iova_begin(stepped).number == begun.number);
        in_flight[flights++] = begun.number;
    } else if (flights) {
        uint64_t at = below(&state, flights), number = in_flight[at], ok = below(&state, 4) != 0;
        in_flight[at] = in_flight[--flights];
        fprintf(trace, "end %" PRIu64 " %s\n", number, ok ? "ok" : "fail");
        fputs("ended\n", replies);
        MUST(!iova_end(domain, number, ok) && !iova_end(stepped, number, ok));
    }
}

static void drain(void) {
    uint64_t ring = below(&state, WORKERS), by = below(&state, WORKERS);
    iova_number drained = iova_drain(domain, ring, by);
    fprintf(trace, "drain %" PRIu64 " %" PRIu64 "\n", ring, by);
    told_number(replies, "drained", drained);
    MUST(iova_drain(stepped, ring, by).number == drained.number);
}

static void reserve(uint64_t lo, uint64_t hi) {
    iova_range window = iova_reserve(domain, lo, hi);
    fprintf(trace, "reserve %" PRIu64 " %" PRIu64 "\n", lo, hi);
    fprintf(replies, "reserved %" PRIu64 " %" PRIu64 "\n", window.lo, window.lo + window.len - 1);
    MUST(!window.refused && same(window, iova_reserve(stepped, lo, hi)));
}

/* What a cache does, and what its domain is asked for by it. */

static uint64_t some_frames(void) { return below(&state, 10) ? 1 + below(&state, 32) : 33 + below(&state, 40); }

static uint64_t some_limit(void) { return below(&state, 8) ? IOVA_NO_LIMIT : below(&state, LAST); }

static void refill(struct user *user) {
    uint64_t frames = 1 + below(&state, 32), limit = some_limit(), most = below(&state, 80);
    uint64_t order = 0, refused = 0, came = 0;
    while (UINT64_C(1) << order < frames)
        order++;
    uint64_t room = MAGAZINE - iova_cache_counts_of(&user->cache).magazines[order];
    iova_number got = iova_cache_refill(domain, &user->cache, frames, limit, most);
    for (most = most < room ? most : room; !refused && came < most && came < EXCHANGED;) {
        iova_range range = step_alloc(user, frames, limit);
        refused = range.refused;
        if (!refused) {
            MUST(!iova_cache_put(&user->apart, range.lo, range.len));
            came++;
        }
    }
    MUST(got.number == came && got.refused == (came ? 0 : refused));
}

static void spill(struct user *user) {
    uint64_t order = below(&state, ORDERS), most = below(&state, 80), refused = 0, went = 0;
    iova_number gone = iova_cache_spill(domain, &user->cache, order, most);
    while (!refused && went < most && went < EXCHANGED) {
        iova_range range = iova_cache_take(&user->apart, order);
        if (range.refused)
            break;
        refused = step_unmap(user, range.lo).refused;
        if (refused)
            MUST(!iova_cache_put(&user->apart, range.lo, range.len));
        else
            went++;
    }
    MUST(gone.number == went && gone.refused == (went ? 0 : refused));
}

static void ask(struct user *user) {
    uint64_t frames = some_frames(), limit = some_limit();
    if (user->held == HELD)
        return;
    iova_range range = iova_cache_alloc(&user->cache, frames, limit);
    MUST(same(range, iova_cache_alloc(&user->apart, frames, limit)));
    if (range.refused == IOVA_DRY)
        refill(user);
    if (range.refused == IOVA_MISS || range.refused == IOVA_NO_ORDER) {
        range = iova_cache_alloc_by(domain, &user->cache, frames, limit);
        MUST(same(range, step_alloc(user, frames, limit)));
        if (!range.refused)
            MUST(!iova_cache_keep(&user->apart, range.lo, range.len));
    }
    if (!range.refused)
        user->have[user->held++] = range.lo;
}

static void give_up(struct user *user) {
    uint64_t at = user->held ? below(&state, user->held) : 0, start = iova_flushes_of(domain).start;
    uint64_t lo = user->held && below(&state, 20) ? user->have[at] : below(&state, LAST + 2);
    iova_range range = iova_cache_unmap(&user->cache, lo, start);
    MUST(same(range, iova_cache_unmap(&user->apart, lo, start)));
    if (range.refused == IOVA_NO_ORDER || (range.refused == IOVA_RING_FULL && below(&state, 2))) {
        range = iova_cache_unmap_by(domain, &user->cache, lo);
        MUST(same(range, step_unmap(user, lo)));
        if (!range.refused)
            MUST(iova_cache_release(&user->apart, lo).len == range.len);
    }
    for (at = 0; !range.refused && at < user->held; at++)
        if (user->have[at] == lo) {
            user->have[at] = user->have[--user->held];
            break;
        }
}

static void settle(struct user *user) {
    uint64_t newest = iova_flushes_of(domain).newest;
    MUST(iova_cache_settle(&user->cache, newest).number == iova_cache_settle(&user->apart, newest).number);
}

/* Both domains are the same, and so are the caches. */
static void compare(void) {
    static iova_listed one[4096], other[4096];
    iova_counts counts = iova_counts_of(domain), counts_too = iova_counts_of(stepped);
    iova_flushes flushes = iova_flushes_of(domain), flushes_too = iova_flushes_of(stepped);
    MUST(!memcmp(&counts, &counts_too, sizeof counts) && !memcmp(&flushes, &flushes_too, sizeof flushes));
    for (uint64_t frame = 0; frame <= LAST; frame++) {
        iova_place place = iova_place_of(domain, frame), place_too = iova_place_of(stepped, frame);
        MUST(!memcmp(&place, &place_too, sizeof place));
    }
    for (struct user *user = users; user < users + CACHES; user++) {
        iova_cache_counts cached = iova_cache_counts_of(&user->cache), cached_too = iova_cache_counts_of(&user->apart);
        uint64_t count = iova_holdings_of(domain, user->client, one, 4096).number, sum = cached.held + cached.waiting;
        MUST(!memcmp(&cached, &cached_too, sizeof cached) && cached.held == user->held);
        MUST(iova_holdings_of(stepped, user->client, other, 4096).number == count);
        MUST(!memcmp(one, other, count * sizeof *one));
        for (int order = 0; order < ORDERS; order++)
            sum += cached.magazines[order];
        MUST(sum == count);
    }
}

static void operate(void) {
    struct user *user = &users[below(&state, CACHES)];
    uint64_t what = below(&state, 1000);
    if (what < 480)
        ask(user);
    else if (what < 800)
        give_up(user);
    else if (what < 880)
        settle(user);
    else if (what < 910)
        refill(user);
    else if (what < 930)
        spill(user);
    else if (what < 970)
        flush();
    else if (what < 998)
        drain();
    else if (below(&state, 4) == 0) {
        close_cache(user);
        open_cache(user, below(&state, WORKERS), below(&state, 2));
    }
}

int main(int count, char **words) {
    MUST(count == 5);
    ends_within(600);
    state = strtoull(words[1], NULL, 10);
    trace = fopen(words[3], "w");
    replies = fopen(words[4], "w");
    domain = iova_domain_new();
    stepped = iova_domain_new();
    MUST(trace && replies && domain && stepped);
    MUST(!iova_domain_make(domain, 1, LAST, WORKERS) && !iova_domain_make(stepped, 1, LAST, WORKERS));
    fprintf(trace, "iovatrace 1 1 %d %d\n", LAST, WORKERS);
    reserve(1000, 1099);
    for (uint64_t k = 0; k < CACHES; k++) {
        iova_cache_init(&users[k].cache);
        iova_cache_init(&users[k].apart);
        open_cache(&users[k], k % WORKERS, k == 3);
    }
    for (uint64_t k = 0, operations = strtoull(words[2], NULL, 10); k < operations; k++) {
        operate();
        if (k % 256 == 0)
            compare();
    }
    compare();
    told_report(replies, domain);
    for (int k = 0; k < CACHES; k++) {
        iova_cache_clear(&users[k].cache);
        iova_cache_clear(&users[k].apart);
    }
    iova_domain_free(domain);
    iova_domain_free(stepped);
    MUST(!fclose(trace) && !fclose(replies));
    return 0;
}

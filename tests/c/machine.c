/* What a domain answers and tells at a few states, and each growth of a step refused in turn: what the step leaves
 * then, and that the same step succeeds once there is memory. */
#include "iova.h"
#include "refusing.h"

#include <inttypes.h>
#include <stdio.h>
#include <string.h>

static int bad;

static void fails(const char *what, const char *asked, const char *got, const char *wanted) {
    printf("machine: %s: %s: got %s, wanted %s\n", what, asked, got, wanted);
    bad = 1;
}

/* Steps as text, their numbers in the order of the call. What they are answered: the range's first frame and its
 * length, the number, nothing, or the refusal's name. */
struct row {
    const char *asked, *answered;
};

static const char *ranged(uint64_t refused, uint64_t lo, uint64_t len) {
    static char text[48];
    if (refused)
        return iova_refusal_name(refused);
    snprintf(text, sizeof text, "%" PRIu64 " %" PRIu64, lo, len);
    return text;
}

static const char *numbered(iova_number answer) {
    static char text[24];
    if (answer.refused)
        return iova_refusal_name(answer.refused);
    snprintf(text, sizeof text, "%" PRIu64, answer.number);
    return text;
}

static const char *answer(iova_domain *domain, const char *asked) {
    char word[16];
    uint64_t a = 0, b = 0, c = 0, d = 0;
    sscanf(asked, "%15s %" SCNu64 " %" SCNu64 " %" SCNu64 " %" SCNu64, word, &a, &b, &c, &d);
    iova_range range = {0, 0, 0};
    if (strcmp(word, "open") == 0)
        return numbered(iova_open(domain, a, b));
    if (strcmp(word, "begin") == 0)
        return numbered(iova_begin(domain));
    if (strcmp(word, "drain") == 0)
        return numbered(iova_drain(domain, a, b));
    if (strcmp(word, "close") == 0)
        return numbered(iova_close(domain, a, b));
    if (strcmp(word, "end") == 0)
        return iova_refusal_name(iova_end(domain, a, b));
    if (strcmp(word, "reserve") == 0)
        range = iova_reserve(domain, a, b);
    else if (strcmp(word, "alloc") == 0)
        range = iova_alloc(domain, a, b, c, d);
    else if (strcmp(word, "unmap") == 0)
        range = iova_unmap(domain, a, b, c);
    else
        return "no step";
    return ranged(range.refused, range.lo, range.len);
}

static void run(const char *what, iova_domain *domain, const struct row *rows, size_t count) {
    for (const struct row *row = rows; row < rows + count; row++) {
        const char *got = answer(domain, row->asked);
        if (strcmp(got, row->answered) != 0)
            fails(what, row->asked, got, row->answered);
    }
}
#define RUN(what, domain, rows) run(what, domain, rows, sizeof rows / sizeof rows[0])

/* Single frames of client 1 of worker 0 from `highest` down: so many are given, and so many given up. */
static void hold(iova_domain *domain, uint64_t highest, uint64_t count) {
    for (uint64_t at = 0; at < count; at++) {
        iova_range range = iova_alloc(domain, 0, 1, 1, highest);
        if (range.lo != highest - at || range.len != 1)
            fails("hold", "alloc", ranged(range.refused, range.lo, range.len), "the next one below");
    }
    for (uint64_t at = 0; at < count; at++) {
        iova_range range = iova_unmap(domain, 0, 1, highest - at);
        if (range.lo != highest - at)
            fails("hold", "unmap", ranged(range.refused, range.lo, range.len), "the same again");
    }
}

/* What the readers tell of all frames: where they are, and the clients, what they hold, and the windows. */
struct told {
    uint64_t frames[7], clients, count, sum_lo, windows;
};

static struct told tell(const char *what, iova_domain *domain) {
    iova_counts counts = iova_counts_of(domain);
    iova_totals totals = iova_totals_of(domain);
    iova_bounds bounds = iova_bounds_of(domain);
    struct told told = {{0, counts.free, counts.reserved, counts.client, counts.magazine, counts.depot, counts.ring},
                        counts.clients,
                        totals.count,
                        totals.sum_lo,
                        counts.windows};
    uint64_t all = 0;
    for (int kind = IOVA_FREE; kind <= IOVA_AT_RING; kind++)
        all += told.frames[kind];
    if (all != bounds.last - bounds.start + 1 || totals.frames != counts.client)
        fails(what, "counts", "another sum", "the length of the bounds");
    return told;
}

/* The same frames, each of which was asked for its place. */
static int is_placed(iova_domain *domain, const struct told *told) {
    iova_bounds bounds = iova_bounds_of(domain);
    uint64_t frames[7] = {0};
    for (uint64_t frame = bounds.start; frame <= bounds.last; frame++)
        frames[iova_place_of(domain, frame).kind]++;
    return memcmp(frames, told->frames, sizeof frames) == 0;
}

static void at(iova_domain *domain, uint64_t frame, uint64_t kind, uint64_t number) {
    iova_place place = iova_place_of(domain, frame);
    if (place.kind != kind || place.number != number) {
        printf("machine: frame %" PRIu64 " is at %" PRIu64 " %" PRIu64 "\n", frame, place.kind, place.number);
        bad = 1;
    }
}

static void a_new_domain_is_free(iova_domain *domain) {
    iova_domain_make(domain, 100, 163, 3);
    at(domain, 0, IOVA_OUTSIDE, 0);
    at(domain, 99, IOVA_OUTSIDE, 0);
    at(domain, 100, IOVA_FREE, 0);
    at(domain, 163, IOVA_FREE, 0);
    at(domain, 164, IOVA_OUTSIDE, 0);
    at(domain, UINT64_MAX, IOVA_OUTSIDE, 0);
    struct told told = tell("new", domain), want = {{0, 64}, 0, 0, 0, 0};
    iova_bounds bounds = iova_bounds_of(domain);
    iova_flushes flushes = iova_flushes_of(domain);
    if (memcmp(&told, &want, sizeof told) != 0 || bounds.start != 100 || bounds.last != 163 || bounds.workers != 3 ||
        flushes.newest || flushes.good || flushes.start)
        fails("new", "readers", "others", "a free domain");
}

static void frames_at_all_six_kinds_of_place(iova_domain *domain) {
    static const struct row before[] = {{"open 0 0", "1"}};
    /* two full magazines, one of which goes to the depot, and one frame more */
    static const struct row rows[] = {
        {"begin", "1"},
        {"end 1 1", ""},
        {"drain 0 1", "255"},
        {"reserve 1 10", "1 10"},
        {"open 1 0", "2"},
        {"alloc 0 1 33 511", "192 33"},
        {"alloc 0 1 5 511", "248 8"},
        {"alloc 1 2 1 511", "257 1"},
        {"alloc 1 2 1 511", "385 1"},
        {"unmap 0 1 192", "192 33"},
        {"unmap 1 2 385", "385 1"},
        {"close 0 1", "1"},
    };
    iova_domain_make_second(domain, 1, 511, 2, 32);
    RUN("six places", domain, before);
    hold(domain, 511, 255);
    RUN("six places", domain, rows);
    struct told told = tell("six places", domain), want = {{0, 205, 10, 9, 126, 127, 34}, 2, 2, 505, 1};
    if (memcmp(&told, &want, sizeof told) != 0 || !is_placed(domain, &told))
        fails("six places", "readers", "others", "six kinds");
    static const uint64_t places[][3] = {
        {10, IOVA_RESERVED, 0},     {11, IOVA_FREE, 0},       {192, IOVA_AT_RING, 0}, {224, IOVA_AT_RING, 0},
        {225, IOVA_FREE, 0},        {255, IOVA_AT_CLIENT, 1}, {256, IOVA_FREE, 0},    {257, IOVA_AT_CLIENT, 2},
        {258, IOVA_AT_DEPOT, 0},    {384, IOVA_AT_DEPOT, 0},  {385, IOVA_AT_RING, 1}, {386, IOVA_AT_MAGAZINE, 1},
        {511, IOVA_AT_MAGAZINE, 1},
    };
    for (size_t place = 0; place < sizeof places / sizeof places[0]; place++)
        at(domain, places[place][0], places[place][1], places[place][2]);
    iova_listed first[2], second[2], window[2];
    iova_client one = iova_client_of(domain, 1), two = iova_client_of(domain, 2);
    if (iova_holdings_of(domain, 1, first, 2).number != 1 || first[0].lo != 248 || first[0].len != 8 ||
        iova_holdings_of(domain, 2, second, 2).number != 1 || second[0].lo != 257 || second[0].len != 1 ||
        iova_windows_of(domain, window, 2).number != 1 || window[0].lo != 1 || window[0].len != 10 || !one.closing ||
        one.worker != 0 || two.closing || two.worker != 1)
        fails("six places", "lists", "others", "two clients and a window");
}

static void windows_over_frames_in_caches_and_rings(iova_domain *domain) {
    static const struct row rows[] = {
        {"open 0 0", "1"},
        {"alloc 0 1 1 1023", "1023 1"},
        {"unmap 0 1 1023", "1023 1"},
        {"reserve 1000 1023", "Taken"},
        {"begin", "1"},
        {"end 1 1", ""},
        {"drain 0 0", "1"},
        {"reserve 1000 1023", "Taken"},
        /* which empties the caches */
        {"alloc 0 1 1000 1023", "NoSpace"},
        {"reserve 1000 1023", "1000 24"},
    };
    iova_domain_make(domain, 1, 1023, 1);
    RUN("windows", domain, rows);
}

static void drained_into_the_magazines_of_who_drains(iova_domain *domain) {
    static const struct row rows[] = {
        {"open 0 0", "1"},
        {"open 1 0", "2"},
        {"alloc 0 1 1 1023", "1023 1"},
        {"unmap 0 1 1023", "1023 1"},
        {"begin", "1"},
        {"end 1 1", ""},
        {"drain 1 0", "0"},
        {"drain 0 1", "1"},
    };
    static const struct row more[] = {{"alloc 0 1 1 1023", "1022 1"}, {"alloc 1 2 1 1023", "1023 1"}};
    iova_domain_make(domain, 1, 1023, 2);
    RUN("drained", domain, rows);
    at(domain, 1023, IOVA_AT_MAGAZINE, 1);
    RUN("drained", domain, more);
}

/* A domain, rows, single frames of its first client that go through its ring into magazines of the second worker, and
 * the step whose growths are refused in turn: with each of them the frames are left so. */
struct refused {
    const char *what;
    uint64_t start, last, workers;
    struct row rows[7];
    uint64_t held;
    struct row step;
    uint64_t left[6][7];
};

#define CACHED                                                                                                         \
    {"open 0 0", "1"}, {"alloc 0 1 1 3", "3 1"}, {"unmap 0 1 3", "3 1"}, {"begin", "1"}, {"end 1 1", ""}, {            \
        "drain 0 0", "1"                                                                                               \
    }

static const struct refused refusals[] = {
    /* twice in the ledger, before the caches are looked at: the frame comes from the magazine */
    {"ledger",
     1,
     3,
     1,
     {CACHED, {"open 0 0", "2"}},
     0,
     {"alloc 0 2 1 3", "3 1"},
     {{0, 2, 0, 0, 1}, {0, 2, 0, 0, 1}}},
    /* twice in the ledger, and in the first search, below 4 GiB: the root's links, a branch's and a block */
    {"first",
     1,
     1048675,
     1,
     {{"open 0 1", "1"}},
     0,
     {"alloc 0 1 1 1048675", "1048575 1"},
     {{0, 1048675}, {0, 1048675}, {0, 1048675}, {0, 1048675}, {0, 1048675}}},
    /* twice in the ledger, and in the second search, with the limit that was asked for: one is not `sac`, one asks for no
       more than 4 GiB, and for one nothing is free there */
    {"second", 1048570, 1048675, 1, {{"open 0 0", "1"}}, 0, {"alloc 0 1 1 1048675", "1048675 1"}, {{0, 106}, {0, 106}, {0, 106}, {0, 106}, {0, 106}}},
    {"second", 1048570, 1048675, 1, {{"open 0 1", "1"}}, 0, {"alloc 0 1 1 1048575", "1048575 1"}, {{0, 106}, {0, 106}, {0, 106}, {0, 106}, {0, 106}}},
    {"second", 1048576, 1048675, 1, {{"open 0 1", "1"}}, 0, {"alloc 0 1 1 1048675", "1048675 1"}, {{0, 100}, {0, 100}, {0, 100}, {0, 100}, {0, 100}}},
    /* worker 0 has nothing cached, so that the walk moves the depot's magazine to it; no entry fits, and the tree is
       asked, whose lowest block is full */
    {"moved", 1, 300, 2, {{"open 0 0", "1"}}, 240, {"alloc 0 1 1 60", "60 1"}, {{0, 60, 0, 0, 240}}},
    /* in the last search, after the caches were emptied */
    {"last", 1, 3, 1, {CACHED}, 0, {"alloc 0 1 2 3", "2 2"}, {{0, 3}, {0, 3}}},
};

static void make(iova_domain *domain, const struct refused *row) {
    static const struct row flushed[] = {{"begin", "1"}, {"end 1 1", ""}, {"drain 0 1", "240"}};
    if (row->held)
        iova_domain_make_second(domain, row->start, row->last, row->workers, 1);
    else
        iova_domain_make(domain, row->start, row->last, row->workers);
    for (size_t at = 0; at < 7 && row->rows[at].asked != NULL; at++)
        run(row->what, domain, &row->rows[at], 1);
    if (row->held) {
        hold(domain, row->last, row->held);
        RUN(row->what, domain, flushed);
    }
}

/* A step whose growth of this number is refused. Whether there was one: then the frames are left so, nobody has
 * anything new, and the same step with memory is answered so. */
static int is_tried(iova_domain *domain, const char *what, const struct row *step, long number, const uint64_t *left) {
    struct told before = tell(what, domain);
    refuse_at = growths + number;
    char got[48];
    snprintf(got, sizeof got, "%s", answer(domain, step->asked));
    int was_refused = growths >= refuse_at;
    refuse_at = 0;
    if (!was_refused) {
        if (strcmp(got, step->answered) != 0)
            fails(what, step->asked, got, step->answered);
        return 0;
    }
    struct told after = tell(what, domain);
    if (strcmp(got, "NoMemory") != 0)
        fails(what, step->asked, got, "NoMemory");
    else if (left == NULL || memcmp(after.frames, left, sizeof after.frames) != 0)
        fails(what, step->asked, "other frames", "those that are left");
    else if (after.clients != before.clients || after.count != before.count || after.sum_lo != before.sum_lo ||
             after.windows != before.windows)
        fails(what, step->asked, "something new", "nothing new");
    run(what, domain, step, 1);
    return 1;
}

static void each_growth_of_a_step(iova_domain *domain) {
    for (const struct refused *row = refusals; row < refusals + sizeof refusals / sizeof refusals[0]; row++) {
        long number = 1;
        for (make(domain, row);
             is_tried(domain, row->what, &row->step, number, number <= 6 ? row->left[number - 1] : NULL); number++)
            make(domain, row);
        if (number > 6 || row->left[number - 1][1] != 0)
            fails(row->what, row->step.asked, "fewer growths", "as many as are said");
    }
}

/* Windows of 3 frames that are a frame apart, and then one of all; and clients: each growth is refused, and tried
 * again. */
static void growths_of_windows_and_clients(iova_domain *domain) {
    char asked[40], answered[24];
    struct row step = {asked, answered};
    int refused = 0;
    iova_domain_make(domain, 1, 1023, 1);
    for (uint64_t at = 0; at < 40; at++) {
        uint64_t left[7] = {0, 1023 - 3 * at, 3 * at};
        snprintf(asked, sizeof asked, "reserve %" PRIu64 " %" PRIu64, 4 * at + 1, 4 * at + 3);
        snprintf(answered, sizeof answered, "%" PRIu64 " 3", 4 * at + 1);
        refused += is_tried(domain, "windows", &step, 1, left);
    }
    static const struct row all = {"reserve 2 158", "1 159"};
    static const uint64_t apart[7] = {0, 903, 120}, none[7] = {0, 1023};
    is_tried(domain, "windows", &all, 1, apart);
    iova_domain_make(domain, 1, 1023, 1);
    for (int number = 1; number <= 100; number++) {
        snprintf(answered, sizeof answered, "%d", number);
        refused += is_tried(domain, "clients", &(struct row){"open 0 0", answered}, 1, none);
    }
    if (refused < 8)
        fails("windows", "clients", "few growths", "some");
}

int main(void) {
    static void (*const tests[])(iova_domain *) = {
        a_new_domain_is_free,
        frames_at_all_six_kinds_of_place,
        windows_over_frames_in_caches_and_rings,
        drained_into_the_magazines_of_who_drains,
        each_growth_of_a_step,
        growths_of_windows_and_clients,
    };
    for (size_t test = 0; test < sizeof tests / sizeof tests[0]; test++) {
        iova_domain *domain = iova_domain_new();
        if (domain == NULL)
            return 1;
        tests[test](domain);
        iova_domain_free(domain);
        if (blocks) {
            printf("machine: %ld blocks are left\n", blocks);
            return 1;
        }
    }
    return bad;
}

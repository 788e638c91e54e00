/* A driver over the daemon with a cache of its own: most buffers cost no trip to the daemon.
 *
 *     cached SOCKET [BUFFERS [DEPTH]]
 *
 * So many buffers (1,000,000) of 1 to 32 pages are posted, up to DEPTH (90) at a time, and taken back in random order.
 * The daemon is started with --session-requests 0. Where the session is lost all the same, the driver takes its
 * mappings from the device, begins a new client, and goes on. The rate goes to standard error.
 */
#include <iova.h>
#include <iova_client.h>

#include <inttypes.h>
#include <stdio.h>
#include <stdlib.h>
#include <time.h>

enum { MOST = 4000, PAGES = 32 };

struct driver {
    iovad_cache cache;
    uint64_t dice, posted, taken, lost, sessions;
    size_t count, depth;
    uint64_t held[MOST]; /* the first frames of the buffers that are posted */
};

static int fails(const char *what, uint64_t error) {
    fprintf(stderr, "cached: %s: %s\n", what, iovad_error_name(error));
    return 1;
}

static uint64_t roll(struct driver *driver, uint64_t sides) {
    driver->dice = driver->dice * 6364136223846793005u + 1442695040888963407u;
    return (driver->dice >> 33) % sides;
}

static uint64_t post(struct driver *driver) {
    iovad_range range = iovad_cache_alloc(&driver->cache, 1 + roll(driver, PAGES), UINT64_MAX);
    if (!range.error) {
        /* here the range is mapped for the device */
        driver->held[driver->count++] = range.lo;
        driver->posted++;
    }
    return range.error;
}

static uint64_t take_back(struct driver *driver) {
    size_t at = (size_t)roll(driver, driver->count);
    /* here it is unmapped; freed it may be given to others, once a flush has covered it */
    iovad_range range = iovad_cache_free(&driver->cache, driver->held[at]);
    if (!range.error) {
        driver->held[at] = driver->held[--driver->count];
        driver->taken++;
    }
    return range.error;
}

/* A new client. What was held is the daemon's, which gives it to others once the device's owner has answered for it. */
static int begin_anew(struct driver *driver) {
    static iovad_listed list[MOST];
    iovad_held lost = iovad_cache_reopen(&driver->cache, list, MOST);
    if (lost.error)
        return fails("no new session", lost.error);
    /* here each range of the list is unmapped, as far as it is */
    driver->lost += lost.count;
    driver->count = 0;
    driver->sessions++;
    return 0;
}

static int run(struct driver *driver, uint64_t buffers) {
    while (driver->posted < buffers || driver->count) {
        int has_room = driver->count < driver->depth && driver->posted < buffers;
        int posts = driver->count == 0 || (has_room && roll(driver, 2));
        uint64_t error = posts ? post(driver) : take_back(driver);
        if (error < IOVAD_BAD_PATH && error)
            return fails(posts ? "post" : "take back", error);
        if (error && begin_anew(driver))
            return 1;
    }
    return 0;
}

int main(int count, char **words) {
    static struct driver driver;
    struct timespec begin, end;
    uint64_t buffers = count > 2 ? strtoull(words[2], NULL, 10) : 1000000;
    driver.depth = count > 3 ? (size_t)strtoull(words[3], NULL, 10) : 90;
    if (count < 2 || count > 4 || buffers == 0 || driver.depth == 0 || driver.depth > MOST) {
        fprintf(stderr, "usage: cached SOCKET [BUFFERS [DEPTH]]\n");
        return 2;
    }
    iovad_opened opened = iovad_cache_open(&driver.cache, words[1], 0, 0);
    if (opened.error)
        return fails(words[1], opened.error);
    driver.sessions = driver.dice = 1;
    timespec_get(&begin, TIME_UTC);
    int failed = run(&driver, buffers);
    timespec_get(&end, TIME_UTC);
    uint64_t error = iovad_cache_close(&driver.cache);
    if (failed || error)
        return failed ? 1 : fails("bye", error);
    printf("%" PRIu64 " buffers posted, %" PRIu64 " taken back and %" PRIu64 " lost, sessions: %" PRIu64 "\n",
           driver.posted, driver.taken, driver.lost, driver.sessions);
    double seconds = (double)(end.tv_sec - begin.tv_sec) + (double)(end.tv_nsec - begin.tv_nsec) * 1e-9;
    fprintf(stderr, "%.0f buffers a second\n", (double)driver.posted / seconds);
    return 0;
}

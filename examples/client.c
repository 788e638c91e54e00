/* A driver over the daemon: it posts a device's buffers, 16 at a time, and takes them back.
 *
 *     client SOCKET [BUFFERS]
 *
 * Each buffer is a page. 16 are posted in one run of requests, and taken back in the next: a write and a read for each
 * run. Where the ring was full, since another client's flush was still under way, the buffer stays the driver's, which
 * frees it once more. A session has at most 65,536 requests, so 100,000 buffers take four. The rate goes to standard
 * error.
 */
#include "iova_client.h"

#include <inttypes.h>
#include <stdio.h>
#include <stdlib.h>
#include <time.h>

enum { DEPTH = IOVAD_IN_FLIGHT, SESSION = 65000, RING_FULL = 7 };

struct driver {
    iovad_session session;
    uint64_t held[DEPTH]; /* the first frames of the buffers that are posted */
    int count;
    uint64_t posted, taken, again, sessions;
};

static int fails(const char *what, uint64_t error) {
    fprintf(stderr, "client: %s: %s\n", what, iovad_error_name(error));
    return 1;
}

/* Posts so many buffers. */
static int post(struct driver *driver, int count) {
    uint64_t error = 0;
    for (int at = 0; at < count && !error; at++)
        error = iovad_ask_alloc(&driver->session, 1, UINT64_MAX);
    for (int at = 0; at < count && !error; at++) {
        iovad_range range = iovad_take_alloc(&driver->session);
        error = range.error;
        driver->held[driver->count++] = range.lo;
    }
    driver->posted += (uint64_t)count;
    return error ? fails("post", error) : 0;
}

/* Takes back what is posted. */
static int take_back(struct driver *driver) {
    uint64_t error = 0;
    int count = driver->count;
    for (int at = 0; at < count && !error; at++)
        error = iovad_ask_free(&driver->session, driver->held[at]);
    driver->count = 0;
    for (int at = 0; at < count && !error; at++) {
        iovad_range range = iovad_take_free(&driver->session);
        if (range.error == RING_FULL) {
            driver->held[driver->count++] = driver->held[at];
            driver->again++;
        } else if (range.error == 0 && range.lo != driver->held[at]) {
            return fails("take back another", IOVAD_MALFORMED);
        } else {
            error = range.error;
            driver->taken++;
        }
    }
    return error ? fails("take back", error) : 0;
}

/* One session, which ends once all are posted and taken back, or near its most requests. */
static int run(struct driver *driver, const char *path, uint64_t buffers) {
    iovad_opened opened = iovad_open(&driver->session, path, 0, 0);
    int failed = opened.error ? fails(path, opened.error) : 0;
    driver->sessions++;
    for (int asked = 0; !failed && (driver->count || (driver->posted < buffers && asked < SESSION));) {
        uint64_t left = buffers - driver->posted;
        asked += driver->count;
        if (driver->count) {
            failed = take_back(driver);
        } else {
            int count = left < DEPTH ? (int)left : DEPTH;
            asked += count;
            failed = post(driver, count);
        }
    }
    uint64_t error = failed ? 0 : iovad_bye(&driver->session);
    iovad_close(&driver->session);
    return error ? fails("bye", error) : failed;
}

int main(int argc, char **words) {
    struct driver driver;
    struct timespec begin, end;
    uint64_t buffers = argc > 2 ? strtoull(words[2], NULL, 10) : 100000;
    if (argc < 2 || argc > 3 || buffers == 0) {
        fprintf(stderr, "usage: client SOCKET [BUFFERS]\n");
        return 2;
    }
    memset(&driver, 0, sizeof driver);
    timespec_get(&begin, TIME_UTC);
    while (driver.posted < buffers)
        if (run(&driver, words[1], buffers))
            return 1;
    timespec_get(&end, TIME_UTC);
    printf("%" PRIu64 " buffers posted and %" PRIu64 " taken back, sessions: %" PRIu64 "\n", driver.posted,
           driver.taken, driver.sessions);
    double seconds = (double)(end.tv_sec - begin.tv_sec) + (double)(end.tv_nsec - begin.tv_nsec) * 1e-9;
    fprintf(stderr, "%.0f requests a second, %" PRIu64 " of them refused since a ring was full\n",
            (double)(driver.posted + driver.taken + driver.again) / seconds, driver.again);
    return 0;
}

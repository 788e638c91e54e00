/* iova_client.h: a client of the daemon `iovad serve`, over its Unix socket. One file, header and code: nothing is
 * linked, and no memory is taken. It goes together with iova.h or without it, and as C11 or C++17. Where iova.h comes
 * before it there are caches too, iovad_cache_open and so on at its end, for which -liova is linked.
 *
 *   iovad_session session;
 *   iovad_opened opened = iovad_open(&session, "/tmp/iovad.socket", 0, 0);      domain 0, any address
 *   if (opened.error)
 *       return fails(iovad_error_name(opened.error));
 *   iovad_range buffer = iovad_alloc(&session, 3, UINT64_MAX);                  3 frames, 4 are given
 *   .. the device uses the frames from buffer.lo on ..
 *   iovad_free(&session, buffer.lo);                                            they wait for a flush
 *   iovad_bye(&session);
 *
 * Frames are pages of 4,096 bytes, numbered by their address divided by 4,096. docs/USAGE.md, which is man 5 iovad,
 * says what each request does.
 *
 * A call such as iovad_alloc asks one request and waits for its answer. Up to 16 requests may be in flight, which costs
 * one write and mostly one read for all of them: iovad_ask_alloc and its like ask and don't wait, and iovad_take_alloc
 * and its like take the answers, in the order of the requests. What was asked is sent at the first take that has to
 * wait, or by iovad_send.
 *
 * Every answer is a struct whose field `error` is 0, or says why nothing was done; then all the rest is 0. After
 * IOVAD_BROKEN, IOVAD_ENDED, IOVAD_MALFORMED and IOVAD_TIMED_OUT the session is lost: each further call answers the
 * same at once, and what is left is iovad_close. The daemon takes back what a lost session held.
 *
 * iovad_open waits as long as it takes: where the daemon serves as many clients as it may, until one of them ends.
 * iovad_open_within waits for so many milliseconds, and iovad_within bounds the answers behind it. An answer that comes
 * too late would be taken for that to the next request, so no request follows a time-out: close, and open anew.
 *
 * A program with a loop of its own polls the descriptor of iovad_session_fd for what can be read:
 *
 *   iovad_ask_alloc(&session, 3, UINT64_MAX);
 *   iovad_send(&session);
 *   .. poll(2) says that iovad_session_fd(&session) can be read ..
 *   while (iovad_has_answer(&session))
 *       .. iovad_take_alloc(&session), which doesn't wait ..
 *
 * A session is used by one thread at a time. It has at most 65,536 requests: then it ends, and the next one is opened.
 * No signal is raised by a daemon that is gone, and a call that a signal interrupts goes on.
 */
#ifndef IOVA_CLIENT_H
#define IOVA_CLIENT_H

#include <errno.h>
#include <poll.h>
#include <stddef.h>
#include <stdint.h>
#include <string.h>
#include <sys/socket.h>
#include <sys/time.h>
#include <sys/times.h>
#include <sys/un.h>
#include <unistd.h>
#ifdef IOVA_H /* the caches at the end */
#include <pthread.h>
#include <stdlib.h>
#endif

#ifdef __cplusplus
extern "C" {
#endif

/* Requests in flight at most: those that were asked and whose answer wasn't taken. */
#define IOVAD_IN_FLIGHT 16

/* Why nothing was done. 1 to 99 are the daemon's refusals, by the numbers that docs/USAGE.md and enum iova_refusal of
 * iova.h list. After a refusal the session goes on, but for 20 BadLine and 21 TooMany. */
enum iovad_error {
    IOVAD_BAD_PATH = 100,  /* no path that a Unix socket may have */
    IOVAD_NO_DAEMON = 101, /* nobody listens there, or no socket can be made: errno says why */
    IOVAD_BROKEN = 102,    /* a read or a write failed: errno says why */
    IOVAD_ENDED = 103,     /* the stream ended before the answer, or in it */
    IOVAD_MALFORMED = 104, /* what came is no answer to what was asked */
    IOVAD_FULL = 105,      /* 16 requests are in flight: take an answer first */
    IOVAD_BUSY = 106,      /* a call that waits, while requests are in flight: take their answers first */
    IOVAD_NOT_ASKED = 107, /* no such request is the next whose answer comes */
    IOVAD_TIMED_OUT = 108, /* no connection, or no answer, within the time: errno is ETIMEDOUT */
    IOVAD_STRICT = 109,    /* caches: the domain is strict, and a cache isn't for it */
    IOVAD_NO_ROOM = 110,   /* caches: the list is shorter than what is lost */
    IOVAD_FORKED = 111     /* caches: this process is a forked child, and the cache is its parent's */
};

/* The answer to `hello`: the client's number. */
typedef struct iovad_opened {
    uint64_t error, number;
} iovad_opened;

/* The answer to `alloc` and to `free`: the first frame, and how many. `freed` is 1 where a strict domain has flushed
 * the range already, so that it may be given again. */
typedef struct iovad_range {
    uint64_t error, lo, len, freed;
} iovad_range;

/* The answer to `list`: how many ranges the client holds. */
typedef struct iovad_held {
    uint64_t error, count;
} iovad_held;

/* A range of a list. */
typedef struct iovad_listed {
    uint64_t lo, len;
} iovad_listed;

/* The answer to `flush`: the flush's number, and how many ranges it drained. */
typedef struct iovad_flushed {
    uint64_t error, number, ranges;
} iovad_flushed;

/* The answer to `stat`: how many frames are where, and how many flushes have begun and are finished. */
typedef struct iovad_counts {
    uint64_t error, free, reserved, client, magazine, depot, ring, start, finish;
} iovad_counts;

/* A session. What is in it is for the functions below alone. */
typedef struct iovad_session {
    int fd;
    uint64_t lost; /* the error by which it is lost, or 0 */
    int within; /* the milliseconds that an answer may take; below 0: as long as it takes */
    int64_t until, first_until; /* when the time ends of the call that waits, and of the next one; 0: not begun */
    unsigned first, in_flight, sent; /* the requests whose answers weren't taken, in a circle, and how many were sent */
    unsigned char asked[IOVAD_IN_FLIGHT];
    size_t unsent; /* bytes of `out` */
    size_t at, end; /* the bytes of `in` that weren't taken */
    char out[IOVAD_IN_FLIGHT * 48];
    char in[4096];
} iovad_session;

/* The word for an error: that of the daemon for a refusal, as "NoSpace". */
static inline const char *iovad_error_name(uint64_t error) {
    static const char *const refusals[] = {
        "",          "Zero",     "TooBig",      "NoClient",    "Closing",     "HoldingsFull", "NoSpace",
        "RingFull",  "NotHeld",  "Taken",       "BadWindow",   "WindowsFull", "NoWorker",     "FlightsFull",
        "NoFlight",  "Worn",     "ClientsFull", "NoMemory",    "SinkFault",   "LinkFault",    "BadLine",
        "TooMany",   "BadTrace", "NoDomain",    "Twice",       "BadProfile",
    };
    static const char *const own[] = {"BadPath", "NoDaemon", "Broken", "Ended",
                                      "Malformed", "Full", "Busy", "NotAsked", "TimedOut", "Strict", "NoRoom", "Forked"};
    if (error < sizeof refusals / sizeof refusals[0])
        return refusals[error];
    if (error >= IOVAD_BAD_PATH && error - IOVAD_BAD_PATH < sizeof own / sizeof own[0])
        return own[error - IOVAD_BAD_PATH];
    return "";
}

/* What the calls below are made of: names that begin with iovad_own are nobody else's. */

enum iovad_own_kind {
    IOVAD_OWN_HELLO,
    IOVAD_OWN_ALLOC,
    IOVAD_OWN_FREE,
    IOVAD_OWN_LIST,
    IOVAD_OWN_FLUSH,
    IOVAD_OWN_STAT,
    IOVAD_OWN_BYE
};

static inline uint64_t iovad_own_lose(iovad_session *session, uint64_t error) { return session->lost = error; }

/* The milliseconds of a clock that only rises, in steps of 10 on Linux. Strict C11 has times, and no clock_gettime. */
static inline int64_t iovad_own_now(void) {
    struct tms spent;
    long second = sysconf(_SC_CLK_TCK);
    return (int64_t)times(&spent) * 1000 / (second > 0 ? second : 100) + 1;
}

static inline uint64_t iovad_own_late(iovad_session *session) {
    errno = ETIMEDOUT;
    return iovad_own_lose(session, IOVAD_TIMED_OUT);
}

/* What is left of the time of the call that waits, from when it first waits: milliseconds, or -1 without an end. */
static inline int iovad_own_left(iovad_session *session) {
    int64_t now;
    if (session->within < 0)
        return -1;
    now = iovad_own_now();
    if (session->until == 0)
        session->until = now + session->within;
    return session->until > now ? (int)(session->until - now) : 0;
}

/* Waits until the descriptor can be read or written, where the time has an end; else the read or write waits itself. */
static inline uint64_t iovad_own_wait(iovad_session *session, short what) {
    while (session->within >= 0) {
        struct pollfd polled = {session->fd, what, 0};
        int count = poll(&polled, 1, iovad_own_left(session));
        if (count > 0)
            return 0;
        if (count == 0)
            return iovad_own_late(session);
        if (errno != EINTR)
            return iovad_own_lose(session, IOVAD_BROKEN);
    }
    return 0;
}

/* Room for a request that is put into `out`, or NULL with the error. */
static inline char *iovad_own_ask(iovad_session *session, enum iovad_own_kind kind, uint64_t *error) {
    *error = session->lost ? session->lost : session->in_flight == IOVAD_IN_FLIGHT ? (uint64_t)IOVAD_FULL : 0;
    if (*error)
        return NULL;
    session->asked[(session->first + session->in_flight++) % IOVAD_IN_FLIGHT] = (unsigned char)kind;
    return session->out + session->unsent;
}

static inline char *iovad_own_put(char *at, const char *text, size_t length) {
    memcpy(at, text, length);
    return at + length;
}

static inline char *iovad_own_put_number(char *at, uint64_t number) {
    char digits[20];
    size_t count = 0;
    do
        digits[count++] = (char)('0' + number % 10);
    while (number /= 10);
    while (count)
        *at++ = digits[--count];
    return at;
}

static inline uint64_t iovad_own_asked(iovad_session *session, char *end) {
    *end++ = '\n';
    session->unsent = (size_t)(end - session->out);
    return 0;
}

/* A request of one word, or of a word and a number or two. */
static inline uint64_t iovad_own_request(iovad_session *session, enum iovad_own_kind kind, const char *word, int count,
                                         uint64_t one, uint64_t two) {
    uint64_t error;
    char *at = iovad_own_ask(session, kind, &error);
    if (!at)
        return error;
    at = iovad_own_put(at, word, strlen(word));
    if (count > 0) {
        *at++ = ' ';
        at = iovad_own_put_number(at, one);
    }
    if (count > 1) {
        *at++ = ' ';
        at = iovad_own_put_number(at, two);
    }
    return iovad_own_asked(session, at);
}

static inline uint64_t iovad_own_send(iovad_session *session) {
    int flags = MSG_NOSIGNAL | (session->within < 0 ? 0 : MSG_DONTWAIT);
    size_t sent = 0;
    if (session->lost)
        return session->lost;
    while (sent < session->unsent) {
        ssize_t count = send(session->fd, session->out + sent, session->unsent - sent, flags);
        if (count > 0)
            sent += (size_t)count;
        else if (count < 0 && session->within >= 0 && (errno == EAGAIN || errno == EWOULDBLOCK)) {
            if (iovad_own_wait(session, POLLOUT))
                return session->lost;
        } else if (count == 0 || errno != EINTR)
            return iovad_own_lose(session, IOVAD_BROKEN);
    }
    session->unsent = 0;
    session->sent = session->in_flight;
    return 0;
}

/* Sends what was asked and not sent. */
static inline uint64_t iovad_send(iovad_session *session) {
    session->until = 0;
    return iovad_own_send(session);
}

/* Reads what has come behind the bytes that are at hand, and waits for it. With `has_none` it doesn't wait, and
 * `*has_none` is 1 where there was nothing. */
static inline uint64_t iovad_own_read(iovad_session *session, int *has_none) {
    if (session->at == session->end)
        session->at = session->end = 0;
    if (session->at > 0 && session->end == sizeof session->in) {
        memmove(session->in, session->in + session->at, session->end - session->at);
        session->end -= session->at;
        session->at = 0;
    }
    if (session->end == sizeof session->in)
        return iovad_own_lose(session, IOVAD_MALFORMED); /* no answer has so long a line */
    for (;;) {
        ssize_t count;
        if (!has_none && iovad_own_wait(session, POLLIN))
            return session->lost;
        count = recv(session->fd, session->in + session->end, sizeof session->in - session->end,
                     has_none ? MSG_DONTWAIT : 0);
        if (count > 0) {
            session->end += (size_t)count;
            return 0;
        }
        if (count == 0)
            return iovad_own_lose(session, IOVAD_ENDED);
        if (has_none && (errno == EAGAIN || errno == EWOULDBLOCK)) {
            *has_none = 1;
            return 0;
        }
        if (errno != EINTR)
            return iovad_own_lose(session, IOVAD_BROKEN);
    }
}

/* The next line, without its LF: from `*line` up to the address that is answered, or NULL with the error. */
static inline const char *iovad_own_line(iovad_session *session, const char **line, uint64_t *error) {
    size_t seen = session->at;
    for (;;) {
        const char *end = (const char *)memchr(session->in + seen, '\n', session->end - seen);
        if (end) {
            *line = session->in + session->at;
            session->at = (size_t)(end - session->in) + 1;
            *error = 0;
            return end;
        }
        seen = session->end - session->at;
        if ((session->unsent && (*error = iovad_own_send(session))) || (*error = iovad_own_read(session, NULL)))
            return NULL;
        seen += session->at;
    }
}

/* Whether the bytes from `*at` up to `end` begin with the word; then `*at` is behind it. */
static inline int iovad_own_word(const char **at, const char *end, const char *word) {
    size_t length = strlen(word);
    if ((size_t)(end - *at) < length || memcmp(*at, word, length) != 0)
        return 0;
    *at += length;
    return 1;
}

/* Whether they begin with a number in its one spelling, below 2^64, with a space before it where `spaced` isn't 0. */
static inline int iovad_own_number(const char **at, const char *end, int spaced, uint64_t *number) {
    const char *digit = *at;
    uint64_t value = 0;
    if (spaced && (digit == end || *digit++ != ' '))
        return 0;
    const char *first = digit;
    for (; digit < end && *digit >= '0' && *digit <= '9'; digit++) {
        unsigned next = (unsigned)(*digit - '0');
        if (value > (UINT64_MAX - next) / 10)
            return 0;
        value = value * 10 + next;
    }
    if (digit == first || (*first == '0' && digit - first > 1))
        return 0;
    *at = digit;
    *number = value;
    return 1;
}

/* Takes the answer to a request of the kind: a refusal, or the word with so many numbers. `second` is another word that
 * it may have in the place of the first, and `*is_second` says whether it has. */
static inline uint64_t iovad_own_take(iovad_session *session, enum iovad_own_kind kind, const char *word,
                                      const char *second, int *is_second, uint64_t *numbers, int count) {
    const char *at, *end;
    uint64_t error;
    if (session->lost)
        return session->lost;
    if (session->in_flight == 0 || session->asked[session->first] != (unsigned char)kind)
        return IOVAD_NOT_ASKED;
    session->until = session->first_until;
    session->first_until = 0;
    if (session->sent == 0 && iovad_own_send(session))
        return session->lost;
    end = iovad_own_line(session, &at, &error);
    if (!end)
        return error;
    session->first = (session->first + 1) % IOVAD_IN_FLIGHT;
    session->in_flight--;
    session->sent--;
    if (iovad_own_word(&at, end, "no ")) {
        int is_number = iovad_own_number(&at, end, 0, &error) && error > 0 && error < IOVAD_BAD_PATH;
        if (!is_number || end - at < 2 || *at++ != ' ')
            return iovad_own_lose(session, IOVAD_MALFORMED);
        for (; at < end; at++)
            if (!((*at >= 'A' && *at <= 'Z') || (*at >= 'a' && *at <= 'z')))
                return iovad_own_lose(session, IOVAD_MALFORMED);
        return error;
    }
    if (second)
        *is_second = iovad_own_word(&at, end, second);
    if (!(second && *is_second) && !iovad_own_word(&at, end, word))
        return iovad_own_lose(session, IOVAD_MALFORMED);
    for (int which = 0; which < count; which++)
        if (!iovad_own_number(&at, end, 1, &numbers[which]))
            return iovad_own_lose(session, IOVAD_MALFORMED);
    return at == end ? 0 : iovad_own_lose(session, IOVAD_MALFORMED);
}

/* A session over a connection that there is, whose answers are waited for as long as it takes. */
static inline void iovad_over(iovad_session *session, int fd) {
    session->fd = fd;
    session->lost = 0;
    session->within = -1;
    session->until = session->first_until = 0;
    session->first = session->in_flight = session->sent = 0;
    session->unsent = session->at = session->end = 0;
}

/* From now on each call waits at most so many milliseconds for its answer; below 0, as long as it takes. A flush, a
 * free in a strict domain and one at a full ring may take as long as the daemon's `--sink-timeout`. */
static inline void iovad_within(iovad_session *session, int milliseconds) {
    session->within = milliseconds < 0 ? -1 : milliseconds;
}

/* The descriptor of a session, to be polled and no more: it can be read where an answer has come, or the end. -1 where
 * the session is closed. */
static inline int iovad_session_fd(const iovad_session *session) { return session->fd; }

/* 1 where the next answer is at hand, of a list its first line, so that taking it doesn't wait; what has come is read
 * for that, and nothing is waited for. 1 too where the session is lost, which the next take tells. 0 else, and where
 * nothing was sent: iovad_send sends what was asked. */
static inline int iovad_has_answer(iovad_session *session) {
    int has_none = 0;
    while (!session->lost && session->sent > 0 && !has_none) {
        if (memchr(session->in + session->at, '\n', session->end - session->at))
            return 1;
        iovad_own_read(session, &has_none);
    }
    return session->lost != 0;
}

static inline void iovad_own_bound(int fd, int seconds, int microseconds) {
    struct timeval time;
    time.tv_sec = seconds;
    time.tv_usec = microseconds;
    setsockopt(fd, SOL_SOCKET, SO_SNDTIMEO, &time, sizeof time);
}

/* Connects to the daemon at the path, within so many milliseconds; below 0, as long as it takes, which is long where
 * the daemon's queue is full. IOVAD_BAD_PATH, IOVAD_NO_DAEMON, IOVAD_TIMED_OUT. Then `hello` is to be asked: each
 * answer has as long, or what iovad_within says. */
static inline uint64_t iovad_connect_within(iovad_session *session, const char *path, int milliseconds) {
    struct sockaddr_un to;
    size_t length = strlen(path);
    iovad_over(session, -1);
    iovad_within(session, milliseconds);
    if (length == 0 || length >= sizeof to.sun_path)
        return iovad_own_lose(session, IOVAD_BAD_PATH);
    memset(&to, 0, sizeof to);
    to.sun_family = AF_UNIX;
    memcpy(to.sun_path, path, length);
    session->fd = socket(AF_UNIX, SOCK_STREAM | SOCK_CLOEXEC, 0);
    if (session->fd < 0)
        return iovad_own_lose(session, IOVAD_NO_DAEMON);
    for (;;) {
        int why, left = iovad_own_left(session);
        /* how long a full queue is waited for is the time of a send, of which 0 is no end */
        if (left >= 0)
            iovad_own_bound(session->fd, left / 1000, left > 0 ? left % 1000 * 1000 : 1);
        if (connect(session->fd, (const struct sockaddr *)(const void *)&to, sizeof to) == 0) {
            if (left >= 0)
                iovad_own_bound(session->fd, 0, 0);
            return 0;
        }
        why = errno;
        if (why == EINTR)
            continue;
        close(session->fd);
        session->fd = -1;
        if (left >= 0 && (why == EAGAIN || why == EWOULDBLOCK))
            return iovad_own_late(session);
        errno = why;
        return iovad_own_lose(session, IOVAD_NO_DAEMON);
    }
}

/* The same without an end of the time. */
static inline uint64_t iovad_connect(iovad_session *session, const char *path) {
    return iovad_connect_within(session, path, -1);
}

/* Ends a session, in whatever state it is: the daemon closes the client, and all that it holds waits for a flush. */
static inline void iovad_close(iovad_session *session) {
    if (session->fd >= 0)
        close(session->fd);
    session->fd = -1;
    session->lost = IOVAD_ENDED;
}

/* Asking without waiting: 0, IOVAD_FULL, or the error by which the session is lost. */

/* A client in the domain. Where `sac` isn't 0, a place below 4 GiB is tried first. It is a session's first request. */
static inline uint64_t iovad_ask_hello(iovad_session *session, uint64_t domain, uint64_t sac) {
    uint64_t error;
    char *at = iovad_own_ask(session, IOVAD_OWN_HELLO, &error);
    if (!at)
        return error;
    at = iovad_own_put_number(iovad_own_put(at, "hello iova1 ", 12), domain);
    return iovad_own_asked(session, iovad_own_put(at, sac ? " sac" : " dac", 4));
}

/* So many frames, none above frame `limit`. */
static inline uint64_t iovad_ask_alloc(iovad_session *session, uint64_t frames, uint64_t limit) {
    return iovad_own_request(session, IOVAD_OWN_ALLOC, "alloc", 2, frames, limit);
}

/* The device has stopped using the range that begins at `lo`. */
static inline uint64_t iovad_ask_free(iovad_session *session, uint64_t lo) {
    return iovad_own_request(session, IOVAD_OWN_FREE, "free", 1, lo, 0);
}

/* The ranges that the client holds. */
static inline uint64_t iovad_ask_list(iovad_session *session) {
    return iovad_own_request(session, IOVAD_OWN_LIST, "list", 0, 0, 0);
}

/* A flush now. */
static inline uint64_t iovad_ask_flush(iovad_session *session) {
    return iovad_own_request(session, IOVAD_OWN_FLUSH, "flush", 0, 0, 0);
}

/* How many frames are where. */
static inline uint64_t iovad_ask_stat(iovad_session *session) {
    return iovad_own_request(session, IOVAD_OWN_STAT, "stat", 0, 0, 0);
}

/* Taking the next answer, which is waited for: IOVAD_NOT_ASKED where it is to another request. */

static inline iovad_opened iovad_take_hello(iovad_session *session) {
    iovad_opened opened = {0, 0};
    uint64_t error = iovad_own_take(session, IOVAD_OWN_HELLO, "opened", NULL, NULL, &opened.number, 1);
    if (error)
        opened.number = 0;
    opened.error = error;
    return opened;
}

static inline iovad_range iovad_take_alloc(iovad_session *session) {
    iovad_range range = {0, 0, 0, 0};
    uint64_t numbers[2] = {0, 0};
    range.error = iovad_own_take(session, IOVAD_OWN_ALLOC, "given", NULL, NULL, numbers, 2);
    if (!range.error) {
        range.lo = numbers[0];
        range.len = numbers[1];
    }
    return range;
}

static inline iovad_range iovad_take_free(iovad_session *session) {
    iovad_range range = {0, 0, 0, 0};
    uint64_t numbers[2] = {0, 0};
    int freed = 0;
    range.error = iovad_own_take(session, IOVAD_OWN_FREE, "queued", "freed", &freed, numbers, 2);
    if (!range.error) {
        range.lo = numbers[0];
        range.len = numbers[1];
        range.freed = (uint64_t)freed;
    }
    return range;
}

/* Writes the ranges into the list, rising by first frame, as many as `room` says at most. `count` may be more. */
static inline iovad_held iovad_take_list(iovad_session *session, iovad_listed *list, size_t room) {
    iovad_held held = {0, 0};
    uint64_t count = 0;
    held.error = iovad_own_take(session, IOVAD_OWN_LIST, "held", NULL, NULL, &count, 1);
    for (uint64_t which = 0; !held.error && which < count; which++) {
        const char *at, *end = iovad_own_line(session, &at, &held.error);
        iovad_listed range = {0, 0};
        if (!end)
            break;
        if (!iovad_own_number(&at, end, 0, &range.lo) || !iovad_own_number(&at, end, 1, &range.len) || at != end)
            held.error = iovad_own_lose(session, IOVAD_MALFORMED);
        else if (which < room)
            list[which] = range;
    }
    held.count = held.error ? 0 : count;
    return held;
}

static inline iovad_flushed iovad_take_flush(iovad_session *session) {
    iovad_flushed flushed = {0, 0, 0};
    uint64_t numbers[2] = {0, 0};
    flushed.error = iovad_own_take(session, IOVAD_OWN_FLUSH, "flushed", NULL, NULL, numbers, 2);
    if (!flushed.error) {
        flushed.number = numbers[0];
        flushed.ranges = numbers[1];
    }
    return flushed;
}

static inline iovad_counts iovad_take_stat(iovad_session *session) {
    iovad_counts counts = {0, 0, 0, 0, 0, 0, 0, 0, 0};
    uint64_t numbers[8] = {0, 0, 0, 0, 0, 0, 0, 0};
    counts.error = iovad_own_take(session, IOVAD_OWN_STAT, "stat", NULL, NULL, numbers, 8);
    if (!counts.error) {
        counts.free = numbers[0];
        counts.reserved = numbers[1];
        counts.client = numbers[2];
        counts.magazine = numbers[3];
        counts.depot = numbers[4];
        counts.ring = numbers[5];
        counts.start = numbers[6];
        counts.finish = numbers[7];
    }
    return counts;
}

/* Asking and waiting: as above, and IOVAD_BUSY where requests are in flight. */

static inline uint64_t iovad_own_idle(const iovad_session *session) {
    return session->lost ? session->lost : session->in_flight ? (uint64_t)IOVAD_BUSY : 0;
}

static inline iovad_opened iovad_hello(iovad_session *session, uint64_t domain, uint64_t sac) {
    iovad_opened opened = {iovad_own_idle(session), 0};
    if (opened.error || (opened.error = iovad_ask_hello(session, domain, sac)))
        return opened;
    return iovad_take_hello(session);
}

/* Connects, and opens a client, both within so many milliseconds; below 0, as long as it takes. Each answer behind it
 * has as long, or what iovad_within says. Where it fails the session is closed. */
static inline iovad_opened iovad_open_within(iovad_session *session, const char *path, uint64_t domain, uint64_t sac,
                                             int milliseconds) {
    iovad_opened opened = {iovad_connect_within(session, path, milliseconds), 0};
    if (!opened.error) {
        session->first_until = session->until;
        opened = iovad_hello(session, domain, sac);
    }
    if (opened.error) {
        int why = errno;
        iovad_close(session);
        errno = why;
    }
    return opened;
}

/* The same without an end of the time. */
static inline iovad_opened iovad_open(iovad_session *session, const char *path, uint64_t domain, uint64_t sac) {
    return iovad_open_within(session, path, domain, sac, -1);
}

static inline iovad_range iovad_alloc(iovad_session *session, uint64_t frames, uint64_t limit) {
    iovad_range range = {iovad_own_idle(session), 0, 0, 0};
    if (range.error || (range.error = iovad_ask_alloc(session, frames, limit)))
        return range;
    return iovad_take_alloc(session);
}

static inline iovad_range iovad_free(iovad_session *session, uint64_t lo) {
    iovad_range range = {iovad_own_idle(session), 0, 0, 0};
    if (range.error || (range.error = iovad_ask_free(session, lo)))
        return range;
    return iovad_take_free(session);
}

static inline iovad_held iovad_list(iovad_session *session, iovad_listed *list, size_t room) {
    iovad_held held = {iovad_own_idle(session), 0};
    if (held.error || (held.error = iovad_ask_list(session)))
        return held;
    return iovad_take_list(session, list, room);
}

static inline iovad_flushed iovad_flush(iovad_session *session) {
    iovad_flushed flushed = {iovad_own_idle(session), 0, 0};
    if (flushed.error || (flushed.error = iovad_ask_flush(session)))
        return flushed;
    return iovad_take_flush(session);
}

static inline iovad_counts iovad_stat(iovad_session *session) {
    iovad_counts counts = {iovad_own_idle(session), 0, 0, 0, 0, 0, 0, 0, 0};
    if (counts.error || (counts.error = iovad_ask_stat(session)))
        return counts;
    return iovad_take_stat(session);
}

/* Says `bye`, waits for its answer, and closes the session, also where that fails. */
static inline uint64_t iovad_bye(iovad_session *session) {
    uint64_t error = iovad_own_idle(session);
    if (!error)
        error = iovad_own_request(session, IOVAD_OWN_BYE, "bye", 0, 0, 0);
    if (!error)
        error = iovad_own_take(session, IOVAD_OWN_BYE, "bye", NULL, NULL, NULL, 0);
    iovad_close(session);
    return error;
}

#ifdef IOVA_H

/* A cache of ranges before a session, for one thread at a time: most requests and frees are met here, at the speed of
 * memory, and the daemon is asked for 64 ranges by requests in flight where there are none, and to flush where half of
 * 255 ranges that were freed wait. Whatever is in the cache is the client's, as the daemon sees it: its `list` and a
 * peer's `gone` name it too.
 *
 *   #include <iova.h>
 *   #include <iova_client.h>
 *
 *   iovad_cache cache;
 *   iovad_opened opened = iovad_cache_open(&cache, "/tmp/iovad.socket", 0, 0);
 *   iovad_range buffer = iovad_cache_alloc(&cache, 3, UINT64_MAX);
 *   .. map, let the device use it, unmap ..
 *   iovad_cache_free(&cache, buffer.lo);
 *   iovad_cache_close(&cache);
 *
 * The daemon is started with --session-requests 0: else a session ends after 65,536 requests, and all that the cache
 * has is lost with it. A cache isn't for a domain that is strict, whose frees are to be flushed when they are
 * answered: where that is seen iovad_cache_open is refused by IOVAD_STRICT.
 *
 * Each call answers the error of a lost session, from the call on that finds it lost: one that asks the daemon, or one
 * that looks at the socket. A call looks if 64 calls have passed since the last look. The daemon gives the client's
 * ranges to others once its peer has answered: iovad_cache_reopen begins a new client, and lists what the user held. The
 * bound that remains: between the end of a session and the next look at most 64 calls are answered from the cache, and
 * others may hold these frames too.
 *
 * A daemon with --idle SECONDS ends a session that sends nothing for so long, and a cache may send nothing for long.
 * iovad_cache_keep_alive(&cache, SECONDS) makes the looks send `stat` often enough. A program without calls can't stay
 * alive so: its timer calls iovad_cache_look, at least once in a third of SECONDS.
 *
 * A cache stays with the process that opened it. In a child made by fork(2) each call answers IOVAD_FORKED, and
 * iovad_cache_close ends the child's copy alone; the child opens a cache of its own. vfork, _Fork and a clone(2) of the
 * program's own run no handler of pthread_atfork, so there the program itself must not use the cache. A cache takes
 * memory by malloc, and may be moved as bytes between calls.
 *
 * What a range that is freed waits for: `begun` counts the flushes that were asked for, and is its number; `ended` is
 * that of the last one that was answered by `flushed`. A flush begins in the daemon behind its request, so one of a
 * greater number began after the range was freed here. */

/* A flush is asked for, and not waited for, at the first look behind so many frees since the last such request. */
#define IOVAD_CACHE_AHEAD 128

/* The calls of a cache between two looks at its socket, at most. */
#define IOVAD_CACHE_LOOKS 64

/* What is in it is for the functions below alone, but that iovad_within may be called on `session`. */
typedef struct iovad_cache {
    iovad_session session;
    iova_cache ranges;
    struct iovad_own_watch *watch;
    uint64_t begun, ended, since, clean, domain, sac;
    int is_flushing; /* the answer to the last flush is the next one to come */
    int milliseconds;
    int idle;  /* the milliseconds of the daemon's --idle; 0: none, or not known */
    int calls; /* between the last look and the next one, where `idle` is known */
    int64_t looked, asked; /* when: the last look, and the last `stat` for it */
    char path[sizeof(((struct sockaddr_un *)0)->sun_path)];
} iovad_cache;

/* How many ranges are where: with the user, waiting for a flush, and here with nobody. */
typedef struct iovad_cached {
    uint64_t error, held, waiting, cached;
} iovad_cached;

#define IOVAD_OWN_LIKELY(is) __builtin_expect(!!(is), 1)
/* What is seldom called stands apart, so that the rest is short; where nobody calls it it is left out. */
#ifdef __OPTIMIZE__
#define IOVAD_OWN_COLD __attribute__((noinline, cold, unused)) static
#else
#define IOVAD_OWN_COLD static inline
#endif

enum { IOVAD_OWN_ORDERS = 6, IOVAD_OWN_MAGAZINE = 256, IOVAD_OWN_RING = 255, IOVAD_OWN_EXCHANGED = 64,
       IOVAD_OWN_FRAMES = 32 };

/* What a call subtracts from `quick`, a free one less; and the value by which no call is quick. */
enum { IOVAD_OWN_CALL = 1 << 16, IOVAD_OWN_NONE = -IOVAD_OWN_CALL };

#ifdef POLLRDHUP
#define IOVAD_OWN_HANGUP POLLRDHUP
#else
#define IOVAD_OWN_HANGUP 0x2000 /* strict C11 has no name for it; the end of both directions is seen without it */
#endif

/* What the quick calls of an open cache look at. It lies in memory of its own, so that a forked child finds it wherever
 * the cache lies, and also where the cache was never closed. */
struct iovad_own_watch {
    char apart[64]; /* no other number lies in the processor's line with `quick` */
    int64_t quick;  /* the calls until the next look by IOVAD_OWN_CALL, and below that how many of them were frees */
    int is_forked;  /* this process is a child of the cache's */
    int fd;         /* the session's, which the child closes */
    struct iovad_own_watches *in;
    struct iovad_own_watch *next, **at;
    char behind[64];
};

/* The watches of the caches that this file of the program opened. */
struct iovad_own_watches {
    pthread_mutex_t lock;
    struct iovad_own_watch *first;
    int has_handlers;
};

static struct iovad_own_watches iovad_own_watches __attribute__((unused)) = {PTHREAD_MUTEX_INITIALIZER, NULL, 0};

/* The watch of a cache that isn't open: no call is quick. */
static struct iovad_own_watch iovad_own_closed __attribute__((unused));

IOVAD_OWN_COLD void iovad_own_fork_begins(void) { pthread_mutex_lock(&iovad_own_watches.lock); }

IOVAD_OWN_COLD void iovad_own_fork_ended(void) { pthread_mutex_unlock(&iovad_own_watches.lock); }

/* In the child: no cache that is open is its own. It closes its copies of the connections, so that the daemon sees the
 * end of the parent. */
IOVAD_OWN_COLD void iovad_own_is_child(void) {
    struct iovad_own_watch *watch;
    for (watch = iovad_own_watches.first; watch; watch = watch->next) {
        if (watch->fd >= 0)
            close(watch->fd);
        watch->fd = -1;
        watch->is_forked = 1;
        watch->quick = IOVAD_OWN_NONE;
    }
    pthread_mutex_unlock(&iovad_own_watches.lock);
}

/* A watch for a cache that is opened; the closed one without memory. */
IOVAD_OWN_COLD struct iovad_own_watch *iovad_own_begin_watch(void) {
    struct iovad_own_watches *all = &iovad_own_watches;
    struct iovad_own_watch *watch = (struct iovad_own_watch *)malloc(sizeof *watch);
    int is_watched;
    if (!watch)
        return &iovad_own_closed;
    watch->quick = IOVAD_OWN_NONE;
    watch->is_forked = 0;
    watch->fd = -1;
    watch->in = all;
    pthread_mutex_lock(&all->lock);
    if (!all->has_handlers)
        all->has_handlers = !pthread_atfork(iovad_own_fork_begins, iovad_own_fork_ended, iovad_own_is_child);
    is_watched = all->has_handlers;
    if (is_watched) {
        watch->next = all->first;
        watch->at = &all->first;
        if (watch->next)
            watch->next->at = &watch->next;
        all->first = watch;
    }
    pthread_mutex_unlock(&all->lock);
    if (is_watched)
        return watch;
    free(watch);
    return &iovad_own_closed;
}

/* The descriptor that a child closes. */
IOVAD_OWN_COLD void iovad_own_watch_fd(struct iovad_own_watch *watch, int fd) {
    pthread_mutex_lock(&watch->in->lock);
    watch->fd = fd;
    pthread_mutex_unlock(&watch->in->lock);
}

IOVAD_OWN_COLD void iovad_own_end_watch(iovad_cache *cache) {
    struct iovad_own_watch *watch = cache->watch;
    cache->watch = &iovad_own_closed;
    if (!watch->in)
        return; /* a closed one, maybe that of another file */
    pthread_mutex_lock(&watch->in->lock);
    *watch->at = watch->next;
    if (watch->next)
        watch->next->at = watch->at;
    pthread_mutex_unlock(&watch->in->lock);
    free(watch);
}

static inline iovad_range iovad_own_range(uint64_t error, uint64_t lo, uint64_t len) {
    iovad_range range;
    range.error = error;
    range.lo = error ? 0 : lo;
    range.len = error ? 0 : len;
    range.freed = 0;
    return range;
}

/* Takes the answer to the flush that was asked for, if there is one. */
static inline uint64_t iovad_own_flushed(iovad_cache *cache) {
    uint64_t error;
    if (!cache->is_flushing)
        return cache->session.lost;
    error = iovad_take_flush(&cache->session).error;
    cache->is_flushing = 0;
    if (!error)
        cache->ended = cache->begun;
    return error;
}

/* Asks for a flush, unless one is on its way. Its number is above that of all that was freed before. */
IOVAD_OWN_COLD uint64_t iovad_own_ask_flush(iovad_cache *cache) {
    uint64_t error = cache->is_flushing ? 0 : iovad_ask_flush(&cache->session);
    if (error || cache->is_flushing)
        return error;
    cache->begun++;
    cache->is_flushing = 1;
    cache->since = 0;
    return iovad_send(&cache->session);
}

/* What flushes have covered leaves the cache's ring. Answers how many ranges. */
static inline uint64_t iovad_own_settle(iovad_cache *cache) {
    uint64_t count = iova_cache_settle(&cache->ranges, cache->ended).number;
    cache->clean = count < cache->clean ? cache->clean - count : 0;
    return count;
}

/* A look keeps the session alive where the daemon's --idle is known: by a `stat` that is waited for, once a third of that
 * time has passed. Calls that come slowly look sooner, so that at most a sixth of it lies between two looks. */
IOVAD_OWN_COLD void iovad_own_keep_alive(iovad_cache *cache) {
    int64_t now = iovad_own_now(), passed = now - cache->looked, most = cache->idle / 6;
    cache->looked = now;
    if (passed > most)
        cache->calls = (int)(cache->calls * most / passed);
    else if (cache->calls < IOVAD_CACHE_LOOKS)
        cache->calls *= 2;
    if (cache->calls < 1)
        cache->calls = 1;
    if (now - cache->asked > cache->idle / 3) {
        iovad_own_flushed(cache);
        iovad_stat(&cache->session);
        cache->asked = now;
    }
}

/* Looks at the socket: an end that the daemon has made loses the session. */
IOVAD_OWN_COLD void iovad_own_look(iovad_cache *cache) {
    struct pollfd polled = {cache->session.fd, IOVAD_OWN_HANGUP, 0};
    if (poll(&polled, 1, 0) > 0)
        iovad_own_lose(&cache->session, IOVAD_ENDED);
    else if (cache->idle)
        iovad_own_keep_alive(cache);
    cache->watch->quick = (int64_t)cache->calls * IOVAD_OWN_CALL;
}

/* Begins a call that isn't quick: counts the frees that were, asks for a flush behind enough of them, and looks where a
 * look is due. Answers the error by which the session is lost. */
IOVAD_OWN_COLD uint64_t iovad_own_begin(iovad_cache *cache) {
    struct iovad_own_watch *watch = cache->watch;
    uint64_t frees = (uint64_t)watch->quick % IOVAD_OWN_CALL;
    cache->since += frees;
    watch->quick -= (int64_t)frees;
    if (watch->is_forked) {
        cache->session.fd = -1; /* which the child has closed */
        iovad_own_lose(&cache->session, IOVAD_FORKED);
    }
    if (!cache->session.lost && watch->quick < 0)
        iovad_own_look(cache);
    if (!cache->session.lost && cache->since >= IOVAD_CACHE_AHEAD)
        iovad_own_ask_flush(cache);
    if (cache->session.lost)
        watch->quick = IOVAD_OWN_NONE;
    return cache->session.lost;
}

/* Ends it: no call is quick in a session that is lost. Answers the error. */
static inline uint64_t iovad_own_end(iovad_cache *cache) {
    if (cache->session.lost)
        cache->watch->quick = IOVAD_OWN_NONE;
    return cache->session.lost;
}

/* The same of a call that answers a range: the loss of the session stands for each other refusal. */
static inline iovad_range iovad_own_ended(iovad_cache *cache, iovad_range range) {
    return iovad_own_end(cache) && range.error ? iovad_own_range(cache->session.lost, 0, 0) : range;
}

/* A flush of all that waits here, which is waited for. */
IOVAD_OWN_COLD uint64_t iovad_own_flush(iovad_cache *cache) {
    uint64_t error;
    iovad_own_flushed(cache);
    error = iovad_own_ask_flush(cache);
    return error ? error : iovad_own_flushed(cache);
}

/* Fills the magazines by up to so many ranges, of which there were none, by requests in flight. Answers how many, or
 * the error of the first that wasn't given. */
IOVAD_OWN_COLD uint64_t iovad_own_refill(iovad_cache *cache, uint64_t frames, uint64_t limit, uint64_t most,
                                         uint64_t *count) {
    uint64_t asked = 0, answered = 0, error = 0;
    *count = 0;
    for (;;) {
        for (; asked < most && !error && cache->session.in_flight < IOVAD_IN_FLIGHT; asked++)
            if ((error = iovad_ask_alloc(&cache->session, frames, limit)))
                break;
        iovad_own_flushed(cache);
        if (answered == asked)
            return error;
        iovad_range range = iovad_take_alloc(&cache->session);
        answered++;
        if (range.error)
            error = range.error;
        else if (iova_cache_put(&cache->ranges, range.lo, range.len))
            error = iovad_own_lose(&cache->session, IOVAD_MALFORMED); /* no range of a request up to 32 frames */
        else
            ++*count;
    }
}

/* Gives the daemon ranges of an order back, the newest first, up to so many, by requests in flight. What it refuses is
 * back in its magazine. Answers how many went. */
IOVAD_OWN_COLD uint64_t iovad_own_spill(iovad_cache *cache, uint64_t order, uint64_t most) {
    uint64_t gone = 0;
    int flushes = 0;
    while (gone < most) {
        iova_range taken[IOVAD_IN_FLIGHT];
        uint64_t asked = 0, went = 0, at, error = iovad_own_flushed(cache) ? cache->session.lost : 0;
        while (!error && asked < IOVAD_IN_FLIGHT && gone + asked < most) {
            taken[asked] = iova_cache_take(&cache->ranges, order);
            if (taken[asked].refused)
                break;
            error = iovad_ask_free(&cache->session, taken[asked].lo);
            if (error)
                iova_cache_put(&cache->ranges, taken[asked].lo, taken[asked].len);
            else
                asked++;
        }
        for (at = 0; at < asked; at++) {
            uint64_t refused = iovad_take_free(&cache->session).error;
            if (refused)
                iova_cache_put(&cache->ranges, taken[at].lo, taken[at].len);
            else
                went++;
            error = refused ? refused : error;
        }
        gone += went;
        flushes = went ? 0 : flushes + 1;
        if (asked == 0 || (error && (error != IOVA_RING_FULL || flushes > 4 || iovad_own_flush(cache))))
            break;
    }
    return gone;
}

/* Gives back all that nobody uses and that waits for no flush. */
IOVAD_OWN_COLD void iovad_own_give_back(iovad_cache *cache) {
    uint64_t moved = 1, order;
    while (moved) {
        iovad_own_settle(cache);
        for (moved = 0, order = 0; order < IOVAD_OWN_ORDERS; order++)
            moved += iovad_own_spill(cache, order, UINT64_MAX);
    }
}

/* A range of more than 32 frames, or one that the magazines don't have. There is room for it before the daemon is asked:
 * it would be in no place of the cache's where it couldn't be kept and the daemon didn't take it back. */
IOVAD_OWN_COLD iovad_range iovad_own_alloc_by(iovad_cache *cache, uint64_t frames, uint64_t limit) {
    iovad_range range = iovad_own_range(iova_cache_make_room(&cache->ranges), 0, 0);
    if (range.error)
        return range;
    iovad_own_flushed(cache);
    range = iovad_alloc(&cache->session, frames, limit);
    if (!range.error && iova_cache_keep(&cache->ranges, range.lo, range.len))
        range = iovad_own_range(iovad_own_lose(&cache->session, IOVAD_MALFORMED), 0, 0); /* no range of a request */
    return range;
}

/* A range of the magazines, once what is clean is in them; else of the daemon's. */
IOVAD_OWN_COLD iovad_range iovad_own_alloc_once(iovad_cache *cache, uint64_t frames, uint64_t limit, uint64_t most) {
    iova_range range = iova_cache_alloc(&cache->ranges, frames, limit);
    if ((range.refused == IOVA_DRY || range.refused == IOVA_MISS) && iovad_own_settle(cache))
        range = iova_cache_alloc(&cache->ranges, frames, limit);
    if (range.refused == IOVA_DRY) {
        uint64_t count, error = iovad_own_refill(cache, frames, limit, most, &count);
        if (!count || cache->session.lost)
            return iovad_own_range(error, 0, 0);
        range = iova_cache_alloc(&cache->ranges, frames, limit);
    }
    if (range.refused == IOVA_MISS || range.refused == IOVA_NO_ORDER)
        return iovad_own_alloc_by(cache, frames, limit);
    return iovad_own_range(range.refused, range.lo, range.len);
}

/* All that was given back to the daemon, by whomever, is to be had again: a flush, where its rings have something. */
IOVAD_OWN_COLD void iovad_own_recover(iovad_cache *cache) {
    iovad_counts counts;
    iovad_own_flushed(cache);
    counts = iovad_stat(&cache->session);
    if (counts.error || counts.ring)
        iovad_own_flush(cache);
}

/* What waits here is to be had again, a part of it. Answers how many ranges. */
IOVAD_OWN_COLD uint64_t iovad_own_recover_here(iovad_cache *cache) {
    uint64_t settled = iovad_own_settle(cache); /* the answer to a flush may have come */
    if (settled || !iova_cache_counts_of(&cache->ranges).waiting || iovad_own_flush(cache))
        return settled;
    return iovad_own_settle(cache);
}

/* The long way of a request, behind a look. */
IOVAD_OWN_COLD iovad_range iovad_own_request_range(iovad_cache *cache, uint64_t frames, uint64_t limit) {
    iovad_range range = iovad_own_range(0, 0, 0);
    int tries;
    for (tries = 0;; tries++) {
        range = iovad_own_alloc_once(cache, frames, limit, tries ? 1 : IOVAD_OWN_EXCHANGED);
        if ((range.error != IOVA_NO_SPACE && range.error != IOVA_HOLDINGS_FULL) || tries == 2)
            break;
        if (tries == 0 && iovad_own_recover_here(cache))
            continue; /* what waited here may do */
        iovad_own_give_back(cache);
        iovad_own_recover(cache);
        tries = 1;
    }
    return iovad_own_ended(cache, range);
}

IOVAD_OWN_COLD iovad_range iovad_own_cache_alloc(iovad_cache *cache, uint64_t frames, uint64_t limit) {
    iova_packed_range range;
    uint64_t error = iovad_own_begin(cache);
    if (error)
        return iovad_own_range(error, 0, 0);
    range = iova_cache_alloc_packed(&cache->ranges, frames, limit); /* a look was due */
    return range.len ? iovad_own_range(0, range.lo, range.len) : iovad_own_request_range(cache, frames, limit);
}

/* Makes room in the ring, which is full. Answers 0, or the error. */
IOVAD_OWN_COLD uint64_t iovad_own_make_room(iovad_cache *cache) {
    iova_cache_counts counts;
    uint64_t order, error;
    iovad_own_flushed(cache);
    if (iovad_own_settle(cache))
        return 0;
    if (!cache->clean) {
        error = iovad_own_flush(cache);
        if (error)
            return cache->session.lost ? cache->session.lost : (uint64_t)IOVA_RING_FULL;
        cache->clean = IOVAD_OWN_RING;
        if (iovad_own_settle(cache))
            return 0;
    }
    counts = iova_cache_counts_of(&cache->ranges); /* the oldest is clean, and its magazines are full */
    for (order = 0; order < IOVAD_OWN_ORDERS; order++)
        if (counts.magazines[order] >= IOVAD_OWN_MAGAZINE)
            iovad_own_spill(cache, order, IOVAD_OWN_EXCHANGED);
    return iovad_own_settle(cache) ? 0 : cache->session.lost ? cache->session.lost : (uint64_t)IOVA_RING_FULL;
}

/* A range of more than 32 frames is freed at the daemon's. */
IOVAD_OWN_COLD iovad_range iovad_own_free_by(iovad_cache *cache, uint64_t lo) {
    iovad_range range;
    int flushes = 0;
    do {
        iovad_own_flushed(cache);
        range = iovad_free(&cache->session, lo);
    } while (range.error == IOVA_RING_FULL && ++flushes <= 4 && !iovad_own_flush(cache));
    if (!range.error)
        iova_cache_release(&cache->ranges, lo);
    return range;
}

IOVAD_OWN_COLD iovad_range iovad_own_free_here(iovad_cache *cache, uint64_t lo) {
    iova_range range = iova_cache_unmap(&cache->ranges, lo, cache->begun);
    if (range.refused == IOVA_NO_ORDER)
        return iovad_own_free_by(cache, lo);
    if (range.refused == IOVA_RING_FULL) {
        uint64_t error = iovad_own_make_room(cache);
        if (error)
            return iovad_own_range(error, 0, 0);
        range = iova_cache_unmap(&cache->ranges, lo, cache->begun);
    }
    return iovad_own_range(range.refused, range.lo, range.len);
}

IOVAD_OWN_COLD iovad_range iovad_own_cache_free(iovad_cache *cache, uint64_t lo) {
    iova_packed_range packed;
    iovad_range range;
    uint64_t error = iovad_own_begin(cache);
    if (error)
        return iovad_own_range(error, 0, 0);
    packed = iova_cache_unmap_packed(&cache->ranges, lo, cache->begun); /* a look was due */
    if (packed.len)
        return iovad_own_range(0, packed.lo, packed.len);
    range = iovad_own_free_here(cache, lo);
    if ((range.error || range.len > IOVAD_OWN_FRAMES) && cache->since)
        cache->since--; /* it was counted as one that waits here */
    return iovad_own_ended(cache, range);
}

/* Connects, opens a client, and sees whether the domain is strict: there a free is answered `freed`. `*kept` is a range
 * that is the client's still, if its `len` isn't 0. */
static inline iovad_opened iovad_own_cache_connect(iovad_cache *cache, iovad_range *kept) {
    iovad_opened opened =
        iovad_open_within(&cache->session, cache->path, cache->domain, cache->sac, cache->milliseconds);
    memset(kept, 0, sizeof *kept);
    if (opened.error)
        return opened;
    *kept = iovad_alloc(&cache->session, 1, UINT64_MAX);
    if (kept->len > 1 || kept->lo >> 40)
        iovad_own_lose(&cache->session, IOVAD_MALFORMED); /* no range that a magazine takes */
    else if (kept->len) {
        iovad_range freed = iovad_free(&cache->session, kept->lo);
        if (!freed.error)
            kept->len = 0; /* else its ring is full, and the range is kept */
        if (freed.freed) {
            iovad_bye(&cache->session);
            opened.error = IOVAD_STRICT;
        }
    }
    if (!opened.error && cache->session.lost) {
        opened.error = cache->session.lost;
        iovad_close(&cache->session);
    }
    if (opened.error)
        opened.number = 0;
    else
        iovad_own_watch_fd(cache->watch, cache->session.fd);
    return opened;
}

/* Opens a cache, with a client of its own: iovad_open_within, and IOVA_NO_MEMORY (17) and IOVAD_STRICT. Where it fails
 * there is no cache, and nothing is to be closed. Whether a domain is strict isn't seen where it has no frame to give.
 */
static inline iovad_opened iovad_cache_open_within(iovad_cache *cache, const char *path, uint64_t domain, uint64_t sac,
                                                   int milliseconds) {
    iovad_opened opened = {0, 0};
    iovad_range kept;
    size_t length = strlen(path);
    iovad_over(&cache->session, -1);
    iovad_own_lose(&cache->session, IOVAD_ENDED);
    cache->watch = &iovad_own_closed;
    iova_cache_init(&cache->ranges);
    opened.error = length >= sizeof cache->path ? (uint64_t)IOVAD_BAD_PATH : iova_cache_apart(&cache->ranges, sac);
    if (opened.error)
        return opened;
    cache->watch = iovad_own_begin_watch();
    if (!cache->watch->in) {
        iova_cache_clear(&cache->ranges);
        opened.error = IOVA_NO_MEMORY;
        return opened;
    }
    memcpy(cache->path, path, length + 1);
    cache->begun = cache->ended = cache->since = cache->clean = 0;
    cache->is_flushing = cache->idle = 0;
    cache->calls = IOVAD_CACHE_LOOKS;
    cache->looked = cache->asked = 0;
    cache->domain = domain;
    cache->sac = sac;
    cache->milliseconds = milliseconds;
    opened = iovad_own_cache_connect(cache, &kept);
    if (opened.error) {
        iova_cache_clear(&cache->ranges);
        iovad_own_end_watch(cache);
    } else if (kept.len) {
        iova_cache_put(&cache->ranges, kept.lo, kept.len);
    }
    return opened;
}

/* The same without an end of the time. */
static inline iovad_opened iovad_cache_open(iovad_cache *cache, const char *path, uint64_t domain, uint64_t sac) {
    return iovad_cache_open_within(cache, path, domain, sac, -1);
}

/* Gives a range, as iovad_alloc does; but up to 32 frames it need not be the highest that fits. By HoldingsFull the
 * user itself has 4,096 ranges that it holds or that wait. */
static inline iovad_range iovad_cache_alloc(iovad_cache *cache, uint64_t frames, uint64_t limit) {
    if (IOVAD_OWN_LIKELY((cache->watch->quick -= IOVAD_OWN_CALL) >= 0)) {
        iova_packed_range range = iova_cache_alloc_packed(&cache->ranges, frames, limit);
        if (IOVAD_OWN_LIKELY(range.len))
            return iovad_own_range(0, range.lo, range.len);
    }
    return iovad_own_cache_alloc(cache, frames, limit);
}

/* Frees the range that begins at frame `lo`: the device has stopped using it, and its mapping is gone. NotHeld: the
 * user holds no range that begins there. RingFull: 255 wait, and flushes didn't help; the range is still held. */
static inline iovad_range iovad_cache_free(iovad_cache *cache, uint64_t lo) {
    if (IOVAD_OWN_LIKELY((cache->watch->quick -= IOVAD_OWN_CALL - 1) >= 0)) {
        iova_packed_range range = iova_cache_unmap_packed(&cache->ranges, lo, cache->begun);
        if (IOVAD_OWN_LIKELY(range.len))
            return iovad_own_range(0, range.lo, range.len);
    }
    return iovad_own_cache_free(cache, lo);
}

/* A flush now, of all that waits here: behind it the device reaches nothing of what was freed. Answers 0, or why it
 * failed. */
static inline uint64_t iovad_cache_flush(iovad_cache *cache) {
    uint64_t error = iovad_own_begin(cache);
    if (error)
        return error;
    error = iovad_own_flush(cache);
    iovad_own_settle(cache);
    iovad_own_end(cache);
    return error;
}

/* Looks at the socket now, without a wait; where iovad_cache_keep_alive was called and a third of its time has passed, a
 * `stat` is asked and waited for. Answers 0, or the error by which the session is lost. */
static inline uint64_t iovad_cache_look(iovad_cache *cache) {
    cache->watch->quick |= INT64_MIN;
    return iovad_own_begin(cache);
}

/* The daemon was started with --idle, of so many seconds; 0: without it, or it may end the session. A look is made now,
 * and from now on looks keep the session alive, also over iovad_cache_reopen. That takes calls: a program that pauses
 * for more than a third of that time calls iovad_cache_look meanwhile. */
static inline void iovad_cache_keep_alive(iovad_cache *cache, int seconds) {
    cache->idle = seconds <= 0 ? 0 : seconds < 86400 ? 1000 * seconds : 86400000;
    cache->calls = cache->idle ? 1 : IOVAD_CACHE_LOOKS;
    cache->looked = cache->asked = 0;
    iovad_cache_look(cache);
}

/* Gives back all that nobody uses and that waits for no flush, so that other clients may have it: for a client that
 * will be idle, or where others are refused by NoSpace. Answers 0, or the error by which the session is lost. */
static inline uint64_t iovad_cache_give_back(iovad_cache *cache) {
    if (!iovad_own_begin(cache)) {
        iovad_own_flushed(cache);
        iovad_own_give_back(cache);
        iovad_own_end(cache);
    }
    return cache->session.lost;
}

/* How many ranges are where, also where the session is lost. It walks over what the user holds. */
static inline iovad_cached iovad_cache_counts_of(iovad_cache *cache) {
    iovad_cached counts;
    iova_cache_counts own = iova_cache_counts_of(&cache->ranges);
    uint64_t order;
    counts.error = own.refused;
    counts.held = own.held;
    counts.waiting = own.waiting;
    for (order = counts.cached = 0; order < IOVAD_OWN_ORDERS; order++)
        counts.cached += own.magazines[order];
    return counts;
}

/* Begins a new client at the same path, where the session is lost; one that isn't is closed. What the user held is
 * written into the list, in no order, and answered is how many: it is the user's no more, and its mappings are to be
 * removed from the device. The errors of iovad_cache_open_within, and then the call may be made again, which lists it;
 * IOVAD_NO_ROOM where the list is shorter than that, and IOVAD_FORKED, and then nothing was done. */
static inline iovad_held iovad_cache_reopen(iovad_cache *cache, iovad_listed *list, size_t room) {
    iova_cache_counts counts = iova_cache_counts_of(&cache->ranges);
    iovad_held lost = {counts.refused ? counts.refused : counts.held > room ? (uint64_t)IOVAD_NO_ROOM : 0, 0};
    iova_cache fresh;
    iovad_range kept;
    uint64_t at;
    iova_cache_init(&fresh);
    if (iovad_own_begin(cache) == IOVAD_FORKED)
        lost.error = IOVAD_FORKED;
    if (!lost.error)
        lost.error = iova_cache_apart(&fresh, cache->sac);
    if (lost.error)
        return lost;
    iovad_own_watch_fd(cache->watch, -1);
    iovad_close(&cache->session);
    cache->watch->quick = IOVAD_OWN_NONE;
    cache->is_flushing = 0;
    lost.error = iovad_own_cache_connect(cache, &kept).error;
    if (lost.error) {
        iova_cache_clear(&fresh);
        return lost;
    }
    lost.count = counts.held;
    for (at = 0; at < lost.count; at++) {
        iova_range range = iova_cache_any(&cache->ranges); /* of the user's, as long as there is one */
        list[at].lo = range.lo;
        list[at].len = range.len;
    }
    iova_cache_clear(&cache->ranges);
    cache->ranges = fresh;
    if (kept.len)
        iova_cache_put(&cache->ranges, kept.lo, kept.len);
    cache->ended = cache->begun;
    cache->since = cache->clean = 0;
    cache->looked = cache->asked = 0;
    return lost;
}

/* Ends the client, also where the session is lost, and lets the cache go: all its ranges, those that the user holds
 * too, wait for a flush in the daemon. Answers as iovad_bye; in a forked child IOVAD_FORKED, and then only the child's
 * copy has ended. */
static inline uint64_t iovad_cache_close(iovad_cache *cache) {
    uint64_t error;
    iovad_own_begin(cache);
    iovad_own_flushed(cache);
    iovad_own_end_watch(cache);
    error = iovad_bye(&cache->session);
    iova_cache_clear(&cache->ranges);
    return error;
}

#endif

#ifdef __cplusplus
}
#endif

#endif

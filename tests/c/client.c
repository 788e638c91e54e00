/* The client of iova_client.h against a peer that isn't the daemon: what it sends, and what it makes of every kind of
 * answer, whole and cut into reads of one byte; malformed answers, streams that end early and links that break are
 * errors. */
#include "iova.h"
#include "iova_client.h"

#include <inttypes.h>
#include <stdio.h>

static int bad;

static void want(const char *what, uint64_t got, uint64_t is) {
    if (got != is) {
        printf("client: %s: %" PRIu64 ", wanted %" PRIu64 "\n", what, got, is);
        bad = 1;
    }
}

/* A session whose peer has written these bytes, so many a read, or as a stream where that is 0, and nothing more.
 * `*peer` is the peer's end. */
static iovad_session answered(const char *bytes, size_t count, size_t piece, int *peer) {
    iovad_session session;
    int ends[2];
    /* of a socket of packets a read gives what one write wrote */
    if (socketpair(AF_UNIX, piece ? SOCK_SEQPACKET : SOCK_STREAM, 0, ends)) {
        perror("socketpair");
        _exit(2);
    }
    for (size_t at = 0, each = piece ? piece : count; at < count; at += each)
        if (send(ends[1], bytes + at, count - at < each ? count - at : each, 0) < 0) {
            perror("send");
            _exit(2);
        }
    iovad_over(&session, ends[0]);
    *peer = ends[1];
    return session;
}

/* What the client has sent so far. */
static void want_sent(const char *what, int peer, const char *is) {
    char sent[IOVAD_IN_FLIGHT * 64];
    ssize_t count = recv(peer, sent, sizeof sent, MSG_DONTWAIT);
    if (count != (ssize_t)strlen(is) || memcmp(sent, is, strlen(is)) != 0) {
        printf("client: %s: sent '%.*s'\n", what, (int)(count < 0 ? 0 : count), sent);
        bad = 1;
    }
}

/* Each request and its answer. */
static void requests(size_t piece) {
    static const char answers[] = "opened 7\n"
                                  "given 1016 4\n"
                                  "given 18446744073709551615 0\n"
                                  "queued 1016 4\n"
                                  "freed 1016 4\n"
                                  "held 3\n1 2\n30 4\n500 6\n"
                                  "held 0\n"
                                  "flushed 7 12\n"
                                  "stat 1010 1 4 2 3 9 8 7\n"
                                  "no 6 NoSpace\n"
                                  "bye\n";
    int peer;
    iovad_session session = answered(answers, sizeof answers - 1, piece, &peer);
    want("asked hello", iovad_ask_hello(&session, 3, 1), 0);
    want("asked alloc", iovad_ask_alloc(&session, 3, 1023), 0);
    want("asked alloc", iovad_ask_alloc(&session, UINT64_MAX, UINT64_MAX), 0);
    want("asked free", iovad_ask_free(&session, 1016), 0);
    want("asked free", iovad_ask_free(&session, 0), 0);
    want("asked list", iovad_ask_list(&session), 0);
    want("asked list", iovad_ask_list(&session), 0);
    want("asked flush", iovad_ask_flush(&session), 0);
    want("asked stat", iovad_ask_stat(&session), 0);
    want("asked alloc", iovad_ask_alloc(&session, 1, 10), 0);
    iovad_opened opened = iovad_take_hello(&session);
    want("opened", opened.error, 0);
    want("opened: the number", opened.number, 7);
    want_sent("all requests", peer,
              "hello iova1 3 sac\nalloc 3 1023\nalloc 18446744073709551615 18446744073709551615\nfree 1016\nfree 0\n"
              "list\nlist\nflush\nstat\nalloc 1 10\n");
    want("another answer", iovad_take_stat(&session).error, IOVAD_NOT_ASKED);
    want("a call that waits", iovad_alloc(&session, 1, 1).error, IOVAD_BUSY);
    iovad_range range = iovad_take_alloc(&session);
    want("given", range.error, 0);
    want("given: lo", range.lo, 1016);
    want("given: len", range.len, 4);
    range = iovad_take_alloc(&session);
    want("given the last number", range.lo, UINT64_MAX);
    range = iovad_take_free(&session);
    want("queued", range.error + range.freed, 0);
    want("queued: lo", range.lo, 1016);
    range = iovad_take_free(&session);
    want("freed", range.error, 0);
    want("freed is told", range.freed, 1);
    want("freed: len", range.len, 4);
    iovad_listed list[4];
    memset(list, 0, sizeof list);
    iovad_held held = iovad_take_list(&session, list, 2);
    want("held", held.error, 0);
    want("held: the count", held.count, 3);
    want("held: the second", list[1].lo, 30);
    want("held: its length", list[1].len, 4);
    want("held: no third", list[2].lo, 0);
    held = iovad_take_list(&session, list, 4);
    want("held nothing", held.error + held.count, 0);
    iovad_flushed flushed = iovad_take_flush(&session);
    want("flushed", flushed.error, 0);
    want("flushed: the number", flushed.number, 7);
    want("flushed: the ranges", flushed.ranges, 12);
    iovad_counts counts = iovad_take_stat(&session);
    want("stat", counts.error, 0);
    want("stat: free", counts.free, 1010);
    want("stat: reserved", counts.reserved, 1);
    want("stat: client", counts.client, 4);
    want("stat: magazine", counts.magazine, 2);
    want("stat: depot", counts.depot, 3);
    want("stat: ring", counts.ring, 9);
    want("stat: start", counts.start, 8);
    want("stat: finish", counts.finish, 7);
    range = iovad_take_alloc(&session);
    want("refused", range.error, 6);
    want("refused: nothing else", range.lo + range.len, 0);
    want("none in flight", iovad_take_alloc(&session).error, IOVAD_NOT_ASKED);
    want("bye", iovad_bye(&session), 0);
    want_sent("bye", peer, "bye\n");
    want("closed", iovad_alloc(&session, 1, 1).error, IOVAD_ENDED);
    close(peer);
}

enum asked { HELLO, ALLOC, FREE, LIST, FLUSH, STAT };

/* The error of the answer to one request. */
static uint64_t error_of(iovad_session *session, enum asked what) {
    iovad_listed list[2];
    switch (what) {
    case HELLO:
        return iovad_hello(session, 0, 0).error;
    case ALLOC:
        return iovad_alloc(session, 1, 1).error;
    case FREE:
        return iovad_free(session, 1).error;
    case LIST:
        return iovad_list(session, list, 2).error;
    case FLUSH:
        return iovad_flush(session).error;
    default:
        return iovad_stat(session).error;
    }
}

static const struct row {
    enum asked what;
    const char *answer;
    uint64_t error;
} rows[] = {
    /* well formed */
    {HELLO, "opened 1\n", 0},
    {HELLO, "no 23 NoDomain\n", 23},
    {ALLOC, "no 99 SomethingNew\n", 99},
    {LIST, "held 1\n0 18446744073709551615\n", 0},
    /* another word */
    {HELLO, "given 1 1\n", IOVAD_MALFORMED},
    {ALLOC, "queued 1 1\n", IOVAD_MALFORMED},
    {FREE, "given 1 1\n", IOVAD_MALFORMED},
    {LIST, "bye\n", IOVAD_MALFORMED},
    {FLUSH, "freed 1 1\n", IOVAD_MALFORMED},
    {STAT, "opened 1\n", IOVAD_MALFORMED},
    {ALLOC, "givens 1 1\n", IOVAD_MALFORMED},
    {ALLOC, "give 1 1\n", IOVAD_MALFORMED},
    {ALLOC, "GIVEN 1 1\n", IOVAD_MALFORMED},
    {ALLOC, "\n", IOVAD_MALFORMED},
    /* too few numbers, too many, none, and other spellings */
    {ALLOC, "given 1\n", IOVAD_MALFORMED},
    {ALLOC, "given\n", IOVAD_MALFORMED},
    {ALLOC, "given \n", IOVAD_MALFORMED},
    {ALLOC, "given 1 1 1\n", IOVAD_MALFORMED},
    {ALLOC, "given 1 1 \n", IOVAD_MALFORMED},
    {ALLOC, "given  1 1\n", IOVAD_MALFORMED},
    {ALLOC, " given 1 1\n", IOVAD_MALFORMED},
    {ALLOC, "given 01 1\n", IOVAD_MALFORMED},
    {ALLOC, "given 1 +1\n", IOVAD_MALFORMED},
    {ALLOC, "given 1 -1\n", IOVAD_MALFORMED},
    {ALLOC, "given 1 0x1\n", IOVAD_MALFORMED},
    {ALLOC, "given 18446744073709551616 1\n", IOVAD_MALFORMED},
    {ALLOC, "given 99999999999999999999 1\n", IOVAD_MALFORMED},
    {ALLOC, "given 1 1\r\n", IOVAD_MALFORMED},
    {STAT, "stat 1 2 3 4 5 6 7\n", IOVAD_MALFORMED},
    {STAT, "stat 1 2 3 4 5 6 7 8 9\n", IOVAD_MALFORMED},
    /* refusals that are none */
    {ALLOC, "no 0 Zero\n", IOVAD_MALFORMED},
    {ALLOC, "no 100 BadPath\n", IOVAD_MALFORMED},
    {ALLOC, "no 6\n", IOVAD_MALFORMED},
    {ALLOC, "no 6 \n", IOVAD_MALFORMED},
    {ALLOC, "no 6 No Space\n", IOVAD_MALFORMED},
    {ALLOC, "no  6 NoSpace\n", IOVAD_MALFORMED},
    {ALLOC, "no NoSpace\n", IOVAD_MALFORMED},
    {ALLOC, "no\n", IOVAD_MALFORMED},
    /* lists */
    {LIST, "held 1\n1\n", IOVAD_MALFORMED},
    {LIST, "held 1\n1 1 1\n", IOVAD_MALFORMED},
    {LIST, "held 2\n1 1\nqueued 1 1\n", IOVAD_MALFORMED},
    {LIST, "held 2\n1 1\n", IOVAD_ENDED},
    {LIST, "held 18446744073709551615\n1 1\n2 2\n3 3\n", IOVAD_ENDED},
    /* the stream ends */
    {ALLOC, "", IOVAD_ENDED},
    {ALLOC, "g", IOVAD_ENDED},
    {ALLOC, "given 1 1", IOVAD_ENDED},
    {LIST, "held 1\n1 1", IOVAD_ENDED},
};

static void answers(void) {
    for (size_t at = 0; at < sizeof rows / sizeof rows[0]; at++)
        for (size_t piece = 1; piece <= 4096; piece *= 4096) {
            const struct row *row = &rows[at];
            int peer;
            iovad_session session = answered(row->answer, strlen(row->answer), piece, &peer);
            shutdown(peer, SHUT_WR);
            want(row->answer, error_of(&session, row->what), row->error);
            if (row->error >= IOVAD_BAD_PATH) {
                /* a session that is lost stays so */
                want(row->answer, error_of(&session, STAT), row->error);
                want(row->answer, iovad_ask_list(&session), row->error);
                want(row->answer, iovad_send(&session), row->error);
                want(row->answer, iovad_bye(&session), row->error);
            }
            iovad_close(&session);
            close(peer);
        }
}

/* A NUL in an answer, and a line that never ends. */
static void long_answers(void) {
    static char line[3 * 4096];
    int peer;
    iovad_session session = answered("given 1\0 1\n", 11, 11, &peer);
    want("a NUL", iovad_alloc(&session, 1, 1).error, IOVAD_MALFORMED);
    iovad_close(&session);
    close(peer);
    memset(line, '1', sizeof line);
    session = answered(line, sizeof line, 1000, &peer);
    want("a line without an end", iovad_alloc(&session, 1, 1).error, IOVAD_MALFORMED);
    iovad_close(&session);
    close(peer);
}

/* A list of more lines than a read gives, with a request behind it. */
static void long_list(void) {
    enum { COUNT = 4096 };
    static char lines[COUNT * 16];
    static iovad_listed list[COUNT];
    size_t length = (size_t)snprintf(lines, sizeof lines, "held %d\n", COUNT);
    for (int at = 0; at < COUNT; at++)
        length += (size_t)snprintf(lines + length, sizeof lines - length, "%d %d\n", 3 * at, at);
    length += (size_t)snprintf(lines + length, sizeof lines - length, "given 5 1\n");
    int peer;
    iovad_session session = answered(lines, length, 0, &peer);
    want("asked list", iovad_ask_list(&session), 0);
    want("asked alloc", iovad_ask_alloc(&session, 1, 5), 0);
    want("a long list", iovad_take_list(&session, list, COUNT).count, COUNT);
    for (uint64_t at = 0; at < COUNT; at++) {
        want("a range of it: lo", list[at].lo, 3 * at);
        want("a range of it: len", list[at].len, at);
    }
    want("what is behind it", iovad_take_alloc(&session).lo, 5);
    iovad_close(&session);
    close(peer);
}

/* 16 requests in flight and no more, again and again. */
static void in_flight(void) {
    static char lines[IOVAD_IN_FLIGHT * 16];
    size_t length = 0;
    int peer;
    iovad_session session = answered("", 0, 1, &peer);
    for (uint64_t round = 0; round < 5; round++) {
        length = 0;
        for (int at = 0; at < IOVAD_IN_FLIGHT; at++) {
            want("asked", iovad_ask_free(&session, round), 0);
            length += (size_t)snprintf(lines + length, sizeof lines - length, "queued %d 1\n", at);
        }
        want("one more", iovad_ask_free(&session, 1), IOVAD_FULL);
        want("bye among them", iovad_send(&session), 0);
        char sent[IOVAD_IN_FLIGHT * 8];
        want("one write for all", (uint64_t)recv(peer, sent, sizeof sent, 0), IOVAD_IN_FLIGHT * 7);
        want("the answers", (uint64_t)send(peer, lines, length, 0), length);
        for (uint64_t at = 0; at < IOVAD_IN_FLIGHT; at++) {
            iovad_range range = iovad_take_free(&session);
            want("an answer in order", range.lo + range.error, at);
            /* and another may be asked as soon as one was taken */
            if (round == 4 && at == 0)
                want("asked again", iovad_ask_stat(&session), 0);
        }
    }
    iovad_close(&session);
    close(peer);
}

/* Links that break, and paths where nobody listens. */
static void broken(void) {
    char path[300];
    int peer;
    iovad_session session = answered("", 0, 1, &peer);
    close(peer);
    want("a peer that is gone", iovad_alloc(&session, 1, 1).error, IOVAD_BROKEN);
    want("and stays gone", iovad_bye(&session), IOVAD_BROKEN);
    iovad_over(&session, -1);
    want("no connection", iovad_alloc(&session, 1, 1).error, IOVAD_BROKEN);
    want("an empty path", iovad_open(&session, "", 0, 0).error, IOVAD_BAD_PATH);
    memset(path, 'x', sizeof path);
    path[sizeof path - 1] = '\0';
    want("a path that is too long", iovad_open(&session, path, 0, 0).error, IOVAD_BAD_PATH);
    path[108] = '\0';
    want("a path of 108 bytes", iovad_connect(&session, path), IOVAD_BAD_PATH);
    path[107] = '\0';
    want("a path of 107 bytes", iovad_connect(&session, path), IOVAD_NO_DAEMON);
    want("nobody listens", iovad_open(&session, "/nowhere/iovad.socket", 0, 0).error, IOVAD_NO_DAEMON);
    want("why", (uint64_t)errno, ENOENT);
    iovad_close(&session);
    iovad_close(&session);
}

int main(void) {
    static const char *const names[] = {"BadPath",   "NoDaemon", "Broken", "Ended",
                                        "Malformed", "Full",     "Busy",   "NotAsked", "TimedOut",
                                        "Strict",    "NoRoom", "Forked"};
    requests(0);
    requests(4096);
    requests(7);
    requests(1);
    answers();
    long_answers();
    long_list();
    in_flight();
    broken();
    for (uint64_t error = 0; error <= UINT16_MAX; error++) {
        int is_own = error >= IOVAD_BAD_PATH && error <= IOVAD_FORKED;
        const char *name = is_own ? names[error - IOVAD_BAD_PATH] : "";
        if (error < IOVAD_BAD_PATH)
            name = iova_refusal_name(error);
        want("a name", (uint64_t)strcmp(iovad_error_name(error), name), 0);
    }
    return bad;
}

/* The side of bench/service that has a cache over the daemon in each thread, which is a client of its own (iova_client.h).
   The daemon's socket stands in the environment, IOVAD_SOCKET. */
#include "side.h"

#include <iova.h>
#include <iova_client.h>
#include <stdlib.h>

enum { CLIENTS = 16 };

static iovad_cache all[CLIENTS];
static const char *path;

static void begin(uint64_t start, int clients) {
  path = getenv("IOVAD_SOCKET");
  must(start == 1 && clients <= CLIENTS && path, "there are 16 clients at most, and IOVAD_SOCKET");
}

static void enter(int client) { must(!iovad_cache_open(&all[client], path, 0, 0).error, "the daemon serves"); }

static uint64_t ask(int client, uint64_t frames, uint64_t limit) {
  iovad_range range = iovad_cache_alloc(&all[client], frames, limit);
  return range.error ? 0 : range.lo;
}

static void drop(int client, uint64_t lo, uint64_t frames) {
  (void)frames;
  must(!iovad_cache_free(&all[client], lo).error, "what is dropped is held");
}

static void leave(int client) { must(!iovad_cache_close(&all[client]), "the client says bye"); }

static const struct side cached = {.begin = begin, .ask = ask, .drop = drop, .enter = enter, .leave = leave};

const struct named_side sides[] = {{"cached", &cached}, {NULL, NULL}};

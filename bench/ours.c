/* Our side of the cases: the library for C. */
#include "side.h"

#include <iova.h>

enum { CLIENTS = 256 };

static iova_domain room;
static uint64_t numbers[CLIENTS];

static void begin(uint64_t start, int clients) {
  static int is_ready;
  if (!is_ready)
    iova_domain_init(&room);
  is_ready = 1;
  must(clients <= CLIENTS && !iova_domain_make(&room, start, TOP, 1), "there is a domain");
  for (int k = 0; k < clients; k++)
    numbers[k] = iova_open(&room, 0, 0).number;
}

static uint64_t ask(int client, uint64_t frames, uint64_t limit) {
  iova_range range = iova_alloc(&room, 0, numbers[client], frames, limit);
  return range.refused ? 0 : range.lo;
}

static void flush_alone(void) { iova_end(&room, iova_begin(&room).number, 1); }

static void drop(int client, uint64_t lo, uint64_t frames) {
  (void)frames;
  if (iova_unmap(&room, 0, numbers[client], lo).refused) {
    flush_alone();
    must(!iova_unmap(&room, 0, numbers[client], lo).refused, "what is dropped is held");
  }
}

static void flush(void) {
  flush_alone();
  iova_drain(&room, 0, 0);
}

static void drop_and_flush(int client, uint64_t lo, uint64_t frames) {
  drop(client, lo, frames);
  flush();
}

static void from_top(void) {}

static long live(void) { return (long)iova_totals_of(&room).count; }

const struct side ours = {begin, ask, drop, flush, drop_and_flush, from_top, live, NULL, NULL};

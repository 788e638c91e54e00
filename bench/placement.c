/* Where the library places the requests of a real kernel, beside where that kernel did.

       placement FILE.requests [EXAMPLES]

   The requests are made in their order, each by the worker of its processor, below 4 GiB; what the kernel unmapped is
   unmapped, and where it flushed the domain a flush is made, and its processor drains both rings, as the kernel's timer
   does. Prints how many first frames are equal, higher than the kernel's, and lower, the first of each, or so many, and
   the lowest frame of all. */
#include <inttypes.h>
#include <iova.h>
#include <stdio.h>
#include <stdlib.h>

#include "requests.h"

enum { EVENTS = 100000, WORKERS = 2 };

static struct event events[EVENTS];
static struct {
  uint64_t lo, worker;
} given_at[TOP_32 + 1]; /* by the frame that the kernel gave */

static iova_domain room;

static void must(int is, const char *what) {
  if (!is) {
    fprintf(stderr, "placement: not so: %s\n", what);
    exit(1);
  }
}

static void flush(uint64_t by) {
  must(iova_end(&room, iova_begin(&room).number, 1) == 0, "a flush begins and ends");
  for (uint64_t ring = 0; ring < WORKERS; ring++)
    iova_drain(&room, ring, by);
}

int main(int argc, char **words) {
  uint64_t clients[WORKERS];
  uint64_t lowest = TOP_32, lowest_here = TOP_32;
  long counts[3] = {0, 0, 0}, examples = argc > 2 ? atol(words[2]) : 1, requests = 0;
  static const char *const names[] = {"equal", "higher", "lower"};
  must(argc > 1, "a file is named");
  long all = read_requests(words[1], events, EVENTS);
  must(all > 0, "there are requests");
  iova_domain_init(&room);
  must(!iova_domain_make(&room, 1, TOP_32, WORKERS), "there is a domain");
  /* the window of interrupts, which the kernel keeps free */
  must(!iova_reserve(&room, 0xfee00, 0xfeeff).refused, "there is a window");
  for (uint64_t worker = 0; worker < WORKERS; worker++)
    clients[worker] = iova_open(&room, worker, 0).number;
  for (long k = 0; k < all; k++) {
    const struct event *event = &events[k];
    uint64_t lo = event->lo;
    if (event->kind == 'm') {
      iova_range range = iova_alloc(&room, event->by, clients[event->by], event->frames, TOP_32);
      must(!range.refused, "there is a range");
      int which = range.lo == lo ? 0 : range.lo > lo ? 1 : 2;
      requests++;
      lowest = lo < lowest ? lo : lowest;
      lowest_here = range.lo < lowest_here ? range.lo : lowest_here;
      if (counts[which]++ < examples)
        printf("%s: request %ld, %" PRIu32 " frames by processor %d: 0x%" PRIx64 " in the kernel, 0x%" PRIx64 " here\n",
               names[which], requests, event->frames, event->by, lo, range.lo);
      given_at[lo].lo = range.lo;
      given_at[lo].worker = event->by;
    } else if (event->kind == 'u') {
      uint64_t worker = given_at[lo].worker;
      iova_range range = iova_unmap(&room, worker, clients[worker], given_at[lo].lo);
      if (range.refused == IOVA_RING_FULL) {
        flush(event->by);
        range = iova_unmap(&room, worker, clients[worker], given_at[lo].lo);
      }
      must(!range.refused, "what is unmapped is held");
    } else {
      flush(event->by);
    }
  }
  printf("%ld requests: %ld equal, %ld higher, %ld lower\n", requests, counts[0], counts[1], counts[2]);
  printf("the lowest frame: 0x%" PRIx64 " in the kernel, 0x%" PRIx64 " here\n", lowest, lowest_here);
  iova_domain_clear(&room);
  return 0;
}

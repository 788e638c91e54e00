// Asks the library for what a log of a disk's driver says: each `map` an address of as many frames, each `unmap` gives it
// up, each `begin` is a flush that invalidates nothing. One cache of a shared domain (iova_shared.h) for all threads of the
// driver, which flushes where its ring is full, too. Prints how many ranges were mapped.
#include <inttypes.h>
#include <iova_shared.h>
#include <stdio.h>
#include <stdlib.h>
#include <string.h>

enum { BUCKETS = 1 << 16 };

struct step {
  enum { MAP, UNMAP, FLUSH } kind;
  uint64_t frames, number; // number: of an unmap, which step's address it gives up
};

struct live {
  uint64_t lo, step;
  struct live *next;
};

static struct step *steps;
static uint64_t *addresses, count, mapped;
static iova_shared shared;
static iova_shared_cache cache;

static int invalidate(void *nothing) { return nothing == NULL; }

// What is counted: the calls, and this loop of some instructions round each.
__attribute__((noinline)) static int replay(void) {
  for (uint64_t at = 0; at < count; at++) {
    struct step *step = &steps[at];
    uint64_t refused;
    if (step->kind == MAP) {
      iova_mapping given = iova_shared_map(&cache, step->frames * IOVA_FRAME_BYTES, IOVA_NO_MASK);
      refused = given.refused;
      addresses[at] = given.address;
      mapped++;
    } else if (step->kind == UNMAP) {
      refused = iova_shared_unmap_bytes(&cache, addresses[step->number]).refused;
    } else {
      refused = iova_shared_flush(&shared);
    }
    if (refused)
      return 1;
  }
  return 0;
}

// Of each unmap, which map's address it gives up.
static int read_log(FILE *file, uint64_t *last) {
  static struct live *buckets[BUCKETS];
  char line[128];
  uint64_t room = 0, lo, frames;
  while (fgets(line, sizeof line, file)) {
    struct step step = {MAP, 0, 0};
    if (sscanf(line, "iovalog 1 1 %" SCNu64, last) == 1 || strncmp(line, "use ", 4) == 0 || strncmp(line, "end ", 4) == 0)
      continue;
    if (count == room) {
      room = 2 * room + 1024;
      if (!(steps = realloc(steps, room * sizeof *steps)))
        return 1;
    }
    if (sscanf(line, "map %" SCNu64 " %" SCNu64, &lo, &frames) == 2) {
      struct live *live = malloc(sizeof *live);
      if (!live)
        return 1;
      *live = (struct live){lo, count, buckets[lo % BUCKETS]};
      buckets[lo % BUCKETS] = live;
      step.frames = frames;
    } else if (sscanf(line, "unmap %" SCNu64, &lo) == 1) {
      struct live **at = &buckets[lo % BUCKETS], *old;
      while (*at && (*at)->lo != lo)
        at = &(*at)->next;
      if (!(old = *at))
        return 1;
      step = (struct step){UNMAP, 0, old->step};
      *at = old->next;
      free(old);
    } else if (strncmp(line, "begin ", 6) == 0) {
      step.kind = FLUSH;
    } else {
      return 1;
    }
    steps[count++] = step;
  }
  addresses = calloc(count + 1, sizeof *addresses);
  return !addresses;
}

int main(void) {
  uint64_t last = 0;
  iova_domain *domain = iova_domain_new();
  if (!domain || read_log(stdin, &last) || iova_domain_make(domain, 1, last, 1)) {
    fprintf(stderr, "disk: this is no log of a driver\n");
    return 1;
  }
  if (iova_shared_init(&shared, domain, invalidate, NULL) || iova_shared_open(&cache, &shared, 0, 0) || replay()) {
    fprintf(stderr, "disk: the library refuses a step\n");
    return 1;
  }
  printf("%" PRIu64 "\n", mapped);
  iova_shared_close(&cache);
  iova_shared_clear(&shared);
  iova_domain_free(domain);
  free(steps);
  free(addresses);
  return 0;
}

/* A request and its unmap, 3,000,000 times, through the library for C: for a tool that counts instructions.

       steps [d]

   Each is of one frame, or with d of 1 to 32 frames; where the ring is full, a flush comes first. */
#include <iova.h>
#include <string.h>

#define TOP 68719476735UL

enum { DOMAINS = 3, COUNT = 1000000 };

/* A number below n: SplitMix64. */
static uint64_t below(uint64_t *state, uint64_t n) {
  *state += 0x9e3779b97f4a7c15;
  uint64_t z = *state;
  z = (z ^ (z >> 30)) * 0xbf58476d1ce4e5b9;
  z = (z ^ (z >> 27)) * 0x94d049bb133111eb;
  return (z ^ (z >> 31)) % n;
}

static void flush(iova_domain *domain) {
  iova_number begun = iova_begin(domain);
  if (!begun.refused)
    iova_end(domain, begun.number, 1);
}

int main(int argc, char **words) {
  uint64_t most = argc > 1 && !strcmp(words[1], "d") ? 32 : 1;
  for (int which = 0; which < DOMAINS; which++) {
    uint64_t state = 5;
    iova_domain *domain = iova_domain_new();
    if (!domain || iova_domain_make(domain, 1, TOP, 1))
      return 1;
    uint64_t client = iova_open(domain, 0, 0).number;
    for (long k = 0; k < COUNT; k++) {
      iova_range range = iova_alloc(domain, 0, client, 1 + below(&state, most), TOP);
      if (range.refused)
        return 1;
      if (iova_unmap(domain, 0, client, range.lo).refused) {
        flush(domain);
        iova_unmap(domain, 0, client, range.lo);
      }
    }
    iova_domain_free(domain);
  }
  return 0;
}

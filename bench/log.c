// Writes a log of so many lines (1,000,000): a device with about 10,000 live ranges of 1 to 32 frames, of which a random one
// is unmapped and another mapped; each hundredth line begins or ends a flush of everything, and what is mapped is free.
#include <stdint.h>
#include <stdio.h>
#include <stdlib.h>

enum { RANGES = 10000, WAITING = 200 };

static uint32_t seed = 1;

static uint32_t below(uint32_t n) {
  seed ^= seed << 13, seed ^= seed >> 17, seed ^= seed << 5;
  return seed % n;
}

int main(int count, char **words) {
  uint64_t lines = count > 1 ? strtoull(words[1], NULL, 10) : 1000000;
  static uint32_t live[RANGES], slots[3 * RANGES], waiting[WAITING];
  uint32_t held = 0, slot_count = 3 * RANGES, waits = 0, number = 0;
  int is_begun = 0;
  for (uint32_t k = 0; k < slot_count; k++) slots[k] = k;
  printf("iovalog 1 1 %u\n", 32 * 3 * RANGES + 32);
  for (uint64_t line = 2; line <= lines; line++) {
    if (waits == WAITING || is_begun) {
      if (!is_begun) printf("begin %u\n", ++number);
      else {
        printf("end %u ok\n", number);
        while (waits) slots[slot_count++] = waiting[--waits];
      }
      is_begun = !is_begun;
    } else if (held < RANGES && slot_count && (held < RANGES / 2 || below(2))) {
      uint32_t k = below(slot_count), slot = slots[k];
      slots[k] = slots[--slot_count];
      live[held++] = slot;
      printf("map %u %u\n", 32 + 32 * slot, slot % 32 + 1);
    } else {
      uint32_t k = below(held), slot = live[k];
      live[k] = live[--held];
      waiting[waits++] = slot;
      printf("unmap %u %u\n", 32 + 32 * slot, slot % 32 + 1);
    }
  }
  return 0;
}

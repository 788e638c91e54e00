/* How much memory a cache takes: 20 KiB with no range, its own room among them, and 24 bytes for each range that its user
 * holds, at each number of them up to 4,096 and wherever they are. And each range is found, and nothing else. It is linked
 * with -Wl,--wrap=malloc,--wrap=realloc,--wrap=free. */
#include "iova.h"

#include <inttypes.h>
#include <stdio.h>
#include <string.h>

enum { RANGES = 4096, EMPTY = 20 * 1024, EACH = 24, HEADER = 16, STRIDES = 28 };

void *__real_malloc(size_t size);
void __real_free(void *block);
void *__wrap_malloc(size_t size);
void *__wrap_realloc(void *block, size_t size);
void __wrap_free(void *block);

/* What was asked for and not given back, in bytes. Each block has its size before it. */
static size_t taken;

void *__wrap_malloc(size_t size) {
    char *block = __real_malloc(size + HEADER);
    if (!block)
        return NULL;
    memcpy(block, &size, sizeof size);
    taken += size;
    return block + HEADER;
}

void __wrap_free(void *block) {
    size_t size;
    if (!block)
        return;
    memcpy(&size, (char *)block - HEADER, sizeof size);
    taken -= size;
    __real_free((char *)block - HEADER);
}

void *__wrap_realloc(void *block, size_t size) {
    size_t old = 0;
    void *moved = __wrap_malloc(size);
    if (!moved || !block)
        return moved;
    memcpy(&old, (char *)block - HEADER, sizeof old);
    memcpy(moved, block, old < size ? old : size);
    __wrap_free(block);
    return moved;
}

static uint64_t random_number(uint64_t *state) {
    uint64_t z = (*state += 0x9e3779b97f4a7c15);
    z = (z ^ (z >> 30)) * 0xbf58476d1ce4e5b9;
    z = (z ^ (z >> 27)) * 0x94d049bb133111eb;
    return z ^ (z >> 31);
}

static uint64_t los[RANGES], lens[RANGES];

enum { RISING, FALLING, ANYWHERE, MIXED, WIDE, STRIDE, PATTERNS = STRIDE + STRIDES };

static void place(int pattern) {
    uint64_t state = 7, at = UINT64_C(1) << 36;
    for (uint64_t k = 0; k < RANGES; k++) {
        lens[k] = 1;
        if (pattern == RISING)
            los[k] = 1 + k;
        else if (pattern == FALLING)
            los[k] = 1048575 - k;
        else if (pattern == ANYWHERE)
            los[k] = (random_number(&state) % (1 << 24)) * RANGES + k; /* no two at one place */
        else if (pattern == MIXED) {
            uint64_t frames = 1 + random_number(&state) % 32;
            while (lens[k] < frames)
                lens[k] *= 2;
            los[k] = at = (at - lens[k]) & ~(lens[k] - 1);
        } else if (pattern == WIDE) {
            lens[k] = 33 + random_number(&state) % 64;
            los[k] = at -= lens[k];
        } else
            los[k] = k << (pattern - STRIDE);
    }
}

static int fails(const char *what, int pattern, uint64_t at, uint64_t is) {
    printf("room: pattern %d, range %" PRIu64 ": %s: %" PRIu64 "\n", pattern, at, what, is);
    return 1;
}

static int run(int pattern) {
    static uint64_t order[RANGES];
    iova_cache cache;
    uint64_t state = 9, lo;
    size_t before = taken;
    place(pattern);
    iova_cache_init(&cache);
    if (iova_cache_apart(&cache, 0))
        return fails("apart", pattern, 0, 0);
    for (uint64_t k = 0; k < RANGES; k++) {
        size_t is = taken - before + sizeof cache;
        if (is > EMPTY + EACH * k)
            return fails("bytes before it", pattern, k, is);
        if (iova_cache_keep(&cache, los[k], lens[k]))
            return fails("keep", pattern, k, los[k]);
        order[k] = k;
    }
    if (taken - before + sizeof cache > EMPTY + EACH * RANGES || iova_cache_counts_of(&cache).held != RANGES)
        return fails("bytes of all", pattern, RANGES, taken - before);
    for (uint64_t left = RANGES; left > 0; left--) {
        uint64_t which = random_number(&state) % left, k = order[which];
        iova_range range = iova_cache_release(&cache, los[k]);
        order[which] = order[left - 1];
        if (range.refused || range.lo != los[k] || range.len != lens[k])
            return fails("release", pattern, k, range.refused);
        lo = left % 2 ? los[k] : (UINT64_C(1) << 39) + los[k];
        if (iova_cache_release(&cache, lo).refused != IOVA_NOT_HELD || iova_cache_unmap(&cache, lo, 0).refused != IOVA_NOT_HELD)
            return fails("what isn't held", pattern, k, lo);
    }
    if (iova_cache_counts_of(&cache).held != 0 || iova_cache_any(&cache).len != 0)
        return fails("what is left", pattern, 0, iova_cache_counts_of(&cache).held);
    iova_cache_clear(&cache);
    return taken != before ? fails("bytes are left", pattern, 0, taken - before) : 0;
}

int main(void) {
    for (int pattern = 0; pattern < PATTERNS; pattern++)
        if (run(pattern))
            return 1;
    return 0;
}

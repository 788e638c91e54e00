/* Growths that are counted, and of which one is refused: for a program that is linked with
 * -Wl,--wrap=malloc,--wrap=realloc,--wrap=free. */
#ifndef REFUSING_H
#define REFUSING_H

#include <stddef.h>

/* How many growths there were, the number of the one that gets no memory, and how many blocks there are. */
static long growths, refuse_at, blocks;

void *__real_malloc(size_t size);
void *__real_realloc(void *block, size_t size);
void __real_free(void *block);

static int is_refused(void) { return ++growths == refuse_at; }

void *__wrap_malloc(size_t size) {
    void *block = is_refused() ? NULL : __real_malloc(size);
    blocks += block != NULL;
    return block;
}

void *__wrap_realloc(void *block, size_t size) {
    void *moved = is_refused() ? NULL : __real_realloc(block, size);
    blocks += block == NULL && moved != NULL;
    return moved;
}

void __wrap_free(void *block) {
    blocks -= block != NULL;
    __real_free(block);
}

#endif

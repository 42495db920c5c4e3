/* Refuses requests for memory in a program that is linked with -Wl,--wrap=malloc,--wrap=realloc,--wrap=free, and counts the blocks in use. */
#ifndef REFUSALS_H
#define REFUSALS_H

#include <stddef.h>

void *__real_malloc(size_t size);
void *__real_realloc(void *block, size_t size);
void __real_free(void *block);

/* The number of allocations that are granted first; if it is negative, none is refused. Whether only one is refused, or all that follow it too. */
static long granted = -1;
static int is_one = 0;
/* The number of allocations that were refused since `refuse`, and of blocks in use. */
static long refused = 0;
static long blocks = 0;

/* Grants this many allocations, and refuses the next one. */
static void refuse(long request) {
    granted = request;
    refused = 0;
}

/* Grants all from now on. Whether one was refused. */
static int end_refusals(void) {
    granted = -1;
    return refused > 0;
}

static int is_refused(void) {
    if (granted < 0) {
        return 0;
    }
    if (granted > 0) {
        granted--;
        return 0;
    }
    if (is_one) {
        granted = -1;
    }
    refused++;
    return 1;
}

void *__wrap_malloc(size_t size) {
    void *block = is_refused() ? NULL : __real_malloc(size);
    blocks += block != NULL;
    return block;
}

void *__wrap_realloc(void *block, size_t size) {
    void *larger = is_refused() ? NULL : __real_realloc(block, size);
    blocks += block == NULL && larger != NULL;
    return larger;
}

void __wrap_free(void *block) {
    blocks -= block != NULL;
    __real_free(block);
}

#endif

/* A heap that refuses, in place of heap.c: request `left` and all after it, or each one with a chance. */
#ifndef REFUSING_HEAP_H
#define REFUSING_HEAP_H

#include <stdbool.h>
#include <stddef.h>
#include <stdlib.h>

struct block {
    bool ok;
    void *at;
};

static long left = -1;     /* how many requests are met before one is refused; below 0 all are */
static long live;          /* blocks that weren't freed */
static long refusals;      /* requests that were refused */
static char nowhere;

static struct block block(void *at) { return (struct block){at != NULL, at != NULL ? at : &nowhere}; }

static bool is_refused(void) {
    if (left < 0 || left-- > 0) return false;
    left = 0;
    refusals++;
    return true;
}

struct block rattle_alloc(size_t size, size_t align) {
    if (is_refused()) return block(NULL);
    live++;
    return block(malloc(size ? size : align));
}

struct block rattle_realloc(void *at, size_t old, size_t size, size_t align) {
    (void)old;
    if (is_refused()) return block(NULL);
    return block(realloc(at, size ? size : align));
}

void rattle_dealloc(void *at) {
    live--;
    free(at);
}

#endif

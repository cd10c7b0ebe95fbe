/* The heap of the library, which is linked with it: what a Rattle static library asks of C. */
#include <stdbool.h>
#include <stddef.h>
#include <stdlib.h>

struct block {
    bool ok;
    void *at;
};

static char nowhere;

static struct block block(void *at) { return (struct block){at != NULL, at != NULL ? at : &nowhere}; }

struct block rattle_alloc(size_t size, size_t align) { return block(malloc(size ? size : align)); }

struct block rattle_realloc(void *at, size_t old, size_t size, size_t align) {
    (void)old;
    return block(realloc(at, size ? size : align));
}

void rattle_dealloc(void *at) { free(at); }

/* The functions by which libdeltat allocates, over malloc. A program with an allocator of its own, or a firmware with an
   arena, links such a file in its place: blocks are aligned to 16, and `ok` is false if there is no memory. */
#include "memory.h"

#include <stdlib.h>

static struct tried tried(void *p) {
    struct tried t = {p != NULL, (uint8_t *)p};
    return t;
}

struct tried rattle_alloc(size_t size, size_t align) {
    (void)align;
    return tried(malloc(size > 0 ? size : 1));
}

struct tried rattle_realloc(uint8_t *p, size_t kept, size_t size, size_t align) {
    (void)kept;
    (void)align;
    return tried(realloc(p, size > 0 ? size : 1));
}

void rattle_dealloc(uint8_t *p) { free(p); }

/* The three functions by which libdeltat allocates. heap.c has them over malloc; a program that has others links those. */
#ifndef DELTAT_MEMORY_H
#define DELTAT_MEMORY_H
#include <stdbool.h>
#include <stddef.h>
#include <stdint.h>

/* `ok` is false if there is no memory */
struct tried { bool ok; uint8_t *p; };

/* Blocks are aligned to 16. */
struct tried rattle_alloc(size_t size, size_t align);
struct tried rattle_realloc(uint8_t *p, size_t kept, size_t size, size_t align);
void rattle_dealloc(uint8_t *p);

#endif

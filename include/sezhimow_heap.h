/* The three functions that libsezhimow-bare.a calls for memory: for firmware that brings an allocator of its own.
 *
 * libsezhimow.a has them over malloc, realloc and free, so a program that links it needs none of this. A program that
 * links libsezhimow-bare.a defines all three, from one allocator:
 *
 * - A block of `size` bytes is aligned to each power of two up to 16 that divides `size`; `align` is at most 16.
 * - If there is no memory, `there` is false, `at` is any pointer but NULL, and nothing has changed.
 * - rattle_realloc returns a block of `wanted` bytes with the first bytes of the old one; the old one is no longer used.
 *   If there is no memory, the old one stays as it is.
 * - `size` at rattle_realloc is the size that the block was given with.
 * - They may be called from each thread that calls the library. Nothing checks any of this. */
#ifndef SEZHIMOW_HEAP_H
#define SEZHIMOW_HEAP_H

#include <stdbool.h>
#include <stddef.h>

#ifdef __cplusplus
extern "C" {
#endif

typedef struct sez_block {
    bool there;
    void *at;
} sez_block;

sez_block rattle_alloc(size_t size, size_t align);
sez_block rattle_realloc(void *at, size_t size, size_t wanted, size_t align);
void rattle_dealloc(void *at);

#ifdef __cplusplus
}
#endif

#endif

/*
 * heap.h: the memory that the proved part allocates, by three functions that the toolchain names.
 * They stand in the place of its own, which are malloc, realloc and free alone. The buffers of
 * handles are of this memory, too.
 *
 * A block for bytes (of alignment 1) that has 1 to 16 whole units of 4,096 bytes begins at a
 * multiple of 4,096, so that a page of such a size can be read and written with O_DIRECT. The 4,096
 * bytes behind it may be read, by who is lent its page and may read some bytes too many: they are
 * another block's or nobody's. Any other block is malloc's, and aligned as malloc aligns it. Any
 * thread may call any of the three.
 *
 * The proof assumes what C says of malloc, realloc and free (libc/src/heap.rt of the toolchain).
 */
#ifndef HEAP_H
#define HEAP_H

#include <stdbool.h>
#include <stddef.h>

enum { HEAP_UNIT = 4096, HEAP_MOST_UNITS = 16 };

/* Whether there is memory, and the block; if there is none, p points to a byte of no use. */
typedef struct tried {
    bool ok;
    void *p;
} tried;

/* A block of n bytes for values whose alignment is a, which divides 16. */
tried rattle_alloc(size_t n, size_t a);

/* Makes the block at p one of n bytes, of which the first kept ones, which both have, are as they
 * were. It may move. If there is no memory, the block is as it was. */
tried rattle_realloc(void *p, size_t kept, size_t n, size_t a);

/* Frees a block that one of the two answered. */
void rattle_dealloc(void *p);

#endif

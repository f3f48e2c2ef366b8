/* Which pages are in the frames of a pool, as far as its slots show it. */
#ifndef RESIDENTS_H
#define RESIDENTS_H

#include <stdbool.h>
#include <stddef.h>
#include <stdint.h>

#include "warm.h"

typedef struct residents {
    size_t frames, head_count;
    uint64_t *generations; /* of each frame, when it was last noted; 0: never */
    uint64_t *pages;       /* of each frame that was noted */
    uint32_t *heads;       /* of each hash: the first of its frames, counted from 1, or 0 */
    uint32_t *next;        /* of each frame: the next of the same hash */
} residents;

/* Of a pool with this many frames, all empty. False where there is no memory; residents_close is called in either case. */
bool residents_open(residents *r, size_t frames);
void residents_close(residents *r);

/* All frames are empty again. */
void residents_clear(residents *r);

/* Notes the slot of a pinned page. Whether the page came into its frame since the frame was last noted. */
bool residents_note(residents *r, warm_slot slot, uint64_t page);

/* Whether the page is in a frame. It is so exactly where each page that came in was noted before the next one came. */
bool residents_have(const residents *r, uint64_t page);

/* Its frame, counted from 1, or 0 where it is in none. */
uint32_t residents_frame(const residents *r, uint64_t page);

#endif

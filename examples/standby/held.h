/* Pages of a pool that stay pinned after their last use, until a frame is wanted for another page: a page that is used again needs no call of the
 * pool. A pinned page is no victim, so before another page comes in all that have no users are unpinned: the victim is then the one that
 * there would be if each page were unpinned after each use. */
#ifndef HELD_H
#define HELD_H

#include <stdbool.h>
#include <stddef.h>
#include <stdint.h>

#include "warm.h"

typedef struct held_page {
    const uint8_t *bytes; /* NULL: the page of this frame is not held */
    warm_slot slot;
    size_t users; /* how often it is lent */
} held_page;

typedef struct held {
    held_page *pages;  /* by frame */
    uint32_t *indexes; /* of the frames whose pages are held */
    size_t count;      /* how many these are */
} held;

/* Of a pool with this many frames. False where there is no memory; held_close is called in either case. */
bool held_open(held *h, size_t frames);
void held_close(held *h);

/* The handle is another one: no page of it is held. */
void held_clear(held *h);

/* Holds a page, which is pinned once, and is not held. Gives its place, which is that of its frame. */
held_page *held_add(held *h, warm_slot slot, const uint8_t *bytes);

/* Unpins each page that has no users, which is then not held. Answers a status of warm.h. */
int held_drop(held *h, warm *handle);

#endif

/* References that wait to be absorbed. */
#ifndef BATCH_H
#define BATCH_H

#include <stdbool.h>
#include <stddef.h>
#include <stdint.h>

#include "warm.h"

enum { BATCH_PAGES = 64, BATCH_PLACES = 256, BATCH_ROOM = 2 * BATCH_PAGES };

/* A page and its one or two latest references; previous is 0 where there is one. */
typedef struct waiting_page {
    uint64_t no, last, previous;
} waiting_page;

/* All zeros is an empty batch. */
typedef struct batch {
    waiting_page pages[BATCH_PAGES];
    size_t count;
    uint8_t places[BATCH_PLACES]; /* by hash, then one after the other: which of the pages stands here, counted from 1, or 0 */
} batch;

/* Adds a reference, which is later than all before. False where the batch is full and the page is none of it: then nothing is added. */
bool batch_add(batch *b, uint64_t page, uint64_t time);

/* Writes the references of the batch by this replica, BATCH_ROOM at most, and empties it. Gives their number. */
size_t batch_take(batch *b, uint16_t replica, warm_reference *references);

#endif

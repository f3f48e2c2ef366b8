/* A history keeps the two latest references to a page: it is the same whether or not it also gets the earlier ones. So two of each page wait. */
#include "batch.h"

#include <string.h>

/* The place of a page, or the free one where it would stand: a quarter of the places is taken at most. */
static uint8_t *place_of(batch *b, uint64_t page) {
    size_t at = (size_t)((page * 0x9e3779b97f4a7c15u) >> 56);
    while (b->places[at] != 0 && b->pages[b->places[at] - 1].no != page) at = (at + 1) % BATCH_PLACES;
    return &b->places[at];
}

bool batch_add(batch *b, uint64_t page, uint64_t time) {
    uint8_t *place = place_of(b, page);
    if (*place != 0) {
        waiting_page *known = &b->pages[*place - 1];
        known->previous = known->last;
        known->last = time;
        return true;
    }
    if (b->count == BATCH_PAGES) return false;
    b->pages[b->count++] = (waiting_page){.no = page, .last = time};
    *place = (uint8_t)b->count;
    return true;
}

size_t batch_take(batch *b, uint16_t replica, warm_reference *references) {
    size_t count = 0;
    for (size_t at = 0; at < b->count; at++) {
        const waiting_page *page = &b->pages[at];
        references[count++] = (warm_reference){.time = page->last, .no = page->no, .replica = replica};
        if (page->previous != 0) references[count++] = (warm_reference){.time = page->previous, .no = page->no, .replica = replica};
    }
    memset(b->places, 0, sizeof b->places);
    b->count = 0;
    return count;
}

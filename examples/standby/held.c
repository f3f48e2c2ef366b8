/* Pages by frame, and the list of those that are held. */
#include "held.h"

#include <stdlib.h>

bool held_open(held *h, size_t frames) {
    *h = (held){.pages = calloc(frames, sizeof *h->pages), .indexes = calloc(frames, sizeof *h->indexes)};
    return h->pages != NULL && h->indexes != NULL;
}

void held_close(held *h) {
    free(h->pages);
    free(h->indexes);
    *h = (held){0};
}

void held_clear(held *h) {
    for (size_t at = 0; at < h->count; at++) h->pages[h->indexes[at]] = (held_page){0};
    h->count = 0;
}

held_page *held_add(held *h, warm_slot slot, const uint8_t *bytes) {
    h->indexes[h->count++] = slot.index;
    h->pages[slot.index] = (held_page){.bytes = bytes, .slot = slot};
    return &h->pages[slot.index];
}

int held_drop(held *h, warm *handle) {
    size_t kept = 0;
    int status = WARM_OK;
    for (size_t at = 0; at < h->count; at++) {
        held_page *page = &h->pages[h->indexes[at]];
        int unpinned = page->users == 0 ? warm_unpin(handle, page->slot) : WARM_OK;
        if (unpinned != WARM_OK) status = unpinned;
        if (page->users == 0) page->bytes = NULL;
        else h->indexes[kept++] = h->indexes[at];
    }
    h->count = kept;
    return status;
}

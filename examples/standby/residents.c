/* Pages by frame, and frames by the hash of their page. */
#include "residents.h"

#include <stdlib.h>
#include <string.h>

/* A power of two, and at least as many as frames. */
static size_t heads_for(size_t frames) {
    size_t heads = 1;
    while (heads < frames) heads *= 2;
    return heads;
}

bool residents_open(residents *r, size_t frames) {
    *r = (residents){.frames = frames, .head_count = heads_for(frames)};
    r->generations = calloc(frames + 1, sizeof *r->generations);
    r->pages = calloc(frames + 1, sizeof *r->pages);
    r->heads = calloc(r->head_count, sizeof *r->heads);
    r->next = calloc(frames + 1, sizeof *r->next);
    return r->generations != NULL && r->pages != NULL && r->heads != NULL && r->next != NULL;
}

void residents_close(residents *r) {
    free(r->generations);
    free(r->pages);
    free(r->heads);
    free(r->next);
    *r = (residents){0};
}

void residents_clear(residents *r) {
    memset(r->generations, 0, r->frames * sizeof *r->generations);
    memset(r->heads, 0, r->head_count * sizeof *r->heads);
}

static size_t hash_of(const residents *r, uint64_t page) { return (size_t)((page * 0x9e3779b97f4a7c15u) >> 40) & (r->head_count - 1); }

static void unlink_frame(residents *r, uint32_t index) {
    uint32_t *link = &r->heads[hash_of(r, r->pages[index])];
    while (*link != index + 1) link = &r->next[*link - 1];
    *link = r->next[index];
}

bool residents_note(residents *r, warm_slot slot, uint64_t page) {
    if (r->generations[slot.index] == slot.generation) return false;
    if (r->generations[slot.index] != 0) unlink_frame(r, slot.index);
    uint32_t *head = &r->heads[hash_of(r, page)];
    r->generations[slot.index] = slot.generation;
    r->pages[slot.index] = page;
    r->next[slot.index] = *head;
    *head = slot.index + 1;
    return true;
}

uint32_t residents_frame(const residents *r, uint64_t page) {
    uint32_t at = r->heads[hash_of(r, page)];
    while (at != 0 && r->pages[at - 1] != page) at = r->next[at - 1];
    return at;
}

bool residents_have(const residents *r, uint64_t page) { return residents_frame(r, page) != 0; }

/*
 * proved.h: the values of include/warm.h as the proved part has them, which is older. Not
 * installed.
 *
 * A page has its number first there, a slot no hit, a device a number in place of its calls, and
 * what is written no reserved words. A function node_NAME does what warm_NAME does of a replica,
 * and a frame that travels is a message.
 */
#ifndef PROVED_H
#define PROVED_H

#include "nodes.h"
#include "warm.h"

#include <string.h>

static inline node_page page_in(warm_page page) {
    return (node_page){.no = page.no, .dev = page.dev};
}

static inline warm_page page_out(node_page page) {
    return (warm_page){.dev = page.dev, .no = page.no};
}

/* A slot's index, shard and hit are eight bytes, and are read and written at once, as the caller
 * does: what is written in halves is slow to read as a whole. */
enum { SLOT_SHARD = 32, SLOT_HIT = 48 };

static inline uint64_t place_in(const warm_slot *slot) {
    uint64_t place;
    memcpy(&place, (const uint8_t *)slot + offsetof(warm_slot, index), sizeof place);
    return place;
}

static inline void put_place(warm_slot *slot, uint64_t place) {
    memcpy((uint8_t *)slot + offsetof(warm_slot, index), &place, sizeof place);
}

/* Its place as if the pin had been no hit. */
static inline uint64_t place_of_slot(const warm_slot *slot) {
    return place_in(slot) & ((UINT64_C(1) << SLOT_HIT) - 1);
}

static inline node_slot slot_in(warm_slot slot) {
    return (node_slot){.generation = slot.generation, .index = slot.index};
}

/* An array of pages that the proved part has written becomes the caller's, in its place. */
static inline void pages_out(warm_page *pages, size_t count) {
    for (size_t at = 0; at < count; at++) {
        node_page page;
        memcpy(&page, &pages[at], sizeof page);
        pages[at] = page_out(page);
    }
}

#endif

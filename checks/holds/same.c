/*
 * same.c: handles of one replica, in one thread, beside the nodes of the proved part: same SEED SHARDS FRAMES HANDLES CALLS.
 *
 * Each call that is drawn is made by one of the handles, and of a node of its own for each shard, over copies of the files: pins, unpins, reads and
 * writes by slots that any handle pins or nobody does, references, victims, warm-up steps, pages that are loaded without a pin, pages that are
 * forgotten, a file that is replaced, pages that are written back. Each status, slot, byte, victim and count is that of the node, which knows of each pin, and reads each page
 * by itself. Prints how many calls were made.
 */
#define _GNU_SOURCE /* mkstemp */
#include <stdio.h>
#include <stdlib.h>
#include <string.h>
#include <unistd.h>

#include "proved.h"

enum { PAGE_SIZE = 64, PAGES = 64, DEVICES = 2, MOST_HANDLES = 4, MOST_PINS = 48, MOST_SHARDS = 8, BATCH = 4, MOST_SAID = 8 };

_Noreturn static void fail(const char *what, int line) {
    fprintf(stderr, "same: line %d: not so: %s\n", line, what);
    exit(1);
}
#define MUST(what) ((what) ? (void)0 : fail(#what, __LINE__))

struct pin {
    warm_slot slot;
    warm *by;
};

static warm handles[MOST_HANDLES];
static node nodes[MOST_SHARDS];
static size_t turns[MOST_HANDLES], handle_count, shards, frames;
static struct pin pins[MOST_PINS];
static size_t pin_count;
static uint64_t said_pins; /* of victims that were said: the nodes count them as hits */
static uint64_t loads;     /* of pages without a pin: the nodes count them as misses */
static warm_device devices[DEVICES]; /* of PAGES each */
static node_device copies[DEVICES];
static uint64_t drawn, now = 1;

static uint64_t draw(uint64_t below) {
    drawn ^= drawn << 13;
    drawn ^= drawn >> 7;
    drawn ^= drawn << 17;
    return (drawn * 2685821657736338717u >> 16) % below;
}

/* Half of all calls are about an eighth of the pages. */
static warm_page draw_page(void) {
    return (warm_page){.no = draw(2) == 0 ? draw(PAGES / 8) : draw(PAGES + 1), .dev = (uint16_t)draw(DEVICES)};
}

static bool is_same(warm_page page, warm_page other) { return page.no == other.no && page.dev == other.dev; }

static size_t shard_of(warm_page page) { return (page.no + page.dev) % shards; }

static warm *draw_handle(void) { return &handles[draw(handle_count)]; }

static void pin(warm_page page, warm *by) {
    node *beside = &nodes[shard_of(page)];
    warm_slot slot = {0};
    node_slot wanted = {0};
    const uint8_t *bytes = NULL, *other = NULL;
    uint64_t how = draw(8);
    int status, expected;
    bool is_in;
    MUST(node_resident(beside, page_in(page), &is_in) == WARM_OK);
    if (how == 0) status = warm_pin_zeroed(by, page, &slot), expected = node_pin_zeroed(beside, page_in(page), &wanted);
    else if (how == 1) status = warm_pin(by, page, &slot), expected = node_pin(beside, page_in(page), &wanted);
    else status = warm_pin_bytes(by, page, &slot, &bytes), expected = node_pin_bytes(beside, page_in(page), &wanted, &other);
    MUST(status == expected);
    if (status != WARM_OK) return;
    MUST(slot.index == wanted.index && slot.generation == wanted.generation && slot.shard == shard_of(page) && slot.hit == is_in);
    if (how > 1) MUST(memcmp(bytes, other, PAGE_SIZE) == 0);
    pins[pin_count++] = (struct pin){slot, by};
}

static void unpin(size_t at) {
    struct pin one = pins[at];
    pins[at] = pins[--pin_count];
    MUST(warm_unpin(one.by, one.slot) == WARM_OK && node_unpin(&nodes[one.slot.shard], slot_in(one.slot)) == WARM_OK);
}

/* The slot of a pin, or one that was made up. */
static warm_slot draw_slot(void) {
    if (pin_count > 0 && draw(4) != 0) return pins[draw(pin_count)].slot;
    return (warm_slot){.index = (uint32_t)draw(frames / shards + 1), .generation = draw(20), .shard = (uint16_t)draw(shards), .hit = (uint16_t)draw(3)};
}

static bool is_pinned(warm_slot slot) {
    for (size_t at = 0; at < pin_count; at++) {
        const warm_slot *it = &pins[at].slot;
        if (it->generation == slot.generation && it->index == slot.index && it->shard == slot.shard) return true;
    }
    return false;
}

static void use_slot(void) {
    warm_slot slot = draw_slot();
    node_slot its_slot = slot_in(slot);
    node *beside = &nodes[slot.shard];
    warm *by = draw_handle();
    uint8_t read[PAGE_SIZE] = {0}, wanted[PAGE_SIZE] = {0}, *bytes, *other;
    const uint8_t *lent, *its;
    size_t at = draw(PAGE_SIZE), length = draw(PAGE_SIZE - at + 1) + (draw(32) == 0);
    for (size_t i = 0; i < PAGE_SIZE; i++) read[i] = wanted[i] = (uint8_t)draw(256);
    switch (draw(6)) {
    case 0:
        if (length > PAGE_SIZE) length = PAGE_SIZE;
        MUST(warm_read(by, slot, at, read, length) == node_read(beside, its_slot, at, wanted, length) && memcmp(read, wanted, PAGE_SIZE) == 0);
        break;
    case 1: MUST(warm_write(by, slot, at, read, length) == node_write(beside, its_slot, at, wanted, length)); break;
    case 2: {
        int status = warm_bytes(by, slot, &lent);
        MUST(status == node_bytes(beside, its_slot, &its) && (status != WARM_OK || memcmp(lent, its, PAGE_SIZE) == 0));
        break;
    }
    case 3: {
        int status = warm_bytes_mut(by, slot, &bytes);
        MUST(status == node_bytes_mut(beside, its_slot, &other));
        if (status == WARM_OK) memcpy(bytes, read, PAGE_SIZE), memcpy(other, read, PAGE_SIZE);
        break;
    }
    case 4: MUST(warm_mark_dirty(by, slot) == node_bytes_mut(beside, its_slot, &other)); break;
    default: /* an unpin too many */
        if (!is_pinned(slot)) MUST(warm_unpin(by, slot) == WARM_STALE_SLOT && node_unpin(beside, its_slot) == WARM_STALE_SLOT);
    }
}

/* Each node takes in the references to pages of its shard, in their order. */
static void absorb(void) {
    warm_reference batch[BATCH];
    node_reference parts[MOST_SHARDS][BATCH];
    size_t each[MOST_SHARDS] = {0};
    for (size_t at = 0; at < BATCH; at++, now++) {
        warm_page page = draw_page();
        page.no %= PAGES;
        size_t number = shard_of(page);
        batch[at] = (warm_reference){.replica = 1, .dev = page.dev, .no = page.no, .time = now};
        parts[number][each[number]++] = (node_reference){.replica = 1, .dev = page.dev, .no = page.no, .time = now};
    }
    MUST(warm_absorb(draw_handle(), batch, BATCH) == WARM_OK);
    for (size_t number = 0; number < shards; number++) MUST(node_absorb(&nodes[number], parts[number], each[number]) == WARM_OK);
}

/* The victims that are said are those of the node, one after another: each is pinned there, until all are said. */
static void look_at_victims(size_t number) {
    warm_page said[MOST_SAID];
    node_slot slots[MOST_SAID];
    node_page wanted = {0};
    size_t room = draw(MOST_SAID + 1), count, at = 0;
    bool is_wanted = true;
    MUST(warm_victims(draw_handle(), number, said, room, &count) == WARM_OK && count <= room);
    for (; at < count; at++) {
        MUST(node_victim(&nodes[number], &is_wanted, &wanted) == WARM_OK && is_wanted && is_same(said[at], page_out(wanted)));
        MUST(node_pin(&nodes[number], wanted, &slots[at]) == WARM_OK);
        said_pins++;
    }
    MUST(node_victim(&nodes[number], &is_wanted, &wanted) == WARM_OK && (count == room || !is_wanted));
    while (at > 0) MUST(node_unpin(&nodes[number], slots[--at]) == WARM_OK);
}

static void look(void) {
    warm_page page = draw_page();
    bool is_in, is_in_node;
    look_at_victims(draw(shards));
    MUST(warm_resident(draw_handle(), page, &is_in) == WARM_OK && node_resident(&nodes[shard_of(page)], page_in(page), &is_in_node) == WARM_OK);
    MUST(is_in == is_in_node);
}

/* As the header says of its turns. */
static void step(void) {
    size_t by = draw(handle_count);
    bool is_found = false, is_wanted = false;
    warm_page found = {0};
    node_page wanted = {0};
    int status = warm_step(&handles[by], &is_found, &found), expected = WARM_OK;
    for (size_t asked = 0; asked < shards && expected == WARM_OK && !is_wanted; asked++) {
        expected = node_step(&nodes[turns[by]], &is_wanted, &wanted);
        turns[by] = (turns[by] + 1) % shards;
    }
    MUST(status == expected && (status != WARM_OK || (is_found == is_wanted && is_same(found, page_out(wanted)))));
}

static void prefetch(void) {
    warm_page page = draw_page();
    node *beside = &nodes[shard_of(page)];
    node_slot slot;
    bool is_in;
    int status = warm_prefetch(draw_handle(), page), expected = node_resident(beside, page_in(page), &is_in);
    if (!is_in) expected = node_pin(beside, page_in(page), &slot);
    MUST(status == expected);
    if (is_in || status != WARM_OK) return;
    MUST(node_unpin(beside, slot) == WARM_OK);
    loads++;
}

static int may_forget(uint16_t dev, uint64_t from) {
    int status = WARM_OK;
    for (size_t number = 0; number < shards && status == WARM_OK; number++) status = node_may_forget(&nodes[number], dev, from);
    return status;
}

static void forget(void) {
    uint64_t from = PAGES - draw(PAGES);
    uint16_t dev = (uint16_t)draw(DEVICES);
    int expected = may_forget(dev, from);
    MUST(warm_forget_pages(draw_handle(), dev, from) == expected);
    for (size_t number = 0; number < shards && expected == WARM_OK; number++) MUST(node_forget_pages(&nodes[number], dev, from) == WARM_OK);
}

static void replace(void) {
    uint16_t dev = (uint16_t)draw(DEVICES);
    int expected = may_forget(dev, 0);
    MUST(warm_replace(draw_handle(), dev, &devices[dev]) == expected);
    for (size_t number = 0; number < shards && expected == WARM_OK; number++) MUST(node_replace(&nodes[number], dev, &copies[dev]) == WARM_OK);
}

/* Writes back each dirty page of a node, frame by frame. */
static void clean(node *beside) {
    node_page page;
    size_t at = 0;
    bool is_found = true, is_written;
    while (is_found) {
        MUST(node_next_dirty(beside, at, &is_found, &at, &page) == WARM_OK);
        if (is_found) MUST(node_write_back_page(beside, page, &is_written) == WARM_OK && is_written);
    }
}

static void write_back(void) {
    size_t left;
    MUST(warm_write_back_some(draw_handle(), SIZE_MAX, &left) == WARM_OK && left == 0);
    for (size_t number = 0; number < shards; number++) clean(&nodes[number]);
}

/* A page, or a device; and how many pages are left. A portion is in an order that no node has (c/write_back.c): c/check tests that. */
static void write_some(void) {
    warm_page page = draw_page();
    bool is_written = false, is_wanted = false;
    node_counters part;
    size_t left, all = 0;
    MUST(warm_write_back_page(draw_handle(), page, &is_written) == WARM_OK);
    MUST(node_write_back_page(&nodes[shard_of(page)], page_in(page), &is_wanted) == WARM_OK && is_written == is_wanted);
    if (draw(4) == 0) {
        MUST(warm_flush_device(draw_handle(), page.dev) == WARM_OK);
        for (size_t number = 0; number < shards; number++) MUST(node_flush_device(&nodes[number], page.dev) == WARM_OK);
    }
    MUST(warm_write_back_some(draw_handle(), 0, &left) == WARM_OK);
    for (size_t number = 0; number < shards; number++) {
        MUST(node_counts(&nodes[number], &part) == WARM_OK);
        all += part.dirty;
    }
    MUST(left == all);
}

static void check_counts(void) {
    warm_counters counted, all = {0};
    node_counters part;
    MUST(warm_counts(draw_handle(), &counted) == WARM_OK);
    for (size_t number = 0; number < shards; number++) {
        MUST(node_counts(&nodes[number], &part) == WARM_OK);
        all.hits += part.hits;
        all.misses += part.misses;
        all.evictions += part.evictions;
        all.written_back += part.written_back;
        all.resident += part.resident;
        all.dirty += part.dirty;
    }
    all.hits -= said_pins;
    all.misses -= loads;
    MUST(memcmp(&counted, &all, sizeof all) == 0);
}

/* What the pool asks of a device is what the nodes ask: but flushes, which it leaves out where they can be. */
static void check_device_counts(void) {
    uint16_t dev = (uint16_t)draw(DEVICES);
    warm_device_counters counted;
    uint64_t reads = 0, writes = 0;
    MUST(warm_device_counts(draw_handle(), dev, &counted) == WARM_OK);
    for (size_t number = 0; number < shards; number++) {
        node_device_counters part;
        MUST(node_device_counts(&nodes[number], dev, &part) == WARM_OK);
        reads += part.reads;
        writes += part.writes;
    }
    MUST(counted.reads == reads && counted.writes == writes && counted.failures == 0);
}

/* Detaches an attached handle, where it has no pins, and attaches it again. */
static void attach(void) {
    if (handle_count == 1) return;
    size_t by = 1 + draw(handle_count - 1);
    bool has_pins = false;
    for (size_t at = 0; at < pin_count; at++) has_pins = has_pins || pins[at].by == &handles[by];
    MUST(warm_close(&handles[by]) == (has_pins ? WARM_PINS_LEFT : WARM_OK));
    if (has_pins) return;
    MUST(warm_attach(&handles[0], &handles[by]) == WARM_OK);
    turns[by] = 0;
}

static void call_one(void) {
    uint64_t what = draw(64);
    if (what < 26 && pin_count < MOST_PINS) pin(draw_page(), draw_handle());
    else if (what < 40 && pin_count > 0) unpin(draw(pin_count));
    else if (what < 50) use_slot();
    else if (what < 56) absorb();
    else if (what < 59) look();
    else if (what < 60) draw(2) == 0 ? step() : prefetch();
    else if (what < 61) attach();
    else if (what < 62) draw(4) == 0 ? write_back() : draw(3) == 0 ? write_some() : forget();
    else if (what < 63) draw(2) == 0 ? check_counts() : check_device_counts();
    else if (draw(16) == 0) {
        while (pin_count > 0) unpin(0);
        draw(2) == 0 ? replace() : forget();
    } else {
        replace();
    }
}

/* All frames are filled by steps, so that no pin has filled one; and the pages that would leave are held. */
static void warm_up(void) {
    bool is_found;
    node_page page;
    for (size_t at = 0; at < 4 * DEVICES * PAGES / BATCH; at++) absorb();
    for (size_t at = 0; at < 2 * frames; at++) step();
    for (size_t at = 0; at < handle_count; at++) {
        MUST(node_victim(&nodes[0], &is_found, &page) == WARM_OK);
        for (int time = 0; is_found && time < 3; time++) {
            if (time > 0) unpin(pin_count - 1);
            pin(page_out(page), &handles[at]);
        }
    }
}

static int temporary(void) {
    const char *folder = getenv("TMPDIR");
    char path[512];
    snprintf(path, sizeof path, "%s/warm-same-XXXXXX", folder == NULL ? "/tmp" : folder);
    int fd = mkstemp(path);
    MUST(fd >= 0 && unlink(path) == 0);
    return fd;
}

int main(int count, char **words) {
    if (count != 6) {
        fprintf(stderr, "usage: same SEED SHARDS FRAMES HANDLES CALLS\n");
        return 2;
    }
    drawn = strtoull(words[1], NULL, 10) * 2654435761u + 1;
    shards = strtoul(words[2], NULL, 10);
    frames = strtoul(words[3], NULL, 10);
    handle_count = strtoul(words[4], NULL, 10);
    MUST(shards <= MOST_SHARDS && handle_count >= 1 && handle_count <= MOST_HANDLES);
    for (int dev = 0; dev < DEVICES; dev++) {
        devices[dev] = (warm_device){.pages = PAGES, .fd = temporary()};
        copies[dev] = (node_device){.pages = PAGES, .number = temporary()};
    }
    const warm_options options = {.size = sizeof options, .replica = 1, .shards = shards, .frames = frames, .page_size = PAGE_SIZE,
        .devices = devices, .device_count = DEVICES};
    MUST(warm_open(&handles[0], &options) == WARM_OK);
    for (size_t at = 1; at < handle_count; at++) MUST(warm_attach(&handles[0], &handles[at]) == WARM_OK);
    for (size_t number = 0; number < shards; number++) MUST(node_open(&nodes[number], 1, frames / shards, PAGE_SIZE, copies, DEVICES) == WARM_OK);
    unsigned long calls = strtoul(words[5], NULL, 10);
    if (drawn % 2 == 0) warm_up();
    for (unsigned long call = 0; call < calls; call++) call_one();
    while (pin_count > 0) unpin(0);
    write_back();
    check_counts();
    for (size_t at = handle_count; at-- > 0;) MUST(warm_close(&handles[at]) == WARM_OK);
    for (size_t number = 0; number < shards; number++) node_close(&nodes[number]);
    printf("same: %zu shards, %zu frames, %zu handles, %lu calls answered as by the nodes\n", shards, frames, handle_count, calls);
    return 0;
}

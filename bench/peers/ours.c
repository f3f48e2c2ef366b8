/*
 * ours.c: our pool, by include/warm.h. A call pins a page and lends its bytes, reads the first eight in place, and unpins it. A pool of the kind
 * "pins" is not given these accesses, as a pin is no reference; one of the kind "references" takes in a reference before each pin. All
 * threads share one replica, each by a handle of its own; a load that says no number of shards has one. Where there is one thread, it has the
 * handle that opened the replica, which takes no lock while no other is attached, or, where the variable OURS_ATTACHED is set, an attached
 * one beside it, which does.
 */
#include "load.h"

#include <stdatomic.h>
#include <stdio.h>
#include <stdlib.h>
#include <string.h>
#include <warm.h>

const char *const program = "ours";
const char *const kinds[2] = {"pins", "references"};

enum { BATCH = 1024 };

struct pool {
    warm handle;
    bool refers_to_each; /* each access is handed in as a reference */
    bool is_of_misses;
    bool is_alone; /* the one thread has the first handle */
    atomic_uint_fast64_t threads; /* that joined so far */
};

struct joined {
    warm attached;
    warm *handle;
    const struct pool *pool;
    uint64_t time; /* of its last reference. All threads count from one number on, each for itself, as clocks do */
    uint16_t replica;
};

static void ok(int status, const char *call) {
    if (status == WARM_OK) return;
    fprintf(stderr, "ours: %s: status %d\n", call, status);
    exit(1);
}

static void refer(struct joined *joined, const uint32_t *pages, size_t count) {
    warm_reference references[BATCH];
    for (size_t i = 0; i < count; i++) {
        references[i] = (warm_reference){.time = ++joined->time, .no = pages[i], .replica = joined->replica};
    }
    ok(warm_absorb(joined->handle, references, count), "warm_absorb");
}

static void refer_once(struct joined *joined, uint64_t no) {
    const warm_reference it = {.time = ++joined->time, .no = no, .replica = joined->replica};
    ok(warm_absorb(joined->handle, &it, 1), "warm_absorb");
}

/* The history knows all pages of the file, each by two references, in the order in which they will be drawn: the pages that were drawn last
 * leave last. */
static void know_file(struct pool *pool, const struct load *load, uint64_t drawn) {
    struct joined *joined = join_pool(pool);
    uint32_t pages[BATCH];
    for (uint64_t known = 0; known < 2 * (uint64_t)load->file_pages; known += BATCH) {
        for (size_t i = 0; i < BATCH; i++) {
            drawn = next_draw(drawn);
            pages[i] = low_page(drawn, load->file_pages);
        }
        refer(joined, pages, BATCH);
    }
    leave_pool(pool, joined);
}

void *open_pool(const struct load *load, uint64_t drawn) {
    struct pool *pool = calloc(1, sizeof *pool);
    if (pool == NULL) ok(WARM_MEMORY, "calloc");
    warm_device device = {.pages = load->file_pages, .fd = load->fd};
    size_t shards = load->shards == 0 ? 1 : load->shards;
    pool->refers_to_each = strcmp(load->kind, kinds[1]) == 0;
    pool->is_of_misses = load->is_of_misses;
    pool->is_alone = load->threads == 1 && getenv("OURS_ATTACHED") == NULL;
    const warm_options options = {.size = sizeof options, .replica = 1, .shards = shards, .frames = load->pages, .page_size = PAGE_SIZE,
        .devices = &device, .device_count = 1};
    ok(warm_open(&pool->handle, &options), "warm_open");
    know_file(pool, load, drawn);
    return pool;
}

/* The times of a thread that joins are later than all of know_file. */
void *join_pool(void *at) {
    struct pool *pool = at;
    struct joined *joined = calloc(1, sizeof *joined);
    if (joined == NULL) ok(WARM_MEMORY, "calloc");
    joined->handle = pool->is_alone ? &pool->handle : &joined->attached;
    if (!pool->is_alone) ok(warm_attach(&pool->handle, &joined->attached), "warm_attach");
    joined->pool = pool;
    uint64_t before = atomic_fetch_add(&pool->threads, 1); /* know_file is the first */
    joined->replica = (uint16_t)(1 + before % 64);
    joined->time = before == 0 ? 0 : UINT32_MAX;
    return joined;
}

void leave_pool(void *pool, void *at) {
    struct joined *joined = at;
    (void)pool;
    ok(warm_close(&joined->attached), "warm_close of a thread's handle"); /* one that was not attached stays closed */
    free(joined);
}

/* Without new references the page that comes in would be the next to leave, and all misses would be of one frame. */
void before_slice(void *at, const uint32_t *pages, size_t count) {
    struct joined *joined = at;
    if (joined->pool->refers_to_each || !joined->pool->is_of_misses) return;
    refer(joined, pages, count);
}

uint64_t play_slice(void *at, const uint32_t *pages, size_t count) {
    struct joined *joined = at;
    uint64_t checksum = 0;
    for (size_t i = 0; i < count; i++) {
        const uint8_t *bytes;
        uint64_t number;
        warm_slot slot;
        if (joined->pool->refers_to_each) refer_once(joined, pages[i]);
        ok(warm_pin_bytes(joined->handle, (warm_page){.no = pages[i]}, &slot, &bytes), "warm_pin_bytes");
        memcpy(&number, bytes, sizeof number);
        ok(warm_unpin(joined->handle, slot), "warm_unpin");
        checksum = added(checksum, number);
    }
    return checksum;
}

void close_pool(void *at) {
    struct pool *pool = at;
    ok(warm_close(&pool->handle), "warm_close");
    free(pool);
}

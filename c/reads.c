/*
 * reads.c: reads with no shard locked, as reads.h says. Nothing here is proved; c/check tests it.
 */
#define _FILE_OFFSET_BITS 64
#define _POSIX_C_SOURCE 200809L /* pthread_mutex_t */
#include "reads.h"
#include "shards.h"

#include <errno.h>

int wait_for_read(const opened *its, shard *in, node_page page, patience *left) {
    reading *at = in->reads;
    while (at != NULL && (at->page.no != page.no || at->page.dev != page.dev)) at = at->next;
    if (at == NULL) return WARM_OK;
    at->is_awaited = true;
    return await_call(its, in, left);
}

void begin_read(shard *in, reading *it) {
    it->next = in->reads;
    in->reads = it;
}

void end_read(shard *in, reading *it) {
    reading **place = &in->reads;
    while (*place != it) place = &(*place)->next;
    *place = it->next;
    if (it->is_awaited) pthread_cond_broadcast(&in->call_over);
}

/* Counts a read, unless its device was replaced meanwhile. */
static void count_read(opened *its, uint16_t dev, unsigned replaced, bool is_read) {
    known_device *known = &its->of->known[dev];
    if (known->replaced != replaced) return;
    atomic_fetch_add(&known->reads, 1);
    if (!is_read) atomic_fetch_add(&known->failures, 1);
}

int read_outside(opened *its, shard *in, reading *it, bool is_locked) {
    node_page page = it->page;
    int32_t number = its->of->devices[page.dev].number;
    unsigned replaced = its->of->known[page.dev].replaced;
    size_t size = its->of->page_size;
    it->is_at_file = true;
    leave(in, is_locked);
    bool is_read = device_read(number, its->buffer, size, (off_t)(page.no * size)) >= 0;
    int error = errno;
    if (is_locked) pthread_mutex_lock(&in->lock);
    it->is_at_file = false;
    count_read(its, page.dev, replaced, is_read);
    if (it->is_stale) return READ_AGAIN;
    if (is_read) return WARM_OK;
    note_failure(its, page, WARM_FAILED_READ, error);
    return WARM_READ_FAULT;
}

void make_stale(shard *in, uint16_t dev, uint64_t from, uint64_t step) {
    for (reading *at = in->reads; at != NULL; at = at->next) {
        if (at->is_stale || at->page.dev != dev || at->page.no < from) continue;
        at->is_stale = true;
        at->since = step;
    }
}

static bool keeps(const reading *it, uint16_t dev, uint64_t step) {
    return it->page.dev == dev && it->is_at_file && it->is_stale && it->since <= step;
}

static reading *stale_of(const shard *in, uint16_t dev, uint64_t step) {
    reading *at = in->reads;
    while (at != NULL && !keeps(at, dev, step)) at = at->next;
    return at;
}

static void await_read(shard *in, reading *it) {
    it->is_awaited = true;
    pthread_cond_wait(&in->call_over, &in->lock);
}

void wait_for_stale(opened *its, uint16_t dev, uint64_t step) {
    for (size_t number = 0; number < its->count; number++) {
        shard *in = &its->shards[number];
        bool is_locked = enter(its, in);
        for (reading *at; (at = stale_of(in, dev, step)) != NULL;) await_read(in, at);
        leave(in, is_locked);
    }
}

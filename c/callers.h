/*
 * callers.h: for busy_test.c, reads_test.c, stale_reads_test.c, waits_test.c and writes_test.c,
 * over fake_library.h: threads that make one call each, by handles of their own, and reads and
 * writes that a test stops. A test that hangs is ended by an alarm.
 */
#ifndef CALLERS_H
#define CALLERS_H

#include "fake_library.h"

enum { MOST = 4 };

/* A call of a thread with a handle of its own, and what came of it. */
typedef struct caller {
    pthread_t thread;
    warm handle;
    enum {
        PINS,
        PINS_ZEROED,
        PREFETCHES,
        STEPS,
        FORGETS,
        REPLACES,
        WRITES,
        MARKS,
        WRITES_ONE,
        WRITES_SOME,
        WRITES_ALL,
        FLUSHES
    } call;
    warm_page page;
    const warm_device *device; /* that takes the place of another one */
    atomic_bool is_over;
    int status;
    warm_slot slot;
    bool found;
} caller;

static warm first;
static caller callers[MOST];
static const warm_device in_place = {.pages = 100, .fd = 20};

/* Makes the page dirty, which has the byte then, or the one before; or it is refused. */
static inline int change(warm *by, warm_page page, bool writes) {
    warm_slot slot;
    OK(warm_pin(by, page, &slot));
    int status = writes ? warm_write(by, slot, 0, "n", 1) : warm_mark_dirty(by, slot);
    OK(warm_unpin(by, slot));
    return status;
}

static inline int make_call(caller *its) {
    warm *by = &its->handle;
    size_t left;
    switch (its->call) {
    case PINS: return warm_pin(by, its->page, &its->slot);
    case PINS_ZEROED: return warm_pin_zeroed(by, its->page, &its->slot);
    case PREFETCHES: return warm_prefetch(by, its->page);
    case STEPS: return warm_step(by, &its->found, &its->page);
    case FORGETS: return warm_forget_pages(by, its->page.dev, its->page.no);
    case WRITES: return change(by, its->page, true);
    case MARKS: return change(by, its->page, false);
    case WRITES_ONE: return warm_write_back_page(by, its->page, &its->found);
    case WRITES_SOME: return warm_write_back_some(by, SIZE_MAX, &left);
    case WRITES_ALL: return warm_write_back_all(by);
    case FLUSHES: return warm_flush_device(by, its->page.dev);
    default: return warm_replace(by, its->page.dev, its->device);
    }
}

static inline void *call_it(void *of) {
    caller *its = of;
    its->status = make_call(its);
    atomic_store(&its->is_over, true);
    return NULL;
}

static inline void begin_with(int number, int call, warm_page page, const warm_device *device) {
    caller *its = &callers[number];
    its->call = call;
    its->page = page;
    its->device = device;
    its->slot = (warm_slot){.generation = 77};
    atomic_store(&its->is_over, false);
    MUST(pthread_create(&its->thread, NULL, call_it, its) == 0);
}

static inline void begin(int number, int call, warm_page page) {
    begin_with(number, call, page, &in_place);
}

static inline int end(int number) {
    MUST(pthread_join(callers[number].thread, NULL) == 0);
    return callers[number].status;
}

/* What a call waits for it may have been about to wait for. */
static inline void until_waiting(int count) {
    while (atomic_load(&waiting_now) < count) sched_yield();
}

/* Wakes all who wait in the first shard, and a call that is about to wait: it has the lock until it
 * does. */
static inline void wake_all(void) {
    shard *in = ((opened *)first.at)->shards;
    MUST(pthread_mutex_lock(&in->lock) == 0);
    MUST(pthread_cond_broadcast(&in->call_over) == 0);
    MUST(pthread_mutex_unlock(&in->lock) == 0);
}

/* No call is over that was not before, though it had the time. */
static inline void not_over(int number) {
    usleep(2000);
    MUST(!atomic_load(&callers[number].is_over));
}

/* ---- reads that a test stops ---- */

/* The next read of this page waits, once it has its byte; how many reads have begun so, and may
 * end. */
static atomic_long stops_at = -1;
static atomic_int begun, may_end;
static atomic_int ends_first = -1; /* of these reads, from 0 on: one that may end before others */

static inline void stop(int fd, off_t at) {
    long this = at;
    (void)fd;
    if (!atomic_compare_exchange_strong(&stops_at, &this, -1)) return;
    int own = ++begun;
    while (atomic_load(&may_end) < own && atomic_load(&ends_first) != own - 1) sched_yield();
}

static inline void until_begun(int count) {
    while (atomic_load(&begun) < count) sched_yield();
}

/* A replica of this many shards, and a handle for each caller. */
static inline void open_over(
    size_t shards, size_t frames, const warm_device *of, size_t device_count) {
    memset(in_files, 0, sizeof in_files);
    files_keep = true;
    at_read = stop;
    stops_at = -1;
    begun = may_end = reads = 0;
    put = written_locked = syncs = 0;
    OK(open_with(&first, 1, shards, frames, of, device_count));
    for (int number = 0; number < MOST; number++) OK(warm_attach(&first, &callers[number].handle));
}

static inline void open_all(size_t shards, size_t frames) {
    open_over(shards, frames, devices, FAKE_DEVICES);
}

/* How many frames have a page is known in each shard: with too few a page that is held could
 * leave, with too many a load could be refused. */
static inline void frames_are_counted(void) {
    opened *its = first.at;
    for (size_t number = 0; number < its->count; number++) {
        node_counters counted = {0};
        OK(node_counts(&its->shards[number].node, &counted));
        MUST(its->shards[number].table.filled == counted.resident);
    }
}

static inline void close_all(void) {
    opened *its = first.at;
    frames_are_counted();
    for (int number = 0; number < MOST; number++) OK(warm_close(&callers[number].handle));
    no_pins(&first);
    for (size_t number = 0; number < its->count; number++) MUST(its->shards[number].reads == NULL);
    OK(warm_abandon(&first));
    MUST(waiting_now == 0);
    nothing_left();
    at_read = at_write = NULL;
    files_keep = false;
}

/* What is counted beside what a fake node says. */
static inline void has_counted(uint16_t dev, uint64_t made, uint64_t failed) {
    warm_device_counters counters;
    uint64_t count = ((opened *)first.at)->count;
    OK(warm_device_counts(&first, dev, &counters));
    MUST(counters.reads == count + made && counters.failures == count + failed);
}

static inline bool has_failure(warm *handle) {
    warm_failure failure;
    bool found;
    OK(warm_last_failure(handle, &found, &failure));
    return found;
}

static inline void unpin(int number) {
    OK(warm_unpin(&callers[number].handle, callers[number].slot));
}

/* ---- writes that a test stops ---- */

/* Bit i: the next write of page i of the first device waits; has begun so; and may end. */
static _Atomic uint64_t stopped_writes, begun_writes, ended_writes;

static inline uint64_t bit(uint64_t no) { return UINT64_C(1) << no; }

static inline void stop_write(int fd, off_t at) {
    uint64_t this = bit((uint64_t)at);
    if (fd != 10 || (atomic_fetch_and(&stopped_writes, ~this) & this) == 0) return;
    atomic_fetch_or(&begun_writes, this);
    while ((atomic_load(&ended_writes) & this) == 0) sched_yield();
}

static inline void stop_writes_of(uint64_t pages) {
    stopped_writes = pages;
    begun_writes = ended_writes = 0;
    at_write = stop_write;
}

static inline void until_written(uint64_t pages) {
    while ((atomic_load(&begun_writes) & pages) != pages) sched_yield();
}

static inline void end_writes(uint64_t pages) { atomic_fetch_or(&ended_writes, pages); }

/* A replica of one shard, whose frames have dirty pages, from 0 on. */
static inline void open_dirty(size_t frames) {
    open_all(1, frames);
    for (uint64_t no = 0; no < frames; no++) write_to(&first, page_at(no), 'd');
    for (uint64_t no = 0; no < frames; no++) in_files[10][no] = 'o';
    stop_writes_of(0);
    reads = 0;
}

static inline bool is_dirty(uint64_t no) {
    bool dirty;
    OK(node_dirty(&((opened *)first.at)->shards[0].node, (node_page){.no = no}, &dirty));
    return dirty;
}

#endif

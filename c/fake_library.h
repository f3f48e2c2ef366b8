/*
 * fake_library.h: the C side of the library in the test's own program: in place of the proved part
 * it has fake_nodes.h, and the calls of the system are those of fake_system.h. All tests have it
 * but fd_calls_test.c and heap_test.c.
 */
#ifndef FAKE_LIBRARY_H
#define FAKE_LIBRARY_H

#define _GNU_SOURCE
#define _FILE_OFFSET_BITS 64
#include <errno.h>
#include <fcntl.h>
#include <pthread.h>
#include <sched.h>
#include <stdbool.h>
#include <stdint.h>
#include <stdio.h>
#include <stdlib.h>
#include <string.h>
#include <sys/stat.h>
#include <unistd.h>

#include "warm.h"

static void must(bool holds, const char *what, int line) {
    if (holds) return;
    fprintf(stderr, "line %d: %s\n", line, what);
    exit(1);
}
#define MUST(holds) must(holds, #holds, __LINE__)
#define OK(call) MUST((call) == WARM_OK)

#include "fake_system.h"
#define malloc test_malloc
#define realloc test_realloc
#define free test_free
#define pthread_mutex_init test_init
#define pthread_mutex_destroy test_destroy
#define fsync test_fsync
#define fcntl test_fcntl
#define pwrite test_pwrite
#define pread test_pread
#define pthread_cond_init test_cond_init
#define pthread_cond_destroy test_cond_destroy
#include "sync_once.c"
#include "devices.c"
#include "fake_nodes.h"
#undef pthread_mutex_lock /* schedules.h has its own */
#undef pthread_mutex_unlock
#undef pthread_cond_wait
#undef pthread_cond_timedwait
#define pthread_mutex_lock test_lock
#define pthread_mutex_unlock test_unlock
#define pthread_cond_wait test_cond_wait
#define pthread_cond_timedwait test_cond_timedwait
#define clock_gettime test_clock
#define syscall test_syscall
#pragma push_macro("atomic_store")
#undef atomic_store
#define atomic_store(at, value) store_in_order(at, value)
#include "waits.c"
#pragma pop_macro("atomic_store")
#include "reads.c"
#include "writes.c"
#include "holds.c"
#include "shards.c"
#include "opening.c"
#include "whole_calls.c"
#include "write_back.c"
#include "errors.c"
#undef pthread_mutex_lock
#undef pthread_mutex_unlock
#undef pthread_cond_wait
#undef pthread_cond_timedwait
#undef clock_gettime
#undef syscall
#undef pthread_cond_init
#undef pthread_cond_destroy
#undef malloc
#undef realloc
#undef free
#undef pthread_mutex_init
#undef pthread_mutex_destroy
#undef fsync
#undef fcntl
#undef pwrite
#undef pread

static const warm_device devices[] = {{.pages = FAKE_PAGES, .fd = 10},
    {.pages = FAKE_PAGES, .fd = 11}, {.pages = FAKE_PAGES, .fd = 12},
    {.pages = FAKE_PAGES, .fd = 13}};

/* Pages have one byte. */
static inline int open_with(warm *handle, uint32_t replica, size_t shards, size_t frames,
    const warm_device *of, size_t device_count) {
    const warm_options options = {.size = sizeof options,
        .replica = replica,
        .shards = shards,
        .frames = frames,
        .page_size = 1,
        .devices = of,
        .device_count = device_count};
    return warm_open(handle, &options);
}

static inline void open_shards(warm *handle, size_t count) {
    OK(open_with(handle, 1, count, 2 * count, devices, FAKE_DEVICES));
}

static inline void write_to(warm *handle, warm_page page, uint8_t byte) {
    warm_slot slot;
    OK(warm_pin(handle, page, &slot));
    OK(warm_write(handle, slot, 0, &byte, 1));
    OK(warm_unpin(handle, slot));
}

/* A page of each shard, of one device. */
static inline void write_each(warm *handle, uint16_t dev, uint64_t count) {
    for (uint64_t no = 0; no < count; no++)
        write_to(handle, (warm_page){.no = no, .dev = dev}, 'a');
}

static inline void must_have_failed(
    warm *handle, uint64_t no, uint16_t dev, uint16_t what, int32_t error) {
    warm_failure failure = {0};
    bool found = false;
    OK(warm_last_failure(handle, &found, &failure));
    MUST(found && failure.no == no && failure.dev == dev && failure.what == what &&
         failure.error == error);
}

/* How many calls of devices failed, or were skipped, in the call that has the last failure. */
static inline uint64_t failures(warm *handle) {
    warm_failure failure = {.reserved = {77}};
    bool found = false;
    OK(warm_last_failure(handle, &found, &failure));
    MUST(found && failure.reserved[0] == 0);
    return failure.count;
}

static inline uint8_t read_from(warm *handle, warm_page page) {
    const uint8_t *byte;
    warm_slot slot;
    OK(warm_pin_bytes(handle, page, &slot, &byte));
    OK(warm_unpin(handle, slot));
    return *byte;
}

/* ---- pages of the first device ---- */

/* Where the bytes of the page lie that was pinned last. */
static const uint8_t *lent;

static inline warm_page page_at(uint64_t no) { return (warm_page){.no = no}; }

static inline warm_slot pin(warm *handle, uint64_t no) {
    warm_slot slot;
    OK(warm_pin_bytes(handle, page_at(no), &slot, &lent));
    return slot;
}

/* The page has a record afterwards, and nobody pins it. */
static inline void pin_twice(warm *handle, uint64_t no) {
    for (int time = 0; time < 2; time++) OK(warm_unpin(handle, pin(handle, no)));
}

/* A pin that takes no lock. */
static inline warm_slot hold_page(warm *handle, uint64_t no) {
    int before = taken;
    warm_slot slot = pin(handle, no);
    MUST(taken == before);
    return slot;
}

static inline fake *node_of(warm *handle, size_t number) {
    return ((opened *)handle->at)->shards[number].node.at;
}

/* While a page is pinned its frame is its own: a thread sanitizer sees whoever gives it to another
 * page meanwhile. */
static inline void look_at(warm *handle, warm_slot slot, uint64_t no) {
    const fake_frame *frame = &node_of(handle, slot.shard)->at[slot.index];
    MUST(frame->is_in && frame->page.no == no && frame->generation == slot.generation);
}

static inline bool is_in(warm *handle, uint64_t no) {
    bool resident;
    OK(warm_resident(handle, page_at(no), &resident));
    return resident;
}

/* How many pages the history knows. */
static inline size_t known(warm *handle) {
    size_t length;
    OK(warm_history_length(handle, &length));
    return length;
}

/* What C pinned in the nodes it has unpinned; and a shard with a dirty page knows that it may have
 * one. */
static inline void no_pins(warm *handle) {
    opened *its = handle->at;
    for (size_t number = 0; number < its->count; number++) {
        const shard *in = &its->shards[number];
        for (size_t at = 0; at < FAKE_FRAMES; at++) {
            const fake_frame *frame = &node_of(handle, number)->at[at];
            MUST(frame->pins == 0 && (in->may_be_dirty || !frame->is_dirty));
        }
        MUST(in->table.passed_count == 0 && in->writes == NULL &&
             in->leaving == 0 && in->table.wanting < ONE_WANTS);
    }
}

/* Everything was given back. */
static void nothing_left(void) {
    for (size_t chain = 0; chain < CHAINS; chain++) MUST(chains[chain] == NULL);
    MUST(blocks == 0 && locks_there == 0 && held == 0 && remembered == 0 && own_devices == NULL &&
         made_before == NULL);
}

/* The call, with nothing granted, then with one grant, and so on, until it succeeds; and what holds
 * after each refusal. */
#define EACH_REFUSED(call, unchanged)                                    \
    do {                                                                 \
        size_t grants = 0;                                               \
        for (int status = WARM_MEMORY; status != WARM_OK; grants++) {    \
            granted = grants;                                            \
            status = (call);                                             \
            granted = SIZE_MAX;                                          \
            MUST(status == WARM_OK || status == WARM_MEMORY);            \
            MUST(status == WARM_OK || (grants < 1000 && (unchanged)));   \
        }                                                                \
        MUST(grants > 1);                                                \
    } while (0)

#endif

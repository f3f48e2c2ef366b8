/*
 * failing_reads.c: threads that want one page, whose reads are slow and fail: failing_reads SHARDS
 * THREADS ROUNDS.
 *
 * In each round each thread pins the same page, which is in no frame, by a handle of its own. The
 * first reads of the page fail: none in the first round, one in the next, and so on, until all do.
 * No read ends before all threads are about to pin the page, so that mostly the others wait for
 * it. Each read that fails refuses one call, whose handle says which page it was, and leaves the
 * other ones to try again, one at a time. A read that does not fail is the last one: all other
 * threads have the page then, where it is. Nobody sees what a read has written that fails. Prints
 * how many failed.
 */
#define _GNU_SOURCE
#include <errno.h>
#include <pthread.h>
#include <stdatomic.h>
#include <stdbool.h>
#include <stdint.h>
#include <stdio.h>
#include <stdlib.h>
#include <string.h>
#include <time.h>
#include <unistd.h>

#include "warm.h"

enum { PAGE_SIZE = 512, FRAMES = 16, PAGES = 4096, MOST_THREADS = 16 };

_Noreturn static void fail(const char *what, int line) {
    fprintf(stderr, "failing_reads: line %d: not so: %s\n", line, what);
    exit(1);
}
#define MUST(what) ((what) ? (void)0 : fail(#what, __LINE__))
#define OK(call) MUST((call) == WARM_OK)

/* A thread, and what came of its pin. */
typedef struct player {
    pthread_t thread;
    warm handle;
    int status;
    warm_slot slot;
    const uint8_t *bytes;
} player;

static player players[MOST_THREADS];
static warm first;
static unsigned threads, rounds;
static pthread_barrier_t begins, ends; /* of a round, for the players and the main thread */

/* Of the round that is played: the page, how many of its reads fail, how many threads want it, and
 * how many of its reads have begun, and are under way. */
static uint64_t page;
static unsigned failing;
static atomic_uint wanting, reads, under_way;

/* Of all rounds. */
static uint64_t all_reads, all_failures, all_hits, all_misses;

static const warm_slot no_slot = {.generation = 77, .index = 77, .shard = 77};

/* ---- the device ---- */

/* Threads that want the page have a millisecond to find that it is being read. */
static void await_all(void) {
    do nanosleep(&(struct timespec){.tv_nsec = 1000000}, NULL);
    while (atomic_load(&wanting) < threads);
}

static int read_page(void *context, uint64_t no, void *into, size_t length) {
    (void)context;
    MUST(no == page && length == PAGE_SIZE && atomic_fetch_add(&under_way, 1) == 0);
    bool fails = atomic_fetch_add(&reads, 1) < failing;
    memset(into, fails ? 'x' : (int)(no % 100), length);
    await_all();
    MUST(atomic_fetch_sub(&under_way, 1) == 1);
    return fails ? EIO : 0;
}

/* No page is changed. */
static int write_page(void *context, uint64_t no, const void *bytes, size_t length) {
    (void)context, (void)no, (void)bytes, (void)length;
    return EROFS;
}

static int sync_pages(void *context) {
    (void)context;
    return 0;
}

static const warm_device_ops calls = {
    .size = sizeof calls, .read = read_page, .write = write_page, .sync = sync_pages};

/* ---- a player ---- */

static void look_at_bytes(const player *its) {
    for (int at = 0; at < PAGE_SIZE; at++) MUST(its->bytes[at] == page % 100);
}

static void look_at_failure(player *its) {
    warm_failure failure = {0};
    bool found = false;
    MUST(its->status == WARM_READ_FAULT && its->bytes == NULL);
    MUST(memcmp(&its->slot, &no_slot, sizeof no_slot) == 0);
    OK(warm_last_failure(&its->handle, &found, &failure));
    MUST(found && failure.no == page && failure.dev == 0 && failure.count == 1);
    MUST(failure.what == WARM_FAILED_READ && failure.error == EIO);
}

static void *play(void *of) {
    player *its = of;
    for (unsigned round = 0; round < rounds; round++) {
        pthread_barrier_wait(&begins);
        its->slot = no_slot;
        its->bytes = NULL;
        atomic_fetch_add(&wanting, 1);
        its->status =
            warm_pin_bytes(&its->handle, (warm_page){.no = page}, &its->slot, &its->bytes);
        if (its->status == WARM_OK) look_at_bytes(its);
        else look_at_failure(its);
        pthread_barrier_wait(&ends);
        if (its->status == WARM_OK) OK(warm_unpin(&its->handle, its->slot));
    }
    OK(warm_close(&its->handle));
    return NULL;
}

/* ---- the main thread ---- */

/* All that have the page have it in one place. Returns how many have, and how many of them have
 * found it there. */
static unsigned count_pins(unsigned *hits) {
    const player *with = NULL;
    unsigned count = 0;
    *hits = 0;
    for (unsigned at = 0; at < threads; at++) {
        const player *its = &players[at];
        if (its->status != WARM_OK) continue;
        if (with == NULL) with = its;
        MUST(its->bytes == with->bytes && its->slot.generation == with->slot.generation);
        MUST(its->slot.index == with->slot.index && its->slot.shard == with->slot.shard);
        count++;
        *hits += its->slot.hit;
    }
    return count;
}

static void check_round(void) {
    unsigned hits, is_read = failing < threads;
    bool resident;
    MUST(count_pins(&hits) == threads - failing && hits == threads - failing - is_read);
    MUST(atomic_load(&reads) == failing + is_read && atomic_load(&under_way) == 0);
    OK(warm_resident(&first, (warm_page){.no = page}, &resident));
    MUST(resident == (is_read == 1));
    all_reads += failing + is_read;
    all_failures += failing;
    all_hits += hits;
    all_misses += is_read;
}

static void play_rounds(void) {
    for (unsigned round = 0; round < rounds; round++) {
        page = round;
        failing = round % (threads + 1);
        atomic_store(&wanting, 0);
        atomic_store(&reads, 0);
        pthread_barrier_wait(&begins);
        pthread_barrier_wait(&ends);
        check_round();
    }
}

/* What was counted, once no thread has a pin. */
static void check_counts(void) {
    warm_counters counted;
    warm_device_counters of_device;
    OK(warm_counts(&first, &counted));
    OK(warm_device_counts(&first, 0, &of_device));
    MUST(counted.hits == all_hits && counted.misses == all_misses);
    MUST(of_device.reads == all_reads && of_device.failures == all_failures);
    OK(warm_forget_pages(&first, 0, 0));
    OK(warm_close(&first));
}

int main(int count, char **words) {
    if (count != 4) {
        fprintf(stderr, "usage: failing_reads SHARDS THREADS ROUNDS\n");
        return 2;
    }
    alarm(600); /* who is not woken waits for ever */
    threads = (unsigned)strtoul(words[2], NULL, 10);
    rounds = (unsigned)strtoul(words[3], NULL, 10);
    MUST(threads >= 1 && threads <= MOST_THREADS && rounds <= PAGES);
    const warm_device device = {.pages = PAGES, .fd = -1, .ops = &calls};
    const warm_options options = {.size = sizeof options,
        .replica = 1,
        .shards = strtoul(words[1], NULL, 10),
        .frames = FRAMES,
        .page_size = PAGE_SIZE,
        .devices = &device,
        .device_count = 1};
    OK(warm_open(&first, &options));
    MUST(pthread_barrier_init(&begins, NULL, threads + 1) == 0);
    MUST(pthread_barrier_init(&ends, NULL, threads + 1) == 0);
    for (unsigned at = 0; at < threads; at++) {
        OK(warm_attach(&first, &players[at].handle));
        MUST(pthread_create(&players[at].thread, NULL, play, &players[at]) == 0);
    }
    play_rounds();
    for (unsigned at = 0; at < threads; at++) MUST(pthread_join(players[at].thread, NULL) == 0);
    check_counts();
    printf("failing_reads: %s shards, %u threads, %llu of %llu reads failed as expected\n",
        words[1], threads, (unsigned long long)all_failures, (unsigned long long)all_reads);
    return 0;
}

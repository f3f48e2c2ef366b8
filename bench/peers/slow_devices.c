/*
 * slow_devices.c: what slow devices cost other calls of ours, and what shards cost a batch. A program's name is its first word:
 *
 *     hits SHARDS      hits a second of one thread, alone, and beside four threads that miss, whose reads take 10 ms; medians of windows
 *     syncs SHARDS     how many syncs, of 100 ms each, a write-back of all shards makes beside a thread that writes, and in which time
 *     batch SHARDS     nanoseconds of processor time of a reference in a batch of 64 that is drawn evenly; the median of some rounds
 */
#define _GNU_SOURCE
#include <pthread.h>
#include <stdatomic.h>
#include <stdio.h>
#include <stdlib.h>
#include <string.h>
#include <time.h>
#include <warm.h>

enum { PAGE_SIZE = 4096, FRAMES = 4096, HOT = 64, MISSING = 4, WINDOWS = 9, BATCH = 64, BATCHES = 2000 };
enum { READ = 10000000, SYNC = 100000000, WINDOW = 200000000 }; /* nanoseconds */

static warm first;
static atomic_bool is_over, is_slow;
static atomic_int syncs;
static atomic_uint_fast64_t hits;

static void ok(int status, const char *call) {
    if (status == WARM_OK) return;
    fprintf(stderr, "slow_devices: %s: status %d\n", call, status);
    exit(1);
}
#define OK(call) ok(call, #call)

static uint64_t now(clockid_t clock) {
    struct timespec time;
    clock_gettime(clock, &time);
    return (uint64_t)time.tv_sec * 1000000000u + (uint64_t)time.tv_nsec;
}

static void wait_for(long nanoseconds) { nanosleep(&(struct timespec){.tv_nsec = nanoseconds}, NULL); }

static uint64_t next_draw(uint64_t drawn) { return drawn * 6364136223846793005u + 1442695040888963407u; }

/* ---- the device ---- */

static int read_slowly(void *context, uint64_t no, void *into, size_t length) {
    (void)context, (void)no;
    if (is_slow) wait_for(READ);
    memset(into, 0, length);
    return 0;
}

static int write_nothing(void *context, uint64_t no, const void *bytes, size_t length) {
    (void)context, (void)no, (void)bytes, (void)length;
    return 0;
}

static int sync_slowly(void *context) {
    (void)context;
    syncs++;
    wait_for(SYNC);
    return 0;
}

static void open_over(size_t shards) {
    static const warm_device_ops ops = {.size = sizeof ops, .read = read_slowly, .write = write_nothing, .sync = sync_slowly};
    const warm_device device = {.pages = 1 << 20, .ops = &ops};
    const warm_options options = {.size = sizeof options, .replica = 1, .shards = shards, .frames = FRAMES, .page_size = PAGE_SIZE, .devices = &device,
        .device_count = 1};
    OK(warm_open(&first, &options));
}

static void write_page(warm *by, uint64_t no) {
    warm_slot slot;
    OK(warm_pin(by, (warm_page){.no = no}, &slot));
    OK(warm_write(by, slot, 0, &no, sizeof no));
    OK(warm_unpin(by, slot));
}

/* ---- hits beside misses ---- */

/* Pages that are hot: their references are later than all others. */
static void load_hot(void) {
    for (uint64_t no = 0; no < HOT; no++) {
        const warm_reference two[] = {{.replica = 1, .no = no, .time = UINT32_MAX}, {.replica = 1, .no = no, .time = (uint64_t)UINT32_MAX + 1}};
        OK(warm_absorb(&first, two, 2));
        OK(warm_prefetch(&first, (warm_page){.no = no}));
    }
}

static void *hit(void *handle) {
    for (uint64_t no = 0; !is_over; no++) {
        const uint8_t *bytes;
        warm_slot slot;
        OK(warm_pin_bytes(handle, (warm_page){.no = no % HOT}, &slot, &bytes));
        OK(warm_unpin(handle, slot));
        atomic_store_explicit(&hits, no, memory_order_relaxed);
    }
    return NULL;
}

/* Reads pages that are in no frame, while reads are slow; else it waits. */
static void *miss(void *handle) {
    static atomic_uint_fast64_t threads;
    uint64_t drawn = ++threads * 99991;
    while (!is_over) {
        drawn = next_draw(drawn);
        if (is_slow) OK(warm_prefetch(handle, (warm_page){.no = 1000 + (drawn >> 45)}));
        else wait_for(READ / 10);
    }
    return NULL;
}

static int by_size(const void *one, const void *other) {
    double first_one = *(const double *)one, second = *(const double *)other;
    return (first_one > second) - (first_one < second);
}

static double median(double *all, size_t count) {
    qsort(all, count, sizeof *all, by_size);
    return all[count / 2];
}

static double hits_in_window(bool slow) {
    is_slow = slow;
    wait_for(WINDOW / 4); /* until all are at it */
    uint64_t before = hits, start = now(CLOCK_MONOTONIC);
    wait_for(WINDOW);
    return (double)(hits - before) * 1e9 / (double)(now(CLOCK_MONOTONIC) - start);
}

static void hits_beside_misses(size_t shards) {
    static warm handles[MISSING + 1];
    pthread_t threads[MISSING + 1];
    double alone[WINDOWS], beside[WINDOWS];
    open_over(shards);
    load_hot();
    for (int at = 0; at <= MISSING; at++) {
        OK(warm_attach(&first, &handles[at]));
        if (pthread_create(&threads[at], NULL, at == 0 ? hit : miss, &handles[at]) != 0) OK(WARM_MEMORY);
    }
    for (int at = 0; at < WINDOWS; at++) {
        alone[at] = hits_in_window(false);
        beside[at] = hits_in_window(true);
    }
    is_over = true;
    for (int at = 0; at <= MISSING; at++) {
        pthread_join(threads[at], NULL);
        OK(warm_close(&handles[at]));
    }
    double quiet = median(alone, WINDOWS), loud = median(beside, WINDOWS);
    printf("%.3f of %.0f hits a second\n", loud / quiet, quiet);
}

/* ---- syncs beside a writer ---- */

static void *write_often(void *handle) {
    for (uint64_t no = 0; !is_over; no++) {
        write_page(handle, HOT + no % (FRAMES / 2));
        if (no % 64 == 0) wait_for(READ / 10);
    }
    return NULL;
}

static void syncs_beside_writer(size_t shards) {
    static warm own, writing;
    pthread_t writer;
    open_over(shards);
    OK(warm_attach(&first, &own));
    OK(warm_attach(&first, &writing));
    if (pthread_create(&writer, NULL, write_often, &writing) != 0) OK(WARM_MEMORY);
    wait_for(WINDOW);
    for (uint64_t no = 0; no < shards; no++) write_page(&own, no);
    int before = syncs;
    uint64_t start = now(CLOCK_MONOTONIC);
    OK(warm_write_back_all(&own));
    printf("%d syncs in %.0f ms\n", syncs - before, (double)(now(CLOCK_MONOTONIC) - start) / 1e6);
    is_over = true;
    pthread_join(writer, NULL);
    OK(warm_close(&own));
    OK(warm_close(&writing));
}

/* ---- batches ---- */

static double batches(warm *by, uint64_t *time) {
    static warm_reference all[BATCH];
    uint64_t spent = 0;
    for (int round = 0; round < BATCHES; round++) {
        for (int at = 0; at < BATCH; at++)
            all[at] = (warm_reference){.replica = 1, .no = next_draw(++*time) >> 50, .time = *time};
        uint64_t start = now(CLOCK_THREAD_CPUTIME_ID);
        OK(warm_absorb(by, all, BATCH));
        spent += now(CLOCK_THREAD_CPUTIME_ID) - start;
    }
    return (double)spent / BATCHES / BATCH;
}

static void batches_of_references(size_t shards) {
    static warm own;
    double rounds[WINDOWS];
    uint64_t time = 0;
    open_over(shards);
    OK(warm_attach(&first, &own));
    batches(&own, &time); /* the pages are known then */
    for (int at = 0; at < WINDOWS; at++) rounds[at] = batches(&own, &time);
    printf("%.1f ns a reference\n", median(rounds, WINDOWS));
    OK(warm_close(&own));
}

int main(int count, char **words) {
    size_t shards = count == 3 ? strtoul(words[2], NULL, 10) : 0;
    const char *what = shards > 0 ? words[1] : "";
    if (strcmp(what, "hits") == 0) hits_beside_misses(shards);
    else if (strcmp(what, "syncs") == 0) syncs_beside_writer(shards);
    else if (strcmp(what, "batch") == 0) batches_of_references(shards);
    else return fprintf(stderr, "usage: slow_devices hits|syncs|batch SHARDS\n"), 2;
    OK(warm_abandon(&first));
    return 0;
}

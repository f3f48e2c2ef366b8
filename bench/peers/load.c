/*
 * load.c: plays a load on the pool of a program: PROGRAM KIND hits|misses PAGES SLICES THREADS SHARDS FILE. First each thread fills the pool. Then
 * it plays the slices, each of 1,024 calls; all threads begin a slice together. Prints the nanoseconds of a call of each thread in the
 * fastest slice and in the median one, from the first thread's begin to the last thread's end, and how many reads of the system a call made in
 * all slices. A slice counts only if the last thread began in its first twentieth: on a busy machine there may be none, and that is "inf ns".
 */
#define _POSIX_C_SOURCE 200809L
#include "load.h"

#include <fcntl.h>
#include <math.h>
#include <pthread.h>
#include <sched.h>
#include <stdatomic.h>
#include <stdio.h>
#include <stdlib.h>
#include <string.h>
#include <time.h>
#include <unistd.h>
#include <valgrind/callgrind.h>

enum { SLICE = 1024, MOST_PAGES = 65536, MOST_THREADS = 64, FILE_BY_POOL = 8, MOST_LOOKS = 100000 };

struct player {
    const struct load *load;
    void *pool; /* that this thread joined */
    uint64_t drawn;
    uint64_t start, end; /* of its last slice, in nanoseconds */
    uint32_t pages[SLICE];
};

static struct player players[MOST_THREADS];
static uint64_t *taken; /* by each slice that counts, in nanoseconds */
static size_t counted;
static uint64_t reads;

static void fail(const char *what) {
    fprintf(stderr, "%s: %s\n", program, what);
    exit(1);
}

static uint64_t now(void) {
    struct timespec time;
    clock_gettime(CLOCK_MONOTONIC, &time);
    return (uint64_t)time.tv_sec * 1000000000u + (uint64_t)time.tv_nsec;
}

/* The reads of the system that this process made so far: Linux counts them. */
static uint64_t reads_so_far(void) {
    char text[512];
    int fd = open("/proc/self/io", O_RDONLY);
    ssize_t length = fd < 0 ? -1 : read(fd, text, sizeof text - 1);
    if (length < 0) fail("/proc/self/io cannot be read");
    close(fd);
    text[length] = 0;
    const char *line = strstr(text, "syscr: ");
    if (line == NULL) fail("/proc/self/io does not count reads");
    return strtoull(line + strlen("syscr: "), NULL, 10);
}

/* Waits for all threads, in a loop, so that all go on at once. Whoever has to wait for long leaves its processor to the others. */
static void meet(const struct load *load) {
    static atomic_uint arrived, meetings;
    unsigned before = atomic_load(&meetings), looks = 0;
    if (atomic_fetch_add(&arrived, 1) + 1 == load->threads) {
        atomic_store(&arrived, 0);
        atomic_store(&meetings, before + 1);
        return;
    }
    while (atomic_load(&meetings) == before) {
        if (++looks > MOST_LOOKS) sched_yield();
    }
}

static void draw_slice(struct player *player, bool is_hit) {
    const struct load *load = player->load;
    for (size_t i = 0; i < SLICE; i++) {
        player->drawn = next_draw(player->drawn);
        player->pages[i] = is_hit ? high_page(player->drawn, load->pages) : low_page(player->drawn, load->file_pages);
    }
    before_slice(player->pool, player->pages, SLICE);
}

static void check_read(const struct player *player, uint64_t checksum) {
    uint64_t expected = 0;
    for (size_t i = 0; i < SLICE; i++) expected = added(expected, player->pages[i]);
    if (checksum != expected) fail("other bytes were read than the file has");
}

/* bench/peers/measure.py counts the instructions of this function. */
__attribute__((noinline)) static uint64_t measured_slice(struct player *player) {
    player->start = now();
    uint64_t checksum = play_slice(player->pool, player->pages, SLICE);
    player->end = now();
    return checksum;
}

static void take_time(const struct load *load) {
    uint64_t first_start = UINT64_MAX, last_start = 0, end = 0;
    for (const struct player *player = players; player < players + load->threads; player++) {
        if (player->start < first_start) first_start = player->start;
        if (player->start > last_start) last_start = player->start;
        if (player->end > end) end = player->end;
    }
    bool is_together = last_start - first_start <= (end - first_start) / 20;
    if (is_together) taken[counted++] = end - first_start;
}

static void play_slices(struct player *player) {
    const struct load *load = player->load;
    for (uint32_t i = 0; i < load->slices; i++) {
        draw_slice(player, !load->is_of_misses);
        meet(load);
        uint64_t checksum = measured_slice(player);
        meet(load);
        check_read(player, checksum);
        if (player == players) take_time(load);
    }
}

/* Once around the pages of hits. For misses as many pages as twice the pool has room for: some pools hold more than is asked for. */
static void fill(struct player *player) {
    const struct load *load = player->load;
    uint32_t pages = load->is_of_misses ? 2 * load->pages : load->pages;
    for (uint32_t filled = 0; filled < pages; filled += SLICE) {
        draw_slice(player, false);
        check_read(player, play_slice(player->pool, player->pages, SLICE));
    }
}

static void *play(void *at) {
    struct player *player = at;
    const struct load *load = player->load;
    fill(player);
    CALLGRIND_START_INSTRUMENTATION; /* the fill is not counted, and takes much longer if it is looked at */
    meet(load);
    if (player == players) reads = reads_so_far();
    play_slices(player);
    if (player == players) reads = reads_so_far() - reads;
    return NULL;
}

/* Each thread begins elsewhere in the round of draws: what one draws, no other draws soon. */
static void play_all(const struct load *load) {
    pthread_t threads[MOST_THREADS];
    void *pool = open_pool(load, 1);
    uint64_t drawn = 1;
    for (uint32_t i = 0; i < load->threads; i++) {
        players[i] = (struct player){.load = load, .pool = join_pool(pool), .drawn = drawn};
        for (uint32_t j = 0; j < load->file_pages / load->threads; j++) drawn = next_draw(drawn);
    }
    for (uint32_t i = 1; i < load->threads; i++) {
        if (pthread_create(&threads[i], NULL, play, &players[i]) != 0) fail("there is no further thread");
    }
    play(players);
    for (uint32_t i = 1; i < load->threads; i++) pthread_join(threads[i], NULL);
    for (uint32_t i = 0; i < load->threads; i++) leave_pool(pool, players[i].pool);
    close_pool(pool);
}

static bool is_load(const struct load *load, const char *what) {
    bool is_kind = strcmp(load->kind, kinds[0]) == 0 || strcmp(load->kind, kinds[1]) == 0;
    bool is_size = load->pages >= SLICE && load->pages <= MOST_PAGES && (load->pages & (load->pages - 1)) == 0;
    bool is_count = load->slices > 0 && load->threads > 0 && load->threads <= MOST_THREADS;
    bool is_split = load->shards <= 64 && (load->shards & (load->shards - 1)) == 0;
    return is_kind && is_size && is_count && is_split && (load->is_of_misses || strcmp(what, "hits") == 0);
}

static int by_time(const void *one, const void *other) {
    uint64_t first, second;
    memcpy(&first, one, sizeof first);
    memcpy(&second, other, sizeof second);
    return (first > second) - (first < second);
}

/* The nanoseconds of a call in the slice at this place in the order of times. */
static double call_at(size_t place) { return counted == 0 ? INFINITY : (double)taken[place] / SLICE; }

int main(int count, char **words) {
    struct load load = {0};
    if (count == 8) {
        load = (struct load){
            .kind = words[1],
            .path = words[7],
            .is_of_misses = strcmp(words[2], "misses") == 0,
            .pages = (uint32_t)strtoul(words[3], NULL, 10),
            .slices = (uint32_t)strtoul(words[4], NULL, 10),
            .threads = (uint32_t)strtoul(words[5], NULL, 10),
            .shards = (uint32_t)strtoul(words[6], NULL, 10),
        };
        load.file_pages = load.is_of_misses ? load.pages * FILE_BY_POOL : load.pages;
    }
    if (count != 8 || !is_load(&load, words[2])) {
        fprintf(stderr, "usage: %s %s|%s hits|misses PAGES SLICES THREADS SHARDS FILE\n", program, kinds[0], kinds[1]);
        return 2;
    }
    load.fd = open(load.path, O_RDONLY);
    if (load.fd < 0) fail("the file cannot be opened");
    taken = calloc(load.slices, sizeof *taken);
    if (taken == NULL) fail("there is no memory");
    play_all(&load);
    close(load.fd);
    qsort(taken, counted, sizeof *taken, by_time);
    printf("%.2f ns, %.2f in the median\n", call_at(0), call_at(counted / 2));
    printf("%.3f reads\n", (double)reads / SLICE / load.slices / load.threads);
    free(taken);
    return 0;
}

/*
 * Measures hits in the pool of a handle: hits FRAMES HITS [lent], the same as crates/bench_threads/src/shards.rt does in Rattle. FRAMES is a power
 * of two up to 65,536, and each frame has a page of 16 bytes. A hit pins a page that is drawn evenly, reads eight bytes of it, and unpins it. It
 * reads by warm_read, or, with the third word, where the bytes lie that warm_pin_bytes lends.
 * Prints a checksum of what was read, and nanoseconds.
 */
#define _POSIX_C_SOURCE 200809L
#include <inttypes.h>
#include <stdbool.h>
#include <stdio.h>
#include <stdlib.h>
#include <string.h>
#include <time.h>
#include <unistd.h>
#include <warm.h>

enum { PAGE_SIZE = 16 };

static void ok(int status, const char *call) {
    if (status == WARM_OK) return;
    fprintf(stderr, "hits: %s: status %d\n", call, status);
    exit(1);
}

static void put_number(warm *pool, uint64_t no) {
    uint8_t bytes[8];
    warm_slot slot;
    memcpy(bytes, &no, sizeof bytes);
    ok(warm_pin(pool, (warm_page){.no = no}, &slot), "warm_pin");
    ok(warm_write(pool, slot, 0, bytes, sizeof bytes), "warm_write");
    ok(warm_unpin(pool, slot), "warm_unpin");
}

/* The number in a page. */
static uint64_t number_in(warm *pool, uint64_t no) {
    uint8_t bytes[8];
    uint64_t number;
    warm_slot slot;
    ok(warm_pin(pool, (warm_page){.no = no}, &slot), "warm_pin");
    ok(warm_read(pool, slot, 0, bytes, sizeof bytes), "warm_read");
    ok(warm_unpin(pool, slot), "warm_unpin");
    memcpy(&number, bytes, sizeof number);
    return number;
}

/* The same by bytes that are lent. */
static uint64_t lent_number_in(warm *pool, uint64_t no) {
    const uint8_t *bytes;
    uint64_t number;
    warm_slot slot;
    ok(warm_pin_bytes(pool, (warm_page){.no = no}, &slot, &bytes), "warm_pin_bytes");
    memcpy(&number, bytes, sizeof number);
    ok(warm_unpin(pool, slot), "warm_unpin");
    return number;
}

static uint64_t hit_often(warm *pool, uint64_t mask, uint64_t hits, bool are_lent) {
    uint64_t drawn = 1, checksum = 0;
    for (uint64_t i = 0; i < hits; i++) {
        drawn = drawn * 6364136223846793005u + 1442695040888963407u;
        uint64_t no = (drawn >> 48) & mask;
        checksum = checksum * 31 + (are_lent ? lent_number_in(pool, no) : number_in(pool, no));
    }
    return checksum;
}

static uint64_t now(void) {
    struct timespec time;
    clock_gettime(CLOCK_MONOTONIC, &time);
    return (uint64_t)time.tv_sec * 1000000000u + (uint64_t)time.tv_nsec;
}

int main(int count, char **words) {
    bool are_lent = count == 4 && strcmp(words[3], "lent") == 0;
    if (count != 3 && !are_lent) {
        fprintf(stderr, "usage: hits FRAMES HITS [lent]\n");
        return 2;
    }
    uint64_t frames = strtoull(words[1], NULL, 10), hits = strtoull(words[2], NULL, 10);
    FILE *file = tmpfile();
    if (file == NULL) {
        perror("hits");
        return 1;
    }
    warm pool = {0};
    warm_device device = {.pages = frames, .fd = fileno(file)};
    const warm_options options = {.size = sizeof options, .replica = 1, .frames = (size_t)frames, .page_size = PAGE_SIZE, .devices = &device,
        .device_count = 1};
    ok(warm_open(&pool, &options), "warm_open");
    for (uint64_t no = 0; no < frames; no++) put_number(&pool, no);
    uint64_t start = now();
    uint64_t checksum = hit_often(&pool, frames - 1, hits, are_lent);
    uint64_t spent = now() - start;
    warm_abandon(&pool); /* its pages are written back by nobody */
    fclose(file);
    printf("%" PRIu64 "\n%" PRIu64 " ns\n", checksum, spent);
    return 0;
}

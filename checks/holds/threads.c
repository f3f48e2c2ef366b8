/*
 * threads.c: threads that pin pages of a small pool, most of which leave soon: threads SHARDS THREADS SECONDS SEED. Each page of the file is
 * full of its number. Whatever the other threads do, a page that is pinned has it, where it was found first. With the word "sharing" there are
 * more frames than records that the pages may have, which take these from each other. With the word "forgetting" they forget pages, too, so
 * that few leave for others. With the word "writing" they make pages dirty, which have the same bytes afterwards, so that most are written before
 * they leave, and write some back. Prints how many pins were made.
 */
#define _GNU_SOURCE /* mkstemp */
#include <pthread.h>
#include <stdatomic.h>
#include <stdio.h>
#include <stdlib.h>
#include <string.h>
#include <time.h>
#include <unistd.h>

#include "holds.h"
#include "warm.h"

enum { PAGE_SIZE = 64, WORDS = PAGE_SIZE / 8, PAGES = 24, FRAMES = 6, MORE_FRAMES = 16, MOST_THREADS = 16, MOST_KEPT = 2 };

_Noreturn static void fail(const char *what, int line) {
    fprintf(stderr, "threads: line %d: not so: %s\n", line, what);
    exit(1);
}
#define MUST(what) ((what) ? (void)0 : fail(#what, __LINE__))

struct kept {
    uint64_t no;
    warm_slot slot;
    const uint8_t *bytes;
};

struct player {
    pthread_t thread;
    warm handle;
    uint64_t drawn, pins;
    int count;
    struct kept kept[MOST_KEPT];
};

static struct player players[MOST_THREADS];
static uint64_t numbers[PAGES]; /* of the pages */
static size_t shards;
static bool is_forgetting, is_writing;
static atomic_bool is_over;

static uint64_t draw(struct player *player, uint64_t below) {
    player->drawn ^= player->drawn << 13;
    player->drawn ^= player->drawn >> 7;
    player->drawn ^= player->drawn << 17;
    return (player->drawn * 2685821657736338717u >> 16) % below;
}

static void check_bytes(const struct kept *one) {
    uint64_t words[WORDS];
    memcpy(words, one->bytes, PAGE_SIZE);
    for (int at = 0; at < WORDS; at++) MUST(words[at] == one->no);
}

static void unpin(struct player *player, int at) {
    struct kept one = player->kept[at];
    check_bytes(&one);
    MUST(warm_unpin(&player->handle, one.slot) == WARM_OK);
    player->kept[at] = player->kept[--player->count];
}

static void forget(struct player *player) {
    int status = warm_forget_pages(&player->handle, 0, numbers[draw(player, PAGES)]);
    MUST(status == WARM_OK || status == WARM_PINNED);
}

static void change(struct player *player, struct kept one) {
    size_t left;
    int status = WARM_OK;
    MUST(warm_mark_dirty(&player->handle, one.slot) == WARM_OK);
    if (draw(player, 16) == 0) status = warm_write_back_some(&player->handle, 2, &left);
    MUST(status == WARM_OK);
}

static void play_once(struct player *player) {
    struct kept one = {.no = numbers[draw(player, PAGES)]};
    int status = warm_pin_bytes(&player->handle, (warm_page){.no = one.no}, &one.slot, &one.bytes);
    MUST(status == WARM_OK || status == WARM_ALL_PINNED);
    if (is_forgetting && draw(player, 16) == 0) forget(player);
    if (status == WARM_OK) {
        player->pins++;
        check_bytes(&one);
        if (is_writing && draw(player, 2) == 0) change(player, one);
        player->kept[player->count++] = one;
    }
    if (player->count > 0 && (player->count == MOST_KEPT || draw(player, 4) != 0)) unpin(player, (int)draw(player, (uint64_t)player->count));
}

static void *play(void *at) {
    struct player *player = at;
    while (!atomic_load(&is_over)) play_once(player);
    while (player->count > 0) unpin(player, 0);
    MUST(warm_close(&player->handle) == WARM_OK);
    return NULL;
}

/* The first numbers, or those of pages that look for the same record where a shard has MORE_FRAMES. */
static void number_pages(bool are_sharing) {
    static record records[2 * MORE_FRAMES + NEAR];
    const table of = {.records = records, .mask = MORE_FRAMES - 1};
    uint64_t no = 0;
    for (int at = 0; at < PAGES; no++) {
        if (!are_sharing || first_record(&of, (node_page){.no = no}) == records) numbers[at++] = no;
    }
}

static int file_of_pages(void) {
    const char *folder = getenv("TMPDIR");
    char path[512];
    snprintf(path, sizeof path, "%s/warm-threads-XXXXXX", folder == NULL ? "/tmp" : folder);
    int fd = mkstemp(path);
    MUST(fd >= 0 && unlink(path) == 0);
    for (int page = 0; page < PAGES; page++) {
        uint64_t words[WORDS];
        for (int at = 0; at < WORDS; at++) words[at] = numbers[page];
        MUST(pwrite(fd, words, PAGE_SIZE, (off_t)numbers[page] * PAGE_SIZE) == PAGE_SIZE);
    }
    return fd;
}

static void check_file(int fd) {
    for (int page = 0; page < PAGES; page++) {
        uint64_t words[WORDS];
        MUST(pread(fd, words, PAGE_SIZE, (off_t)numbers[page] * PAGE_SIZE) == PAGE_SIZE);
        for (int at = 0; at < WORDS; at++) MUST(words[at] == numbers[page]);
    }
}

int main(int count, char **words) {
    if (count != 5 && count != 6) {
        fprintf(stderr, "usage: threads SHARDS THREADS SECONDS SEED [sharing|forgetting|writing]\n");
        return 2;
    }
    bool are_sharing = count == 6 && strcmp(words[5], "sharing") == 0;
    is_forgetting = count == 6 && strcmp(words[5], "forgetting") == 0;
    is_writing = count == 6 && strcmp(words[5], "writing") == 0;
    number_pages(are_sharing);
    size_t frames = are_sharing ? MORE_FRAMES : FRAMES;
    warm first = {0};
    uint64_t pins = 0;
    shards = strtoul(words[1], NULL, 10);
    size_t threads = strtoul(words[2], NULL, 10);
    MUST(threads <= MOST_THREADS);
    int fd = file_of_pages();
    const warm_device device = {.pages = numbers[PAGES - 1] + 1, .fd = fd};
    const warm_options options = {.size = sizeof options, .replica = 1, .shards = shards, .frames = frames * shards, .page_size = PAGE_SIZE,
        .devices = &device, .device_count = 1};
    MUST(warm_open(&first, &options) == WARM_OK);
    for (size_t at = 0; at < threads; at++) {
        players[at].drawn = (strtoull(words[4], NULL, 10) + 1) * 2654435761u + at;
        MUST(warm_attach(&first, &players[at].handle) == WARM_OK);
        MUST(pthread_create(&players[at].thread, NULL, play, &players[at]) == 0);
    }
    nanosleep(&(struct timespec){.tv_sec = (time_t)strtoul(words[3], NULL, 10)}, NULL);
    atomic_store(&is_over, true);
    for (size_t at = 0; at < threads; at++) {
        MUST(pthread_join(players[at].thread, NULL) == 0);
        pins += players[at].pins;
    }
    MUST(warm_write_back_all(&first) == WARM_OK);
    MUST(warm_forget_pages(&first, 0, 0) == WARM_OK); /* no pin is left */
    check_file(fd);
    MUST(warm_close(&first) == WARM_OK);
    printf("threads: %zu shards, %zu threads, %llu pins as expected\n", shards, threads, (unsigned long long)pins);
    return 0;
}

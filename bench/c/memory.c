/*
 * Measures the memory of a history that was opened alone: memory PAGES ORDER. It absorbs a reference of each of so many pages, of one device:
 * ORDER is `ascending` (by their numbers), or `scattered` (numbers over all 64 bits). Prints the bytes a page by which the process grew.
 */
#include <inttypes.h>
#include <stdio.h>
#include <stdlib.h>
#include <string.h>
#include <unistd.h>
#include <warm.h>

enum { BATCH = 64 };

static void must(bool holds, const char *what) {
    if (holds) return;
    fprintf(stderr, "memory: %s\n", what);
    exit(1);
}

/* What the process has in memory, in bytes. */
static uint64_t resident(void) {
    uint64_t all, in_memory = 0;
    FILE *file = fopen("/proc/self/statm", "r");
    must(file != NULL && fscanf(file, "%" SCNu64 " %" SCNu64, &all, &in_memory) == 2, "no /proc/self/statm");
    fclose(file);
    return in_memory * (uint64_t)sysconf(_SC_PAGESIZE);
}

/* An odd factor maps different numbers to different ones. */
static uint64_t number_of(uint64_t at, bool scattered) { return scattered ? at * 0x9e3779b97f4a7c15u : at; }

static void absorb(warm *history, uint64_t pages, bool scattered) {
    for (uint64_t at = 0; at < pages; at += BATCH) {
        warm_reference batch[BATCH];
        size_t count = pages - at < BATCH ? (size_t)(pages - at) : BATCH;
        for (size_t i = 0; i < count; i++)
            batch[i] = (warm_reference){.no = number_of(at + i, scattered), .time = at + i, .replica = 1};
        must(warm_absorb(history, batch, count) == WARM_OK, "warm_absorb");
    }
}

int main(int count, char **words) {
    static const char usage[] = "usage: memory PAGES ascending|scattered";
    must(count == 3, usage);
    uint64_t pages = strtoull(words[1], NULL, 10);
    bool scattered = strcmp(words[2], "scattered") == 0;
    must(pages > 0 && (scattered || strcmp(words[2], "ascending") == 0), usage);
    warm history = {0};
    const warm_options options = {.size = sizeof options, .replica = 1};
    must(warm_open(&history, &options) == WARM_OK, "warm_open");
    uint64_t before = resident();
    absorb(&history, pages, scattered);
    printf("%.2f\n", (double)(resident() - before) / (double)pages);
    warm_abandon(&history);
    return 0;
}

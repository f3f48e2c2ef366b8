/*
 * load.h: the load that all programs of bench/peers have, and what each of them defines. load.c has the main function, the threads and
 * the times; mpool.c, rocks.cc and ours.c have a pool each.
 */
#ifndef LOAD_H
#define LOAD_H

#include <stdbool.h>
#include <stddef.h>
#include <stdint.h>

#ifdef __cplusplus
extern "C" {
#endif

enum { PAGE_SIZE = 4096 };

/* What a program is asked to do. Page n of the file is at byte n * PAGE_SIZE, and its first eight bytes are n. */
struct load {
    const char *kind;    /* which of its pools the program opens */
    const char *path;    /* of the file */
    int fd;              /* of the file, for reading */
    bool is_of_misses;   /* or else of hits */
    uint32_t pages;      /* as many as the pool has room for: a power of two */
    uint32_t file_pages; /* of the file, those that are drawn: a power of two */
    uint32_t slices;
    uint32_t threads;
    uint32_t shards;     /* that one pool is to have, where its program says how many: a power of two up to 64; 0: as many as it chooses */
};

/* The draws, a linear congruence. Its low bits go through all pages of the file before one comes again, so that each draw is a miss where
 * the file is much larger than the pool. Its high bits are drawn evenly from up to 65,536 pages. */
static inline uint64_t next_draw(uint64_t drawn) {
    return drawn * 6364136223846793005u + 1442695040888963407u;
}

static inline uint32_t low_page(uint64_t drawn, uint32_t pages) {
    return (uint32_t)drawn & (pages - 1);
}

static inline uint32_t high_page(uint64_t drawn, uint32_t pages) {
    return (uint32_t)(drawn >> 48) & (pages - 1);
}

/* What was read, put into one number. */
static inline uint64_t added(uint64_t checksum, uint64_t number) {
    return checksum * 31 + number;
}

/* ---- what a program defines */

extern const char *const program; /* its name */
extern const char *const kinds[2]; /* of its pools */

/* An empty pool of the load's kind, which all threads use. The draws of the first thread follow this one. */
void *open_pool(const struct load *load, uint64_t drawn);

/* What a thread calls the pool by. No two threads are in this function, nor in leave_pool, at the same time. */
void *join_pool(void *pool);
void leave_pool(void *pool, void *joined);

/* What comes before a slice and is not measured. */
void before_slice(void *joined, const uint32_t *pages, size_t count);

/* Of each page in turn: gets it, so that it stays in memory, reads its first eight bytes, and gives it back. Returns the checksum of what
 * was read. */
uint64_t play_slice(void *joined, const uint32_t *pages, size_t count);

void close_pool(void *pool);

#ifdef __cplusplus
}
#endif

#endif

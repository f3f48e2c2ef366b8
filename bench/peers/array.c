/*
 * array.c: the machine's own limit: an array with the bytes of all pages, of which a call reads the first eight of one. There is no pool, and
 * nothing is looked up, counted or locked. Both kinds are this one.
 */
#define _GNU_SOURCE /* MADV_HUGEPAGE */
#include "load.h"

#include <stdio.h>
#include <stdlib.h>
#include <string.h>
#include <sys/mman.h>
#include <unistd.h>

const char *const program = "array";
const char *const kinds[2] = {"plain", "plain"};

struct array {
    uint8_t *bytes;
    size_t length;
};

void *open_pool(const struct load *load, uint64_t drawn) {
    struct array *array = malloc(sizeof *array);
    size_t length = (size_t)load->pages * PAGE_SIZE, got = 0;
    void *bytes = mmap(NULL, length, PROT_READ | PROT_WRITE, MAP_PRIVATE | MAP_ANONYMOUS, -1, 0);
    (void)drawn;
    if (array == NULL || bytes == MAP_FAILED || load->is_of_misses) {
        fprintf(stderr, "array: there is no memory, or the load is not of hits\n");
        exit(1);
    }
    madvise(bytes, length, MADV_HUGEPAGE); /* as large pools have them */
    *array = (struct array){.bytes = bytes, .length = length};
    for (ssize_t n = 1; n > 0 && got < length; got += (size_t)n) {
        n = pread(load->fd, array->bytes + got, length - got, (off_t)got);
        if (n < 0) n = 0;
    }
    return array;
}

void *join_pool(void *pool) { return pool; }

void leave_pool(void *pool, void *joined) { (void)pool, (void)joined; }

void before_slice(void *joined, const uint32_t *pages, size_t count) { (void)joined, (void)pages, (void)count; }

uint64_t play_slice(void *joined, const uint32_t *pages, size_t count) {
    const struct array *array = joined;
    uint64_t checksum = 0, number;
    for (size_t i = 0; i < count; i++) {
        memcpy(&number, array->bytes + (size_t)pages[i] * PAGE_SIZE, sizeof number);
        checksum = added(checksum, number);
    }
    return checksum;
}

void close_pool(void *pool) {
    struct array *array = pool;
    munmap(array->bytes, array->length);
    free(array);
}

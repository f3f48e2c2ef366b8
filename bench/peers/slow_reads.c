/*
 * slow_reads.c: threads that miss over a device which takes a millisecond for each read: slow_reads SHARDS THREADS READS. It makes the call of
 * the system itself (pread), in place of the C library's, and waits. Prints how many reads were under way at a time, in the mean and at most,
 * and how many were made in a second.
 */
#define _GNU_SOURCE /* memfd_create */
#include <pthread.h>
#include <stdatomic.h>
#include <stdio.h>
#include <stdlib.h>
#include <string.h>
#include <sys/mman.h>
#include <sys/syscall.h>
#include <time.h>
#include <unistd.h>
#include <warm.h>

enum { PAGE_SIZE = 4096, PAGES = 65536, FRAMES = 1024, MOST_THREADS = 64, READ = 1000000 /* nanoseconds */ };

static warm first;
static unsigned reads_each;
static atomic_uint under_way, most;
static atomic_uint_fast64_t sum, made;

static void ok(int status, const char *call) {
    if (status == WARM_OK) return;
    fprintf(stderr, "slow_reads: %s: status %d\n", call, status);
    exit(1);
}

static uint64_t now(void) {
    struct timespec time;
    clock_gettime(CLOCK_MONOTONIC, &time);
    return (uint64_t)time.tv_sec * 1000000000u + (uint64_t)time.tv_nsec;
}

/* The library's reads come here: it is compiled for places of 64 bits in files. */
ssize_t pread64(int fd, void *into, size_t length, off_t at) {
    unsigned together = atomic_fetch_add(&under_way, 1) + 1, before = atomic_load(&most);
    while (before < together && !atomic_compare_exchange_weak(&most, &before, together)) continue;
    atomic_fetch_add(&sum, together);
    atomic_fetch_add(&made, 1);
    nanosleep(&(struct timespec){.tv_nsec = READ}, NULL);
    ssize_t got = syscall(SYS_pread64, fd, into, length, at);
    atomic_fetch_sub(&under_way, 1);
    return got;
}

struct reader {
    pthread_t thread;
    warm handle;
    uint64_t drawn;
};

static void *read_pages(void *at) {
    struct reader *reader = at;
    warm_slot slot;
    for (unsigned i = 0; i < reads_each; i++) {
        reader->drawn = reader->drawn * 6364136223846793005u + 1442695040888963407u;
        ok(warm_pin(&reader->handle, (warm_page){.no = reader->drawn >> 48}, &slot), "warm_pin");
        ok(warm_unpin(&reader->handle, slot), "warm_unpin");
    }
    return NULL;
}

int main(int count, char **words) {
    static struct reader readers[MOST_THREADS];
    unsigned threads = count == 4 ? (unsigned)strtoul(words[2], NULL, 10) : 0;
    if (threads == 0 || threads > MOST_THREADS) {
        fprintf(stderr, "usage: slow_reads SHARDS THREADS READS\n");
        return 2;
    }
    reads_each = (unsigned)strtoul(words[3], NULL, 10);
    warm_device device = {.pages = PAGES, .fd = memfd_create("pages", 0)};
    const warm_options options = {.size = sizeof options, .replica = 1, .shards = strtoul(words[1], NULL, 10), .frames = FRAMES,
        .page_size = PAGE_SIZE, .devices = &device, .device_count = 1};
    ok(warm_open(&first, &options), "warm_open");
    uint64_t start = now();
    for (unsigned i = 0; i < threads; i++) {
        readers[i].drawn = (uint64_t)i << 32 | 1;
        ok(warm_attach(&first, &readers[i].handle), "warm_attach");
        if (pthread_create(&readers[i].thread, NULL, read_pages, &readers[i]) != 0) ok(WARM_MEMORY, "pthread_create");
    }
    for (unsigned i = 0; i < threads; i++) {
        pthread_join(readers[i].thread, NULL);
        ok(warm_close(&readers[i].handle), "warm_close");
    }
    double spent = (double)(now() - start) / 1e9;
    ok(warm_close(&first), "warm_close");
    printf("%.2f under way in the mean, %u at most, %.0f reads a second\n", (double)sum / (double)made, most, (double)made / spent);
    return 0;
}

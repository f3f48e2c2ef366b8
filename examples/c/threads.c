/* One handle, handed round by threads under a lock: each adds to a count in each of a few pages, and one of them closes the handle. Without the
 * lock they read a page that is lent to all of them, and that none writes to. */
#define _GNU_SOURCE /* mkstemp */
#include <pthread.h>

#define PROGRAM "threads"
#include "expect.h"

enum { PAGE_SIZE = 512, PAGES = 6, LENT = PAGES, FRAMES = 3, THREADS = 4, ROUNDS = 200 };

static pthread_mutex_t lock = PTHREAD_MUTEX_INITIALIZER;
static warm shared;
static int left = THREADS;
static const uint8_t *lent; /* the bytes of page LENT, which is pinned until the handle is closed */

/* The first bytes of a page are a count, which is read where it lies. */
static void add_to(uint64_t no, uint64_t time) {
    const warm_reference seen = {.time = time, .no = no, .replica = 1};
    const uint8_t *bytes;
    uint64_t count;
    warm_slot slot;
    OK(warm_absorb(&shared, &seen, 1));
    OK(warm_pin(&shared, (warm_page){.no = no}, &slot));
    OK(warm_bytes(&shared, slot, &bytes));
    memcpy(&count, bytes, sizeof count);
    count++;
    OK(warm_write(&shared, slot, 0, (const uint8_t *)&count, sizeof count));
    OK(warm_unpin(&shared, slot));
}

/* By any thread, while another one may be in a call. */
static void read_lent(void) {
    for (int at = 0; at < PAGE_SIZE; at++) MUST(lent[at] == (uint8_t)at);
}

static void *work(void *number) {
    for (uint64_t round = 0; round < ROUNDS; round++) {
        read_lent();
        MUST(pthread_mutex_lock(&lock) == 0);
        add_to((round + *(uint64_t *)number) % PAGES, round);
        if (round % 50 == 0) OK(warm_write_back_all(&shared));
        MUST(pthread_mutex_unlock(&lock) == 0);
    }
    MUST(pthread_mutex_lock(&lock) == 0);
    if (--left == 0) { /* the others read no more */
        OK(warm_write_back_all(&shared));
        OK(warm_abandon(&shared));
    }
    MUST(pthread_mutex_unlock(&lock) == 0);
    return NULL;
}

/* By another thread than those that use it. */
static void open_shared(int fd) {
    const warm_device device = {.pages = PAGES + 1, .fd = fd};
    uint8_t bytes[PAGE_SIZE];
    warm_slot slot;
    for (int at = 0; at < PAGE_SIZE; at++) bytes[at] = (uint8_t)at;
    MUST(pwrite(fd, bytes, PAGE_SIZE, LENT * PAGE_SIZE) == PAGE_SIZE);
    OK(open_with(&shared, 1, 1, FRAMES, PAGE_SIZE, &device, 1));
    OK(warm_pin(&shared, (warm_page){.no = LENT}, &slot));
    OK(warm_bytes(&shared, slot, &lent));
}

int main(void) {
    pthread_t threads[THREADS];
    uint64_t numbers[THREADS], wanted[PAGES] = {0};
    int fd = temporary();
    open_shared(fd);
    for (uint64_t at = 0; at < THREADS; at++) {
        numbers[at] = at;
        MUST(pthread_create(&threads[at], NULL, work, &numbers[at]) == 0);
    }
    for (int at = 0; at < THREADS; at++) MUST(pthread_join(threads[at], NULL) == 0);
    MUST(shared.at == NULL);
    for (int at = 0; at < THREADS * ROUNDS; at++) wanted[(at / ROUNDS + at % ROUNDS) % PAGES]++;
    for (int no = 0; no < PAGES; no++) {
        uint64_t count = 0;
        MUST(pread(fd, &count, sizeof count, no * PAGE_SIZE) == (ssize_t)sizeof count && count == wanted[no]);
    }
    close(fd);
    return end_as_expected();
}

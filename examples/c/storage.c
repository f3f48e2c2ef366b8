/* Storage by calls of the engine (warm_device_ops): a device in memory; a file whose pages have a checksum, which refuses one that is torn; one of
 * whose calls each fails once, in turn; and latches of pages, which before_write tries. Nothing is lost, and what is read is what was written. */
#define _GNU_SOURCE /* mkstemp */
#include <errno.h>
#include <pthread.h>

#define PROGRAM "storage"
#include "expect.h"

enum { PAGE_SIZE = 256, PAGES = 24, FRAMES = 4, CHECKED = PAGE_SIZE - 8 };

static uint8_t byte_of(uint64_t no, uint64_t round) { return (uint8_t)(no * 7 + round * 31 + 1); }

static int status_of_write(warm *handle, uint64_t no, uint8_t byte) {
    warm_slot slot;
    uint8_t bytes[CHECKED];
    int status = warm_pin(handle, (warm_page){.no = no}, &slot);
    if (status != WARM_OK) return status;
    memset(bytes, byte, sizeof bytes);
    OK(warm_write(handle, slot, 0, bytes, sizeof bytes));
    OK(warm_unpin(handle, slot));
    return WARM_OK;
}

static int status_of_read(warm *handle, uint64_t no, uint8_t *byte) {
    warm_slot slot;
    uint8_t bytes[CHECKED];
    int status = warm_pin(handle, (warm_page){.no = no}, &slot);
    if (status != WARM_OK) return status;
    OK(warm_read(handle, slot, 0, bytes, sizeof bytes));
    OK(warm_unpin(handle, slot));
    for (int at = 1; at < CHECKED; at++) MUST(bytes[at] == bytes[0]);
    *byte = bytes[0];
    return WARM_OK;
}

static void must_read(warm *handle, uint64_t no, uint8_t wanted) {
    uint8_t byte;
    OK(status_of_read(handle, no, &byte));
    MUST(byte == wanted);
}

/* ---- in memory ---- */

typedef struct memory {
    uint8_t pages[PAGES][PAGE_SIZE];
    int syncs, calls, failing, error; /* the call of this number fails with this errno; 0: none does */
    bool was_unsynced;
} memory;

/* Whether this call is to fail, and how. */
static int next_error(memory *it) { return ++it->calls == it->failing ? it->error : 0; }

static int read_memory(void *context, uint64_t no, void *into, size_t length) {
    memory *it = context;
    int error = next_error(it);
    memset(into, 'x', length); /* what is left of a read that failed means nothing */
    if (error == 0) memcpy(into, it->pages[no], length);
    return error;
}

static int write_memory(void *context, uint64_t no, const void *bytes, size_t length) {
    memory *it = context;
    int error = next_error(it);
    it->was_unsynced = true;
    memcpy(it->pages[no], bytes, error == 0 ? length : length / 2); /* a write that failed may have written a part */
    return error;
}

static int sync_memory(void *context) {
    memory *it = context;
    int error = next_error(it);
    it->syncs++;
    if (error == 0) it->was_unsynced = false;
    return error;
}

static const warm_device_ops in_memory = {.size = sizeof in_memory, .read = read_memory, .write = write_memory, .sync = sync_memory};

static void memory_device(void) {
    static memory first, second;
    const warm_device devices[] = {{.pages = PAGES, .ops = &in_memory, .context = &first}, {.pages = PAGES, .ops = &in_memory, .context = &second}};
    const warm_device twice[] = {devices[0], devices[0]};
    warm handle = {0};
    EXPECT(WARM_SAME_FILE, open_with(&handle, 1, 1, FRAMES, PAGE_SIZE, twice, 2));
    for (size_t shards = 1; shards <= 4; shards *= 4) {
        OK(open_with(&handle, 1, shards, FRAMES * shards, PAGE_SIZE, devices, 2));
        for (uint64_t no = 0; no < PAGES; no++) OK(status_of_write(&handle, no, byte_of(no, shards)));
        for (uint64_t no = 0; no < PAGES; no++) must_read(&handle, no, byte_of(no, shards));
        EXPECT(WARM_DIRTY, warm_close(&handle));
        OK(warm_write_back_all(&handle));
        MUST(!first.was_unsynced && second.syncs == 0);
        OK(warm_replace(&handle, 0, &(warm_device){.pages = 1, .fd = -1}));
        OK(warm_replace(&handle, 0, &devices[0]));
        must_read(&handle, 3, byte_of(3, shards));
        OK(warm_close(&handle));
    }
}

/* ---- a checksum in each page ---- */

typedef struct checked {
    int fd;
    unsigned torn; /* reads that were refused */
} checked;

static uint64_t sum_of(const uint8_t *bytes) {
    uint64_t sum = 1469598103934665603u;
    for (int at = 0; at < CHECKED; at++) sum = (sum ^ bytes[at]) * 1099511628211u;
    return sum;
}

static int read_checked(void *context, uint64_t no, void *into, size_t length) {
    checked *it = context;
    uint64_t sum;
    ssize_t got = pread(it->fd, into, length, (off_t)(no * length));
    if (got < 0) return errno;
    if (got == 0) return memset(into, 0, length) == NULL; /* it was never written */
    memcpy(&sum, (uint8_t *)into + CHECKED, sizeof sum);
    if (got == (ssize_t)length && sum == sum_of(into)) return 0;
    it->torn++;
    return EBADMSG;
}

/* The page of the pool is as it was: the sum is in a copy. */
static int write_checked(void *context, uint64_t no, const void *bytes, size_t length) {
    checked *it = context;
    uint8_t copy[PAGE_SIZE];
    uint64_t sum = sum_of(bytes);
    memcpy(copy, bytes, CHECKED);
    memcpy(copy + CHECKED, &sum, sizeof sum);
    return pwrite(it->fd, copy, length, (off_t)(no * length)) == (ssize_t)length ? 0 : errno != 0 ? errno : EIO;
}

static int sync_checked(void *context) { return fsync(((checked *)context)->fd) == 0 ? 0 : errno; }

static const warm_device_ops with_sums = {.size = sizeof with_sums, .read = read_checked, .write = write_checked, .sync = sync_checked};

/* A page of which a half is of another time is refused, by pins and by a warm-up, and no other is; once it is whole again it is read. */
static void torn_page(void) {
    checked it = {.fd = temporary()};
    const warm_device device = {.pages = PAGES, .ops = &with_sums, .context = &it};
    const warm_reference seen[] = {{.replica = 1, .no = 5, .time = 9}, {.replica = 1, .no = 6, .time = 8}};
    uint8_t half[PAGE_SIZE / 2], byte = 0;
    warm handle = {0};
    warm_failure failure;
    warm_page page;
    bool found;
    OK(open_with(&handle, 1, 1, FRAMES, PAGE_SIZE, &device, 1));
    for (uint64_t no = 0; no < PAGES - 1; no++) OK(status_of_write(&handle, no, byte_of(no, 0)));
    OK(warm_write_back_all(&handle));
    MUST(pread(it.fd, half, sizeof half, 5 * PAGE_SIZE) == sizeof half && pwrite(it.fd, "torn", 4, 5 * PAGE_SIZE + 10) == 4);
    EXPECT(WARM_READ_FAULT, status_of_read(&handle, 5, &byte));
    OK(warm_last_failure(&handle, &found, &failure));
    MUST(found && failure.dev == 0 && failure.no == 5 && failure.what == WARM_FAILED_READ && failure.error == EBADMSG && it.torn == 1);
    OK(warm_absorb(&handle, seen, 2));
    EXPECT(WARM_READ_FAULT, warm_step(&handle, &found, &page));
    must_read(&handle, 6, byte_of(6, 0));
    must_read(&handle, PAGES - 1, 0);
    MUST(pwrite(it.fd, half, sizeof half, 5 * PAGE_SIZE) == sizeof half);
    must_read(&handle, 5, byte_of(5, 0));
    OK(warm_close(&handle));
    close(it.fd);
}

/* ---- each call fails once ---- */

static bool is_failure(int status) { return status == WARM_READ_FAULT || status == WARM_EVICT_FAULT || status == WARM_WRITE_FAULT; }

/* Makes a call until it is not refused by a failure: which is at most once. A flush that failed is not got rid of. */
#define UNTIL_DONE(call)                                           \
    do {                                                           \
        int status = (call);                                       \
        MUST(status == WARM_OK || (is_failure(status) && !failed)); \
        failed = failed || status != WARM_OK;                      \
        if (status != WARM_OK) OK(call);                           \
    } while (0)

/* Returns whether a call of this number was made, and failed. */
static bool fails_at(int number, int error, size_t shards) {
    static memory it;
    const warm_device device = {.pages = PAGES, .ops = &in_memory, .context = &it};
    warm handle = {0};
    warm_device_counters counters;
    uint8_t byte = 0;
    size_t left;
    bool failed = false;
    it = (memory){.failing = number, .error = error};
    OK(open_with(&handle, 1, shards, FRAMES * shards, PAGE_SIZE, &device, 1));
    for (uint64_t no = 0; no < PAGES; no++) UNTIL_DONE(status_of_write(&handle, no, byte_of(no, 1)));
    UNTIL_DONE(warm_write_back_some(&handle, SIZE_MAX, &left));
    for (uint64_t no = 0; no < PAGES; no++) {
        UNTIL_DONE(status_of_read(&handle, no, &byte));
        MUST(byte == byte_of(no, 1));
    }
    int status = warm_write_back_all(&handle);
    OK(warm_device_counts(&handle, 0, &counters));
    bool was_made = it.calls >= number;
    MUST(counters.failures == was_made);
    if (status != WARM_OK) { /* the sync */
        expect(WARM_WRITE_FAULT, status, "warm_write_back_all");
        EXPECT(WARM_WRITE_FAULT, warm_write_back_all(&handle));
        EXPECT(WARM_WRITE_FAULT, warm_close(&handle));
        MUST(it.syncs == 1 && !failed);
        OK(warm_abandon(&handle));
    } else {
        MUST(!it.was_unsynced);
        OK(warm_close(&handle));
    }
    for (uint64_t no = 0; no < PAGES; no++) MUST(it.pages[no][0] == byte_of(no, 1) && it.pages[no][CHECKED - 1] == byte_of(no, 1));
    return was_made;
}

static void failing_calls(void) {
    static const int errors[] = {EIO, ENOSPC, EINTR, EAGAIN};
    for (size_t shards = 1; shards <= 4; shards *= 4) {
        for (size_t at = 0; at < 4; at++) {
            int number = 1;
            while (fails_at(number, errors[at], shards)) number++;
            MUST(number > 2 * PAGES); /* reads, writes and a sync */
        }
    }
}

/* ---- latches ---- */

enum { THREADS = 4, ROUNDS = 3000 };

typedef struct latched {
    memory storage;
    pthread_mutex_t latches[PAGES];
} latched;

static int read_latched(void *context, uint64_t no, void *into, size_t length) {
    memcpy(into, ((latched *)context)->storage.pages[no], length);
    return 0;
}

static int write_latched(void *context, uint64_t no, const void *bytes, size_t length) {
    memcpy(((latched *)context)->storage.pages[no], bytes, length);
    return 0;
}

static int sync_latched(void *context) { return context == NULL; }

static int try_latch(void *context, uint64_t no, const void *bytes, size_t length) {
    (void)bytes, (void)length;
    return pthread_mutex_trylock(&((latched *)context)->latches[no]) == 0 ? 0 : EAGAIN;
}

static void release_latch(void *context, uint64_t no, int error) {
    MUST(error == 0 && pthread_mutex_unlock(&((latched *)context)->latches[no]) == 0);
}

static latched shared;

/* Adds one to each byte of a page, under its latch alone, while others write back. */
static void *add_one(void *of) {
    warm *handle = of;
    for (uint64_t round = 0; round < ROUNDS; round++) {
        uint64_t no = round * 5 % PAGES;
        warm_slot slot;
        uint8_t *bytes;
        int status;
        do status = warm_pin(handle, (warm_page){.no = no}, &slot);
        while (status == WARM_ALL_PINNED || status == WARM_EVICT_FAULT); /* the others let theirs go */
        MUST(status == WARM_OK && pthread_mutex_lock(&shared.latches[no]) == 0);
        MUST(warm_bytes_mut(handle, slot, &bytes) == WARM_OK);
        for (int at = 0; at < PAGE_SIZE; at++) bytes[at]++;
        MUST(warm_mark_dirty(handle, slot) == WARM_OK && pthread_mutex_unlock(&shared.latches[no]) == 0);
        MUST(warm_unpin(handle, slot) == WARM_OK);
        if (round % 16 > 0) continue;
        status = warm_write_back_all(handle);
        MUST(status == WARM_OK || status == WARM_SKIPPED);
    }
    MUST(warm_close(handle) == WARM_OK);
    return NULL;
}

static void latches(void) {
    static const warm_device_ops calls = {.size = sizeof calls, .read = read_latched, .write = write_latched, .sync = sync_latched,
        .before_write = try_latch, .after_write = release_latch};
    const warm_device device = {.pages = PAGES, .ops = &calls, .context = &shared};
    warm first = {0}, handles[THREADS] = {{0}};
    pthread_t threads[THREADS];
    for (int at = 0; at < PAGES; at++) MUST(pthread_mutex_init(&shared.latches[at], NULL) == 0);
    OK(open_with(&first, 1, 4, 4 * FRAMES, PAGE_SIZE, &device, 1));
    for (int at = 0; at < THREADS; at++) {
        OK(warm_attach(&first, &handles[at]));
        MUST(pthread_create(&threads[at], NULL, add_one, &handles[at]) == 0);
    }
    for (int at = 0; at < THREADS; at++) MUST(pthread_join(threads[at], NULL) == 0);
    OK(warm_write_back_all(&first));
    for (int no = 0; no < PAGES; no++) {
        for (int at = 0; at < PAGE_SIZE; at++) MUST(shared.storage.pages[no][at] == (uint8_t)(THREADS * ROUNDS / PAGES));
        MUST(pthread_mutex_destroy(&shared.latches[no]) == 0);
    }
    OK(warm_close(&first));
}

int main(void) {
    memory_device();
    torn_page();
    failing_calls();
    latches();
    return end_as_expected();
}

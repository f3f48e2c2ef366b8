/* How an engine operates the pool: two threads change pages in place, by latches; each change is in
 * the log before its page is in the file; a page cleaner writes some pages all the time, and
 * checkpoints write all. Then the engine crashes: its dirty pages are gone, and of the log what was
 * not synced. It recovers: what the log has since the last checkpoint is done again, and every page
 * has the changes of the log, which are all that were committed. */
#define _GNU_SOURCE /* mkstemp */
#include <errno.h>
#include <fcntl.h>
#include <pthread.h>
#include <stdatomic.h>
#include <stdio.h>
#include <stdlib.h>
#include <string.h>
#include <time.h>
#include <unistd.h>
#include <warm.h>

enum { PAGES = 64, FRAMES = 16, LATCHES = 16, WRITERS = 2, COMMIT = 16 };
enum { CHANGES = 125 * COMMIT + 15, TRIES = 60000 }; /* the last 15 of a thread are not committed */
enum { CHECKED = WRITERS * (CHANGES - 40) };         /* after these there is no other checkpoint */

/* A page begins with these. */
struct head {
    uint64_t lsn;   /* the log's length behind its last change */
    uint64_t count; /* of its changes */
};

/* The log has the number of a page for each change. */
static struct {
    int fd;
    pthread_mutex_t appending;
    _Atomic uint64_t end, synced; /* in bytes */
} engine_log = {.appending = PTHREAD_MUTEX_INITIALIZER};

/* Latches are hashed by page. A thread takes one at a time. */
static pthread_rwlock_t latches[LATCHES];
static uint64_t checkpoint; /* the log is needed from here on */
static _Atomic uint64_t clock_ticks; /* no two references have one time */
static atomic_bool is_stopping;

static void check(bool good, const char *what) {
    if (good) return;
    fprintf(stderr, "operations: %s\n", what);
    exit(1);
}
#define MUST(condition) check(condition, #condition)

static void must_be_ok(int status, const char *call) {
    if (status != WARM_OK) fprintf(stderr, "operations: %s\n", warm_strerror(status));
    check(status == WARM_OK, call);
}
#define OK(call) must_be_ok(call, #call)

static pthread_rwlock_t *latch_of(uint64_t no) {
    return &latches[no % LATCHES];
}

/* A millisecond, in which others get on: there are TRIES of them at most. */
static void nap(void) {
    const struct timespec pause = {.tv_nsec = 1000000};
    nanosleep(&pause, NULL);
}

/* ---- the log ---- */

static uint64_t append(uint64_t no) {
    pthread_mutex_lock(&engine_log.appending);
    uint64_t end = atomic_load(&engine_log.end);
    MUST(pwrite(engine_log.fd, &no, sizeof no, (off_t)end) == sizeof no);
    atomic_store(&engine_log.end, end + sizeof no);
    pthread_mutex_unlock(&engine_log.appending);
    return end + sizeof no;
}

static void sync_log(void) {
    uint64_t end = atomic_load(&engine_log.end), synced = atomic_load(&engine_log.synced);
    MUST(fdatasync(engine_log.fd) == 0);
    while (synced < end && !atomic_compare_exchange_weak(&engine_log.synced, &synced, end)) {}
}

/* ---- the device ---- */

/* Skips a page that is being changed, or whose changes are not in the log. It waits for nobody. */
static int may_write(void *context, uint64_t no, const void *bytes, size_t length) {
    struct head head;
    (void)context, (void)length;
    if (pthread_rwlock_tryrdlock(latch_of(no)) != 0) return EAGAIN;
    memcpy(&head, bytes, sizeof head);
    if (head.lsn <= atomic_load(&engine_log.synced)) return 0;
    pthread_rwlock_unlock(latch_of(no));
    return EAGAIN;
}

static void was_written(void *context, uint64_t no, int error) {
    (void)context, (void)error;
    pthread_rwlock_unlock(latch_of(no));
}

static const warm_device_ops ops = {
    .size = sizeof ops, .before_write = may_write, .after_write = was_written};

static void open_pool(warm *handle, int fd) {
    warm_device device = {.pages = PAGES, .fd = fd, .ops = &ops};
    warm_options options = {.size = sizeof options, .replica = 1, .shards = 2, .frames = FRAMES,
                            .devices = &device, .device_count = 1};
    OK(warm_open(handle, &options));
}

/* ---- threads ---- */

/* Pins a page. Where no page may be evicted, since their changes are not in the log, the log is
 * synced. */
static warm_slot pin(warm *handle, uint64_t no) {
    warm_slot slot;
    int status = warm_pin(handle, (warm_page){.no = no}, &slot);
    for (int tries = 0; status == WARM_EVICT_FAULT && tries < TRIES; tries++) {
        if (tries > 0) nap();
        sync_log();
        status = warm_pin(handle, (warm_page){.no = no}, &slot);
    }
    OK(status);
    return slot;
}

/* The page is dirty and latched before the change is in the log: so a checkpoint that has this part
 * of the log behind it waits for the page. */
static void change(warm *handle, uint64_t no) {
    warm_slot slot = pin(handle, no);
    uint8_t *bytes;
    struct head head;
    MUST(pthread_rwlock_wrlock(latch_of(no)) == 0);
    OK(warm_bytes_mut(handle, slot, &bytes));
    memcpy(&head, bytes, sizeof head);
    head = (struct head){.lsn = append(no), .count = head.count + 1};
    memcpy(bytes, &head, sizeof head);
    pthread_rwlock_unlock(latch_of(no));
    OK(warm_unpin(handle, slot));
}

static void *write_pages(void *its_handle) {
    warm *handle = its_handle;
    warm_reference used[COMMIT];
    uint64_t drawn = (uint64_t)(uintptr_t)handle;
    for (int at = 0; at < CHANGES; at++) {
        drawn = drawn * 6364136223846793005u + 1442695040888963407u;
        uint64_t no = (drawn >> 33) % PAGES;
        change(handle, no);
        used[at % COMMIT] = (warm_reference){.replica = 1, .no = no, .time = ++clock_ticks};
        if (at % COMMIT < COMMIT - 1) continue;
        sync_log(); /* a transaction commits */
        OK(warm_absorb(handle, used, COMMIT));
    }
    OK(warm_close(handle));
    return NULL;
}

static void *clean_pages(void *its_handle) {
    while (!atomic_load(&is_stopping)) {
        size_t left;
        int status = warm_write_back_some(its_handle, 4, &left);
        MUST(status == WARM_OK || status == WARM_SKIPPED);
        nap();
    }
    OK(warm_close(its_handle));
    return NULL;
}

/* What was changed before it began is in the file when it ends. */
static void make_checkpoint(warm *handle) {
    uint64_t begin = atomic_load(&engine_log.end);
    int status = WARM_SKIPPED;
    for (int tries = 0; status == WARM_SKIPPED && tries < TRIES; tries++) {
        if (tries > 0) nap();
        sync_log();
        status = warm_write_back_all(handle);
    }
    OK(status);
    checkpoint = begin; /* an engine writes it to a file */
}

static void run(warm *handle) {
    warm handles[WRITERS + 1] = {{0}};
    pthread_t threads[WRITERS + 1];
    for (int i = 0; i <= WRITERS; i++) {
        OK(warm_attach(handle, &handles[i]));
        void *(*its_work)(void *) = i < WRITERS ? write_pages : clean_pages;
        MUST(pthread_create(&threads[i], NULL, its_work, &handles[i]) == 0);
    }
    while (atomic_load(&engine_log.end) < CHECKED * sizeof(uint64_t)) make_checkpoint(handle);
    for (int i = 0; i < WRITERS; i++) MUST(pthread_join(threads[i], NULL) == 0);
    atomic_store(&is_stopping, true);
    MUST(pthread_join(threads[WRITERS], NULL) == 0);
}

/* ---- a crash, and recovery ---- */

static void crash(warm *handle) {
    OK(warm_abandon(handle));
    MUST(ftruncate(engine_log.fd, (off_t)atomic_load(&engine_log.synced)) == 0);
    atomic_store(&engine_log.end, atomic_load(&engine_log.synced));
    MUST(atomic_load(&engine_log.end) >= WRITERS * 125 * COMMIT * sizeof(uint64_t));
}

static void redo(warm *handle) {
    uint64_t no, end = atomic_load(&engine_log.end);
    struct head head;
    for (uint64_t at = checkpoint; at < end; at += sizeof no) {
        MUST(pread(engine_log.fd, &no, sizeof no, (off_t)at) == sizeof no);
        warm_slot slot = pin(handle, no);
        OK(warm_read(handle, slot, 0, &head, sizeof head));
        if (head.lsn < at + sizeof no) {
            head = (struct head){.lsn = at + sizeof no, .count = head.count + 1};
            OK(warm_write(handle, slot, 0, &head, sizeof head));
        }
        OK(warm_unpin(handle, slot));
    }
    make_checkpoint(handle);
}

/* Counts the changes of each page in the log, and compares them with what the file has. */
static void compare(int fd) {
    uint64_t counts[PAGES] = {0}, no;
    struct head head;
    for (uint64_t at = 0; at < atomic_load(&engine_log.end); at += sizeof no) {
        MUST(pread(engine_log.fd, &no, sizeof no, (off_t)at) == sizeof no && no < PAGES);
        counts[no]++;
    }
    for (no = 0; no < PAGES; no++) {
        MUST(pread(fd, &head, sizeof head, (off_t)(no * 4096)) == sizeof head);
        MUST(head.count == counts[no]);
    }
}

static int temporary(void) {
    char path[] = "/tmp/warm-operations-XXXXXX";
    int fd = mkstemp(path);
    MUST(fd >= 0 && unlink(path) == 0);
    return fd;
}

int main(void) {
    warm handle = {0};
    int fd = temporary();
    engine_log.fd = temporary();
    for (int i = 0; i < LATCHES; i++) MUST(pthread_rwlock_init(&latches[i], NULL) == 0);
    open_pool(&handle, fd);
    run(&handle);
    crash(&handle);
    open_pool(&handle, fd);
    redo(&handle);
    OK(warm_close(&handle));
    compare(fd);
    puts("operations: after a crash all is there that was committed");
    return close(fd) | close(engine_log.fd);
}

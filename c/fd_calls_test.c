/*
 * Tests fd_calls.c, and devices.c with devices that are files: in place of the proved part this
 * program makes requests, and compares the answers with what the file holds by the system's own
 * calls. It has the code of both and of sync_once.c in itself, over calls of the system that can be
 * made to do little at a time. devices_test.c tests devices with calls of their own. */
#define _GNU_SOURCE /* mkstemp, pipe, ftruncate */
#define _FILE_OFFSET_BITS 64
#include <errno.h>
#include <fcntl.h>
#include <pthread.h>
#include <signal.h>
#include <stdbool.h>
#include <stdint.h>
#include <stdio.h>
#include <stdlib.h>
#include <string.h>
#include <sys/resource.h>
#include <sys/stat.h>
#include <unistd.h>

#include "sync_once.h"
/* If most is not 0, a call moves at most that many bytes, and every other call is interrupted. If
 * it is to put nothing, it does, and if a sync is to fail, the next one does. If fstat is to fail,
 * it does. If reads are direct, their places are multiples of 512. If there is no memory, each
 * allocation fails. If they are to meet, another thread's sync goes on while the next write does,
 * and another thread's write returns while the next sync does. */
static struct {
    size_t most;
    bool was_interrupted, puts_nothing, fails_sync, fails_stat, is_direct, has_no_memory,
        meets_sync, meets_write;
    int syncs, stats;
} slow;

static bool interrupts(void) {
    if (slow.most == 0) return false;
    slow.was_interrupted = !slow.was_interrupted;
    if (slow.was_interrupted) errno = EINTR;
    return slow.was_interrupted;
}

static size_t part(size_t length) {
    return slow.most != 0 && slow.most < length ? slow.most : length;
}

static ssize_t slow_pread(int fd, void *into, size_t length, off_t at) {
    if (slow.is_direct && at % 512 != 0) {
        errno = EINVAL;
        return -1;
    }
    return interrupts() ? -1 : pread(fd, into, part(length), at);
}

static ssize_t slow_pwrite(int fd, const void *from, size_t length, off_t at) {
    if (slow.puts_nothing) return 0;
    if (slow.meets_sync) {
        slow.meets_sync = false;
        sync_once(fd);
    }
    return interrupts() ? -1 : pwrite(fd, from, part(length), at);
}

static int slow_fsync(int fd) {
    if (interrupts()) return -1;
    if (slow.fails_sync) {
        slow.fails_sync = false;
        errno = EIO;
        return -1;
    }
    if (slow.meets_write) sync_wrote(fd);
    slow.meets_write = false;
    slow.syncs++;
    return fsync(fd);
}

static int slow_fstat(int fd, struct stat *file) {
    slow.stats++;
    if (slow.fails_stat) errno = EIO;
    return slow.fails_stat ? -1 : fstat(fd, file);
}

static void *slow_realloc(void *old, size_t size) {
    return slow.has_no_memory ? NULL : realloc(old, size);
}

static void *slow_malloc(size_t size) { return slow.has_no_memory ? NULL : malloc(size); }

/* It changes errno, as a call that succeeds may. */
static int slow_unlock(pthread_mutex_t *of) {
    int result = pthread_mutex_unlock(of);
    errno = ENOTRECOVERABLE;
    return result;
}

#define pread slow_pread
#define pwrite slow_pwrite
#define fsync slow_fsync
#define fstat slow_fstat
#define realloc slow_realloc
#define malloc slow_malloc
#define pthread_mutex_unlock slow_unlock
#include "sync_once.c"
#include "devices.c"
#include "fd_calls.c"
#undef pread
#undef pwrite
#undef fsync
#undef fstat
#undef realloc
#undef malloc
#undef pthread_mutex_unlock

enum { SIZE = 65536, NO_FILE = 999 };

static void must(bool holds, const char *what, int line) {
    if (holds) return;
    fprintf(stderr, "fd_calls_test.c:%d: %s\n", line, what);
    exit(1);
}
#define MUST(holds) must(holds, #holds, __LINE__)
/* A call that must fail with this errno. */
#define FAILS(call, why) (errno = 0, MUST((call) == -1 && errno == (why)))

static uint8_t page[SIZE], got[SIZE];

static ssize_t ask(int fd, uint8_t kind, uint64_t at) {
    uint8_t request[9] = {kind};
    for (int i = 1; i < 9; i++) request[i] = (uint8_t)(at >> (64 - 8 * i));
    return fd_calls_write(fd, request, sizeof request);
}

static ssize_t read_at(int fd, uint64_t at, size_t length) {
    memset(got, 0xEE, sizeof got);
    return ask(fd, 1, at) == 9 ? fd_calls_read(fd, got, length) : -2;
}

static ssize_t write_at(int fd, uint64_t at, size_t length) {
    return ask(fd, 2, at) == 9 ? fd_calls_write(fd, page, length) : -2;
}

static bool is_filled(const uint8_t *bytes, size_t length, uint8_t with) {
    for (size_t at = 0; at < length; at++)
        if (bytes[at] != with) return false;
    return true;
}

/* What the file holds, by the system's own call. */
static bool holds(int fd, off_t at, const uint8_t *bytes, size_t length) {
    static uint8_t held[SIZE];
    return pread(fd, held, length, at) == (ssize_t)length && memcmp(held, bytes, length) == 0;
}

static int new_file(void) {
    char path[] = "/tmp/fd-calls-XXXXXX";
    int fd = mkstemp(path);
    MUST(fd >= 0 && unlink(path) == 0);
    return fd;
}

static void test_file(void) {
    int fd = new_file();
    MUST(read_at(fd, SIZE, SIZE) == SIZE && is_filled(got, SIZE, 0)); /* an empty file */
    MUST(lseek(fd, 0, SEEK_END) == 0);
    MUST(write_at(fd, 3 * SIZE, SIZE) == SIZE); /* extends it, with a hole before */
    MUST(lseek(fd, 0, SEEK_END) == 4 * SIZE && holds(fd, 3 * SIZE, page, SIZE));
    MUST(read_at(fd, SIZE, SIZE) == SIZE && is_filled(got, SIZE, 0)); /* in the hole */
    MUST(read_at(fd, 3 * SIZE, SIZE) == SIZE && memcmp(got, page, SIZE) == 0);
    MUST(read_at(fd, 4 * SIZE - 10, 100) == 100); /* over the end */
    MUST(memcmp(got, page + SIZE - 10, 10) == 0 && is_filled(got + 10, 90, 0) && got[100] == 0xEE);
    MUST(write_at(fd, 3 * SIZE + 5, 7) == 7); /* no other byte changes */
    MUST(holds(fd, 3 * SIZE, page, 5) && holds(fd, 3 * SIZE + 5, page, 7) &&
         holds(fd, 3 * SIZE + 12, page + 12, SIZE - 12));
    MUST(write_at(fd, 0, 9) == 9 && holds(fd, 0, page, 9)); /* a page as long as a request */
    slow.syncs = 0;
    MUST(ask(fd, 3, 0) == 9 && slow.syncs == 1);
    close(fd);
}

/* A call of the system that is interrupted, or does a part, is made again for the rest. */
static void test_slow_calls(void) {
    int fd = new_file();
    slow.most = 1000;
    MUST(write_at(fd, 100, SIZE) == SIZE && holds(fd, 100, page, SIZE));
    MUST(read_at(fd, 100, SIZE) == SIZE && memcmp(got, page, SIZE) == 0);
    MUST(read_at(fd, SIZE, 2000) == 2000 && memcmp(got, page + SIZE - 100, 100) == 0 &&
         is_filled(got + 100, 1900, 0));
    slow.syncs = 0;
    MUST(ask(fd, 3, 0) == 9 && slow.syncs == 1);
    slow.most = 0;
    slow.puts_nothing = true;
    FAILS(write_at(fd, 0, SIZE), EIO);
    slow.puts_nothing = false;
    close(fd);
}

/* If reads are direct, a page that the end of the file is in is read whole, and another rest that
 * is refused is a read that fails: also of a device, which has no size by which its end could be
 * known. */
static void test_direct(void) {
    int fd = new_file(), ends[2], device = open("/dev/zero", O_RDONLY);
    MUST(pipe(ends) == 0 && device >= 0 && write_at(fd, 0, 5000) == 5000);
    slow.is_direct = true;
    MUST(read_at(fd, 4096, 4096) == 4096 && memcmp(got, page + 4096, 904) == 0 &&
         is_filled(got + 904, 4096 - 904, 0) && got[4096] == 0xEE);
    MUST(read_at(fd, 8192, 4096) == 4096 && is_filled(got, 4096, 0));
    FAILS(read_at(fd, 100, 4096), EINVAL);
    FAILS(read_at(fd, 5100, 4096), EINVAL);
    FAILS(read_at(ends[0], 0, 4096), ESPIPE);
    slow.most = 1000;
    FAILS(read_at(fd, 0, 4096), EINVAL);
    FAILS(read_at(device, 0, 4096), EINVAL);
    slow.fails_stat = true; /* the errno is that of the read */
    FAILS(read_at(fd, 0, 4096), EINVAL);
    slow.fails_stat = false;
    slow.most = 0;
    slow.is_direct = false;
    close(device);
    close(ends[0]);
    close(ends[1]);
    close(fd);
}

static bool gets_identity(int fd, uint8_t *into) {
    return ask(fd, 4, 0) == 9 && fd_calls_read(fd, into, 16) == 16;
}

/* Descriptors of one file give one identity, whichever they are, and another file has another. */
static void test_identities(void) {
    uint8_t first[16], again[16], pair[16];
    char path[64];
    struct stat file;
    int fd = new_file(), second = dup(fd), other = new_file(), ends[2];
    snprintf(path, sizeof path, "/proc/self/fd/%d", fd);
    int third = open(path, O_RDONLY);
    MUST(second >= 0 && third >= 0 && pipe(ends) == 0 && fstat(fd, &file) == 0);
    MUST(gets_identity(fd, first) && gets_identity(second, again) && memcmp(first, again, 16) == 0);
    MUST(gets_identity(third, again) && memcmp(first, again, 16) == 0);
    for (int i = 0; i < 8; i++) {
        MUST(first[i] == (uint8_t)((uint64_t)file.st_dev >> (56 - 8 * i)));
        MUST(first[8 + i] == (uint8_t)((uint64_t)file.st_ino >> (56 - 8 * i)));
    }
    MUST(gets_identity(other, again) && memcmp(first, again, 16) != 0);
    MUST(gets_identity(ends[0], pair) && memcmp(first, pair, 16) != 0);
    MUST(close(third) == 0 && ask(third, 4, 0) == 9); /* a request is no call of the system */
    FAILS(fd_calls_read(third, again, 16), EBADF);
    MUST(ask(-1, 4, 0) == 9);
    FAILS(fd_calls_read(-1, again, 16), EBADF);
    close(ends[0]);
    close(ends[1]);
    close(second);
    close(other);
    close(fd);
}

/* Each descriptor's file is asked for once while it is remembered, in its place; one that has none
 * is asked for each time. */
static void test_remembered_identities(void) {
    const int fds[] = {new_file(), -1, new_file()}, other = new_file();
    uint8_t first[3][16], again[16];
    for (int i = 0; i < 3; i += 2) MUST(gets_identity(fds[i], first[i]));
    fd_calls_remember(3);
    slow.stats = 0;
    for (int i = 0; i < 9; i++) {
        MUST(gets_identity(fds[i % 3], again) == (i % 3 != 1) &&
             (i % 3 == 1 || memcmp(again, first[i % 3], 16) == 0));
    }
    MUST(slow.stats == 5);
    /* in the place of another */
    MUST(gets_identity(other, again) && memcmp(again, first[0], 16) != 0 && slow.stats == 6);
    MUST(!gets_identity(-1, again) && gets_identity(fds[2], again) && slow.stats == 7);
    MUST(gets_identity(fds[0], again) && memcmp(again, first[0], 16) == 0 && slow.stats == 8);
    fd_calls_remember(1);
    for (int i = 0; i < 2; i++)
        MUST(gets_identity(fds[2], again) && memcmp(again, first[2], 16) == 0 && slow.stats == 9);
    fd_calls_forget();
    fd_calls_forget();
    slow.has_no_memory = true;
    fd_calls_remember(1);
    slow.has_no_memory = false;
    for (int i = 0; i < 2; i++)
        MUST(gets_identity(fds[2], again) && memcmp(again, first[2], 16) == 0 &&
             slow.stats == 10 + i);
    fd_calls_remember(0);
    MUST(gets_identity(fds[2], again) && slow.stats == 12);
    fd_calls_remember(SIZE_MAX / 8 + 1); /* whose identities would have a multiple of 2^64 bytes */
    MUST(gets_identity(fds[2], again) && slow.stats == 13);
    close(fds[0]);
    close(fds[2]);
    close(other);
}

/* A sync that fails once is a flush that fails, and what the next one says is the system's word
 * again: the proved part remembers. */
static void test_failed_sync(void) {
    int fd = new_file();
    slow.fails_sync = true;
    FAILS(ask(fd, 3, 0), EIO);
    MUST(ask(fd, 3, 0) == 9);
    close(fd);
}

/* errno of the last call of this thread that failed, asked of any descriptor; -1 if it is not
 * answered. */
static int failure_at(int fd) {
    uint8_t number[4];
    if (ask(fd, 5, 0) != 9 || fd_calls_read(fd, number, 4) != 4) return -1;
    return number[0] << 24 | number[1] << 16 | number[2] << 8 | number[3];
}

/* Of a descriptor that a replica has as a device, a sync is made if something was written since the
 * last one, also by a write that failed; and one that failed is not forgotten. */
static void test_counted_syncs(void) {
    int fd = new_file();
    MUST(sync_add(fd));
    slow.syncs = 0;
    MUST(ask(fd, 3, 0) == 9 && slow.syncs == 0);
    MUST(write_at(fd, 0, 512) == 512 && ask(fd, 3, 0) == 9 && slow.syncs == 1);
    MUST(read_at(fd, 0, 512) == 512 && ask(fd, 3, 0) == 9 && slow.syncs == 1);
    slow.puts_nothing = true;
    FAILS(write_at(fd, 0, 512), EIO);
    slow.puts_nothing = false;
    MUST(failure_at(fd) == EIO && ask(fd, 3, 0) == 9 && slow.syncs == 2);
    MUST(write_at(fd, 0, 512) == 512);
    slow.fails_sync = true;
    FAILS(ask(fd, 3, 0), EIO);
    FAILS(read_at(NO_FILE, 0, 512), EBADF);
    FAILS(ask(fd, 3, 0), EIO);
    MUST(failure_at(fd) == EIO && slow.syncs == 2);
    sync_drop(fd);
    MUST(ask(fd, 3, 0) == 9 && slow.syncs == 3);
    close(fd);
}

/* A sync is for the writes that returned before it began, and for no other. */
static void test_met_syncs(void) {
    int fd = new_file();
    MUST(sync_add(fd));
    slow.syncs = 0;
    MUST(write_at(fd, 0, 512) == 512);
    slow.meets_sync = true;
    MUST(write_at(fd, 0, 512) == 512 && slow.syncs == 1);
    MUST(ask(fd, 3, 0) == 9 && slow.syncs == 2);
    MUST(write_at(fd, 0, 512) == 512);
    slow.meets_write = true;
    MUST(ask(fd, 3, 0) == 9 && slow.syncs == 3);
    MUST(ask(fd, 3, 0) == 9 && slow.syncs == 4);
    MUST(ask(fd, 3, 0) == 9 && slow.syncs == 4);
    sync_drop(fd);
    close(fd);
}

static void fails_at_each(int fd, int reading, int writing, int flushing) {
    FAILS(read_at(fd, 0, 512), reading);
    FAILS(write_at(fd, 0, 512), writing);
    FAILS(ask(fd, 3, 0), flushing);
}

static void test_descriptors(void) {
    int fd = new_file(), full = open("/dev/full", O_RDWR), reader = open("/dev/null", O_RDONLY);
    int ends[2];
    MUST(pipe(ends) == 0 && full >= 0 && reader >= 0);
    fails_at_each(NO_FILE, EBADF, EBADF, EBADF);
    fails_at_each(-1, EBADF, EBADF, EBADF);
    fails_at_each(INT32_MIN, EBADF, EBADF, EBADF);
    fails_at_each(ends[0], ESPIPE, ESPIPE, EINVAL);
    fails_at_each(ends[1], ESPIPE, ESPIPE, EINVAL);
    MUST(read_at(full, 0, 512) == 512 && is_filled(got, 512, 0));
    FAILS(write_at(full, 0, 512), ENOSPC);  /* no room on the device */
    FAILS(write_at(reader, 0, 512), EBADF); /* not open for writing */
    /* closed between the request and its data */
    MUST(ask(fd, 1, 0) == 9 && close(fd) == 0);
    FAILS(fd_calls_read(fd, got, 512), EBADF);
    close(ends[0]);
    close(ends[1]);
    close(full);
    close(reader);
}

/* A file that must not grow past a limit takes a part, and then fails. */
static void test_limit(void) {
    struct rlimit before, limit;
    int fd = new_file();
    signal(SIGXFSZ, SIG_IGN);
    MUST(getrlimit(RLIMIT_FSIZE, &before) == 0);
    limit = before;
    limit.rlim_cur = 1000;
    MUST(setrlimit(RLIMIT_FSIZE, &limit) == 0);
    FAILS(write_at(fd, 0, 4096), EFBIG);
    MUST(setrlimit(RLIMIT_FSIZE, &before) == 0);
    MUST(write_at(fd, 0, 4096) == 4096 && holds(fd, 0, page, 4096));
    close(fd);
}

/* What is out of order fails, and leaves no request behind: after each, a read and a write do as
 * ever. */
static void is_as_ever(int fd) {
    MUST(write_at(fd, 0, 512) == 512 && read_at(fd, 0, 512) == 512 && memcmp(got, page, 512) == 0);
}

static void test_order(void) {
    int fd = new_file(), other = new_file();
    FAILS(fd_calls_read(fd, got, 512), EINVAL); /* no request before */
    FAILS(fd_calls_write(fd, page, 512), EINVAL);
    FAILS(fd_calls_write(fd, page, 8), EINVAL);
    FAILS(fd_calls_write(fd, page, 0), EINVAL);
    FAILS(ask(fd, 0, 0), EINVAL); /* no such kind */
    FAILS(ask(fd, 6, 0), EINVAL);
    FAILS(ask(fd, 255, 0), EINVAL);
    FAILS(ask(fd, 3, 1), EINVAL); /* a flush has no place */
    FAILS(ask(fd, 4, 1), EINVAL); /* nor has an identity */
    FAILS(ask(fd, 5, 1), EINVAL); /* nor a failure */
    is_as_ever(fd);
    MUST(ask(fd, 1, 0) == 9); /* a read asked for, and a write made */
    FAILS(fd_calls_write(fd, page, 512), EINVAL);
    FAILS(fd_calls_read(fd, got, 512), EINVAL);
    is_as_ever(fd);
    MUST(ask(fd, 2, 0) == 9); /* a write asked for, and a read made */
    FAILS(fd_calls_read(fd, got, 512), EINVAL);
    FAILS(fd_calls_write(fd, page, 512), EINVAL);
    is_as_ever(fd);
    MUST(ask(fd, 1, 0) == 9); /* of another descriptor */
    FAILS(fd_calls_read(other, got, 512), EINVAL);
    MUST(ask(fd, 2, 0) == 9);
    FAILS(fd_calls_write(other, page, 512), EINVAL);
    MUST(lseek(other, 0, SEEK_END) == 0);
    is_as_ever(fd);
    MUST(ask(fd, 4, 0) == 9); /* an identity asked for, and a write made */
    FAILS(fd_calls_write(fd, page, 16), EINVAL);
    FAILS(fd_calls_read(fd, got, 16), EINVAL);
    MUST(ask(fd, 4, 0) == 9); /* of another descriptor */
    FAILS(fd_calls_read(other, got, 16), EINVAL);
    is_as_ever(fd);
    MUST(ask(fd, 4, 0) == 9); /* of another length */
    FAILS(fd_calls_read(fd, got, 15), EINVAL);
    MUST(ask(fd, 4, 0) == 9);
    FAILS(fd_calls_read(fd, got, 17), EINVAL);
    MUST(ask(fd, 5, 0) == 9);
    FAILS(fd_calls_read(fd, got, 3), EINVAL);
    MUST(ask(fd, 5, 0) == 9);
    FAILS(fd_calls_read(other, got, 4), EINVAL);
    MUST(ask(fd, 5, 0) == 9);
    FAILS(fd_calls_write(fd, page, 4), EINVAL);
    is_as_ever(fd);
    MUST(ask(fd, 1, 0) == 9); /* a request before the last has its data */
    FAILS(ask(fd, 3, 0), EINVAL);
    is_as_ever(fd);
    close(fd);
    close(other);
}

/* Places whose bytes would end past what an offset can say, which is 2^63 - 1. */
static void test_places(void) {
    int fd = new_file();
    FAILS(ask(fd, 1, UINT64_C(1) << 63), EINVAL);
    FAILS(ask(fd, 2, UINT64_MAX), EINVAL);
    FAILS(read_at(fd, INT64_MAX - 511, 512), EINVAL);
    FAILS(write_at(fd, INT64_MAX - 511, 512), EINVAL);
    is_as_ever(fd);
    MUST(lseek(fd, 0, SEEK_END) == 512);
    close(fd);
}

/* Another thread's request is not this one's. */
static void *other_thread(void *of) {
    int fd = *(int *)of;
    FAILS(fd_calls_write(fd, page, 512), EINVAL);
    MUST(ask(fd, 3, 0) == 9);
    return NULL;
}

static void test_threads(void) {
    int fd = new_file();
    pthread_t thread;
    MUST(ask(fd, 2, 0) == 9);
    MUST(pthread_create(&thread, NULL, other_thread, &fd) == 0 && pthread_join(thread, NULL) == 0);
    MUST(fd_calls_write(fd, page, 512) == 512 && holds(fd, 0, page, 512));
    close(fd);
}

static void *fresh_thread(void *of) {
    MUST(failure_at(*(int *)of) == 0);
    FAILS(read_at(NO_FILE, 0, 512), EBADF);
    MUST(failure_at(*(int *)of) == EBADF);
    return NULL;
}

/* What succeeds later changes it not, and neither does another thread. */
static void test_failures(void) {
    int fd = new_file(), full = open("/dev/full", O_RDWR);
    pthread_t thread;
    MUST(full >= 0);
    FAILS(write_at(full, 0, 512), ENOSPC);
    MUST(failure_at(full) == ENOSPC && failure_at(fd) == ENOSPC && failure_at(-1) == ENOSPC);
    is_as_ever(fd);
    MUST(ask(fd, 3, 0) == 9 && failure_at(fd) == ENOSPC);
    MUST(pthread_create(&thread, NULL, fresh_thread, &fd) == 0 && pthread_join(thread, NULL) == 0);
    MUST(failure_at(fd) == ENOSPC);
    slow.fails_sync = true;
    FAILS(ask(fd, 3, 0), EIO);
    MUST(failure_at(fd) == EIO);
    FAILS(fd_calls_read(fd, got, 512), EINVAL);
    MUST(failure_at(fd) == EINVAL);
    close(full);
    close(fd);
}

int main(void) {
    for (size_t at = 0; at < SIZE; at++) page[at] = (uint8_t)(at % 251 + 1);
    test_file();
    test_slow_calls();
    test_direct();
    test_identities();
    test_remembered_identities();
    test_failed_sync();
    test_counted_syncs();
    test_met_syncs();
    test_descriptors();
    test_limit();
    test_order();
    test_places();
    test_threads();
    test_failures();
    puts("fd_calls_test: as expected");
    return 0;
}

/*
 * fake_system.h: the functions of the C library that the files of this folder call, for their
 * tests. They can be made to fail, and count.
 */
#ifndef FAKE_SYSTEM_H
#define FAKE_SYSTEM_H

#include "fd_calls.h"
#include "heap.h"
#include "nodes.h"
#include "sync_once.h"

#include <errno.h>
#include <fcntl.h>
#include <pthread.h>
#include <sched.h>
#include <stdatomic.h>
#include <stdlib.h>
#include <string.h>
#include <sys/syscall.h>
#include <time.h>
#include <unistd.h>

/* Long tests make this many times fewer rounds, and what one thread does for long is left out:
 * under helgrind, which is slow (c/check). */
#ifndef FEWER
#define FEWER 1
#endif

/* Other threads have their turn. It may be a long one of another program: there are some seconds of
 * turns, and no test needs them. */
static void give_turn(void) {
    static atomic_llong spent; /* nanoseconds, of all threads */
    struct timespec begun, ended;
    if (atomic_load_explicit(&spent, memory_order_relaxed) > 3000000000) return;
    clock_gettime(CLOCK_MONOTONIC, &begun);
    sched_yield();
    clock_gettime(CLOCK_MONOTONIC, &ended);
    long long took = (ended.tv_sec - begun.tv_sec) * 1000000000LL + ended.tv_nsec - begun.tv_nsec;
    atomic_fetch_add_explicit(&spent, took, memory_order_relaxed);
}

/* How many more allocations and new locks succeed, whether those after the one that fails do, how
 * many there are, and what a sync does. */
static size_t granted = SIZE_MAX;
static bool fails_once;
static int blocks, locks_there, syncs, interruptions;
static int sync_errors[100];    /* of each descriptor: the errno of its next sync; 0: it succeeds */
static int in_sync[100];        /* how many threads sync it */
static void (*at_sync)(int fd); /* what a test does while the next sync goes on */

/* The locks that this thread has, the most that it has had at once, in a sync too, and how many it
 * has taken. Those of sync_once.c are left out. */
static _Thread_local int held, most_held, most_in_sync, taken;

/* The descriptor that has O_APPEND; and how many pages were written to descriptors. */
static int appending = -77;
static atomic_int put;

static int test_fcntl(int fd, int command) {
    MUST(command == F_GETFL);
    return fd == appending ? O_APPEND : 0;
}

static int put_error; /* the errno of writes; 0: they succeed */

/* What is in the files, if a test says that they keep it; else they have zeros. */
enum { FILES = 32, FILE_BYTES = 512 };
static uint8_t in_files[FILES][FILE_BYTES];
static bool files_keep;

/* Whether a page cannot be written, of the device whose descriptor is 10 and its number: if a test
 * says so. What a test does while a byte is written; and how many were written, or tried to, with a
 * shard locked. */
static bool (*is_stuck)(node_page page);
static int32_t stuck_error = EIO;
static void (*at_write)(int fd, off_t at);
static atomic_int written_locked;

static ssize_t test_pwrite(int fd, const void *from, size_t length, off_t at) {
    uint8_t byte = *(const uint8_t *)from;
    written_locked += held > 0;
    if (at_write != NULL) at_write(fd, at);
    node_page page = {.no = (uint64_t)at, .dev = (uint16_t)(fd - 10)};
    bool is_one_stuck = fd >= 0 && is_stuck != NULL && is_stuck(page);
    if (fd < 0 || put_error != 0 || is_one_stuck) {
        errno = fd < 0 ? EBADF : is_one_stuck ? stuck_error : put_error;
        return -1;
    }
    MUST(byte == *(const uint8_t *)from); /* nobody changes it meanwhile */
    if (files_keep) memcpy(&in_files[fd][at], from, length);
    put++;
    return (ssize_t)length;
}

/* From which place on no byte can be read; what a test does while a byte is read; and how many
 * reads there were. */
static _Atomic off_t unreadable = INT64_MAX;
static void (*at_read)(int fd, off_t at);
static atomic_int reads;

static ssize_t test_pread(int fd, void *into, size_t length, off_t at) {
    MUST(held == 0 && length == 1);
    uint8_t byte = fd >= 0 && files_keep ? in_files[fd][at] : 0;
    bool is_read = fd >= 0 && at < unreadable;
    reads++;
    if (at_read != NULL) at_read(fd, at);
    if (!is_read) {
        errno = fd < 0 ? EBADF : ENXIO;
        return -1;
    }
    *(uint8_t *)into = byte;
    return 1;
}

/* For how many descriptors identities are remembered. */
static size_t remembered;

void fd_calls_remember(size_t count) { remembered = count; }

void fd_calls_forget(void) { remembered = 0; }

static bool is_granted(void) {
    if (granted == 0) {
        if (fails_once) granted = SIZE_MAX;
        return false;
    }
    if (granted != SIZE_MAX) granted--;
    return true;
}

static void *test_malloc(size_t size) {
    if (!is_granted()) return NULL;
    __atomic_add_fetch(&blocks, 1, __ATOMIC_RELAXED);
    return malloc(size);
}

static void *test_realloc(void *old, size_t size) {
    if (!is_granted()) return NULL;
    if (old == NULL) __atomic_add_fetch(&blocks, 1, __ATOMIC_RELAXED);
    return realloc(old, size);
}

static void test_free(void *block) {
    if (block != NULL) __atomic_sub_fetch(&blocks, 1, __ATOMIC_RELAXED);
    free(block);
}

tried rattle_alloc(size_t n, size_t a) {
    MUST(a == 1);
    void *block = test_malloc(n);
    return (tried){.ok = block != NULL, .p = block};
}

void rattle_dealloc(void *block) { test_free(block); }

static int test_init(pthread_mutex_t *lock, const pthread_mutexattr_t *kind) {
    if (!is_granted()) return EAGAIN;
    __atomic_add_fetch(&locks_there, 1, __ATOMIC_RELAXED);
    return pthread_mutex_init(lock, kind);
}

static int test_destroy(pthread_mutex_t *lock) {
    __atomic_sub_fetch(&locks_there, 1, __ATOMIC_RELAXED);
    return pthread_mutex_destroy(lock);
}

static int test_lock(pthread_mutex_t *lock) {
    taken++;
    if (++held > most_held) most_held = held;
    return pthread_mutex_lock(lock);
}

/* What a test does once this thread has let a lock go, and has none: after this many others. */
static _Thread_local void (*at_unlock)(void);
static _Thread_local int unlocks_before;

static int test_unlock(pthread_mutex_t *lock) {
    int status = pthread_mutex_unlock(lock);
    if (--held > 0 || at_unlock == NULL || unlocks_before-- > 0) return status;
    void (*once)(void) = at_unlock;
    at_unlock = NULL;
    once();
    return status;
}

static int test_cond_init(pthread_cond_t *made, const pthread_condattr_t *kind) {
    clockid_t clock;
    MUST(pthread_condattr_getclock(kind, &clock) == 0 && clock == CLOCK_MONOTONIC);
    if (!is_granted()) return EAGAIN;
    __atomic_add_fetch(&locks_there, 1, __ATOMIC_RELAXED);
    return pthread_cond_init(made, kind);
}

static int test_cond_destroy(pthread_cond_t *made) {
    __atomic_sub_fetch(&locks_there, 1, __ATOMIC_RELAXED);
    return pthread_cond_destroy(made);
}

/* How many threads wait, and how often one began to; and what a test does once a thread that
 * waited was woken, before it has the lock again: other threads may do that. */
static atomic_int waiting_now, waits;
static void (*at_wake)(void);

static int wait_until(pthread_cond_t *of, pthread_mutex_t *lock, const struct timespec *until) {
    held--;
    waiting_now++;
    waits++;
    int status = until == NULL ? pthread_cond_wait(of, lock)
                               : pthread_cond_timedwait(of, lock, until);
    waiting_now--;
    if (at_wake != NULL) {
        pthread_mutex_unlock(lock);
        at_wake();
        pthread_mutex_lock(lock);
    }
    held++;
    return status;
}

static int test_cond_wait(pthread_cond_t *of, pthread_mutex_t *lock) {
    return wait_until(of, lock, NULL);
}

/* What the clock shows; until which nanosecond the last one waits that has a limit; and whether
 * that time is over: it is once a test says so, and wakes who waits. */
static struct timespec now;
static atomic_llong waits_until;
static atomic_bool is_time_over;

static int test_clock(clockid_t clock, struct timespec *shown) {
    MUST(clock == CLOCK_MONOTONIC);
    *shown = now;
    return 0;
}

static int test_cond_timedwait(
    pthread_cond_t *of, pthread_mutex_t *lock, const struct timespec *until) {
    static const struct timespec never = {.tv_sec = INT64_C(1) << 40};
    MUST(until->tv_nsec >= 0 && until->tv_nsec < 1000000000); /* else the system refuses to wait */
    waits_until = until->tv_sec * 1000000000LL + until->tv_nsec;
    int status = atomic_load(&is_time_over) ? ETIMEDOUT : wait_until(of, lock, &never);
    return atomic_load(&is_time_over) ? ETIMEDOUT : status;
}

/* Whether the system orders the memory of all threads, and how often it was asked. */
static bool system_orders = true;
static atomic_int orders;

static long test_syscall(long number, int command, int flags, int core) {
    MUST(number == SYS_membarrier && flags == 0 && core == 0);
    orders++;
    errno = ENOSYS;
    return system_orders ? syscall(number, command, flags, core) : -1;
}

/* How often this thread has stored a word in the one order of all seq_cst operations. What that is
 * for, no test sees: checks/holds/model.py does. */
static _Thread_local int stored_in_order;

static inline void store_in_order(_Atomic uint64_t *at, uint64_t value) {
    atomic_store(at, value);
    stored_in_order++;
}

static int test_fsync(int fd) {
    if (interruptions > 0) {
        interruptions--;
        errno = EINTR;
        return -1;
    }
    __atomic_add_fetch(&syncs, 1, __ATOMIC_RELAXED);
    if (fd < 0) {
        errno = EBADF;
        return -1;
    }
    MUST(__atomic_fetch_add(&in_sync[fd], 1, __ATOMIC_RELAXED) == 0);
    give_turn();
    if (held > most_in_sync) most_in_sync = held;
    if (at_sync != NULL) {
        void (*once)(int) = at_sync;
        at_sync = NULL;
        once(fd);
    }
    __atomic_fetch_sub(&in_sync[fd], 1, __ATOMIC_RELAXED);
    if (sync_errors[fd] == 0) return 0;
    errno = sync_errors[fd];
    sync_errors[fd] = 0;
    return -1;
}

#endif

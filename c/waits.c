/*
 * waits.c: how long calls wait, as waits.h says. Nothing here is proved; c/check tests it.
 */
#define _DEFAULT_SOURCE 1 /* syscall */
#define _POSIX_C_SOURCE 200809L /* clock_gettime, pthread_cond_timedwait */
#include "waits.h"
#include "shards.h"

#include <errno.h>
#include <linux/membarrier.h>
#include <sys/syscall.h>
#include <unistd.h>

enum { MILLISECONDS = 1000, NANOSECONDS = 1000000000 };

static bool has_limit(const opened *its) { return its->longest_wait != UINT64_MAX; }

/* The time begins with the first wait of a call. */
static void begin_waits(const opened *its, patience *left) {
    struct timespec *until = &left->until;
    if (left->has_begun) return;
    left->has_begun = true;
    clock_gettime(CLOCK_MONOTONIC, until);
    until->tv_sec += (time_t)(its->longest_wait / MILLISECONDS);
    until->tv_nsec += (long)(its->longest_wait % MILLISECONDS * (NANOSECONDS / MILLISECONDS));
    if (until->tv_nsec < NANOSECONDS) return;
    until->tv_nsec -= NANOSECONDS;
    until->tv_sec++;
}

/* What has happened when the time is over is looked at once more. */
int await_call(const opened *its, shard *in, patience *left) {
    if (left->is_over) return WARM_BUSY;
    if (!has_limit(its)) {
        pthread_cond_wait(&in->call_over, &in->lock);
        return READ_AGAIN;
    }
    begin_waits(its, left);
    left->is_over =
        pthread_cond_timedwait(&in->call_over, &in->lock, &left->until) == ETIMEDOUT;
    return READ_AGAIN;
}

int look_again(const opened *its, patience *left) {
    struct timespec now;
    if (!has_limit(its)) return READ_AGAIN;
    begin_waits(its, left);
    clock_gettime(CLOCK_MONOTONIC, &now);
    bool is_over = now.tv_sec > left->until.tv_sec ||
                   (now.tv_sec == left->until.tv_sec && now.tv_nsec >= left->until.tv_nsec);
    return is_over ? WARM_BUSY : READ_AGAIN;
}

/* ---- who wants a frame ---- */

static bool system_does(int command) { return syscall(SYS_membarrier, command, 0, 0) == 0; }

/* The system is asked once whether it will do so. */
uint32_t nobody_wants(void) {
    return system_does(MEMBARRIER_CMD_REGISTER_PRIVATE_EXPEDITED) ? 0 : ORDERS_ITSELF;
}

/* If somebody wants a frame already, the system need not do it again: who found that nobody does
 * had given up its hold before. If it has no memory for it, this wait may last until a write is
 * over. */
void begin_to_want(shard *in) {
    uint32_t before = atomic_fetch_add(&in->table.wanting, ONE_WANTS);
    if (before == 0 && !system_does(MEMBARRIER_CMD_PRIVATE_EXPEDITED))
        atomic_fetch_or(&in->table.wanting, ORDERS_ITSELF);
}

void end_to_want(shard *in) { atomic_fetch_sub(&in->table.wanting, ONE_WANTS); }

static bool is_frame_wanted(shard *in) { return atomic_load(&in->table.wanting) >= ONE_WANTS; }

void wake_wanting(shard *in) {
    if (is_frame_wanted(in)) pthread_cond_broadcast(&in->call_over);
}

/* The word is stored once more, in the one order that seq_cst operations have: it has the two of
 * who wants a frame, too. */
void enter_and_wake_wanting(shard *in, _Atomic uint64_t *word) {
    atomic_store(word, 0);
    if (!is_frame_wanted(in)) return;
    pthread_mutex_lock(&in->lock);
    pthread_cond_broadcast(&in->call_over);
    pthread_mutex_unlock(&in->lock);
}

/*
 * schedules.h: for schedules_test.c, over fake_library.h: threads of which one runs at a time. At
 * each lock, unlock, wait and pause between the steps of a pin, and where a test says so, another
 * one may go on; which one is drawn. So a seed gives one schedule, and if no thread can go on,
 * that is seen. They are stacks that one thread of the system changes between.
 */
#ifndef SCHEDULES_H
#define SCHEDULES_H

#define _GNU_SOURCE
#include <pthread.h>
#include <ucontext.h>

static int drawn_lock(pthread_mutex_t *lock);
static int drawn_unlock(pthread_mutex_t *lock);
static int drawn_wait(pthread_cond_t *condition, pthread_mutex_t *lock);
static int drawn_timedwait(
    pthread_cond_t *condition, pthread_mutex_t *lock, const struct timespec *until);
static int drawn_broadcast(pthread_cond_t *condition);
static void may_switch(void);
#define pthread_mutex_lock drawn_lock
#define pthread_mutex_unlock drawn_unlock
#define pthread_cond_wait drawn_wait
#define pthread_cond_timedwait drawn_timedwait
#define pthread_cond_broadcast drawn_broadcast
#define HOLDS_PAUSE may_switch
#define HOLDS_PAUSE_IN_SHARD may_switch
#include "fake_library.h"

enum { THREADS = 5, STACK = 1 << 18 };

/* Of a thread that does not run: what _Thread_local variables it has. */
typedef struct thread_state {
    int held, most_held, most_in_sync, taken, error;
    bool is_for_later;
    const made_write *made_before;
} thread_state;

typedef struct thread {
    ucontext_t at;
    void *stack;
    const void *awaits; /* a lock, a condition or a latch; NULL if it can go on */
    bool is_over, has_limit; /* has_limit: its time may be over while it waits */
    thread_state state;
} thread;

static thread threads[THREADS];
static int thread_count, running = -1; /* -1: the main program, while no thread is there */
static ucontext_t main_program;
static uint64_t seed, draws;
static bool wakes_for_nothing; /* whether threads that wait may also wake up by chance */
static long switches;

static uint64_t drawn(uint64_t bound) {
    draws ^= draws << 13;
    draws ^= draws >> 7;
    draws ^= draws << 17;
    return (draws * 2685821657736338717u >> 33) % bound;
}

static thread_state state_now(void) {
    return (thread_state){held, most_held, most_in_sync, taken, errno, is_for_later, made_before};
}

static void set_state(const thread_state *to) {
    held = to->held;
    most_held = to->most_held;
    most_in_sync = to->most_in_sync;
    taken = to->taken;
    errno = to->error;
    is_for_later = to->is_for_later;
    made_before = to->made_before;
}

static void end_wait(thread *it) {
    it->has_limit = false;
    it->awaits = NULL;
}

static int ready_thread(void) {
    int ready[THREADS], count = 0;
    for (int at = 0; at < thread_count; at++) {
        thread *it = &threads[at];
        if (wakes_for_nothing && drawn(50) == 0) it->awaits = NULL;
        if (it->has_limit && drawn(30) == 0) end_wait(it);
        if (!it->is_over && it->awaits == NULL) ready[count++] = at;
    }
    return count == 0 ? -1 : ready[drawn((uint64_t)count)];
}

/* Goes on with a thread that can; with the main program if all are over. */
static void switch_threads(void) {
    thread *from = &threads[running];
    int to = ready_thread();
    switches++;
    if (to == running) return;
    from->state = state_now();
    if (to < 0) {
        for (int at = 0; at < thread_count; at++) MUST(threads[at].is_over); /* else all wait */
        running = -1;
        setcontext(&main_program);
    }
    running = to;
    set_state(&threads[to].state);
    swapcontext(&from->at, &threads[to].at);
}

static void may_switch(void) {
    if (running >= 0 && drawn(4) != 0) switch_threads();
}

/* Somebody calls wake with the same address, or the thread wakes up by chance. */
static void await_wake(const void *what) {
    MUST(running >= 0);
    threads[running].awaits = what;
    switch_threads();
}

static void wake(const void *what) {
    for (int at = 0; at < thread_count; at++)
        if (threads[at].awaits == what) threads[at].awaits = NULL;
}

static int drawn_lock(pthread_mutex_t *lock) {
    may_switch();
    while (pthread_mutex_trylock(lock) != 0) await_wake(lock);
    return 0;
}

#undef pthread_mutex_unlock
static void unlock(pthread_mutex_t *lock) {
    MUST(pthread_mutex_trylock(lock) != 0 && pthread_mutex_unlock(lock) == 0);
    wake(lock);
}

static int drawn_unlock(pthread_mutex_t *lock) {
    unlock(lock);
    may_switch();
    return 0;
}

static int drawn_wait(pthread_cond_t *condition, pthread_mutex_t *lock) {
    unlock(lock);
    await_wake(condition);
    while (pthread_mutex_trylock(lock) != 0) await_wake(lock);
    return 0;
}

static int drawn_timedwait(
    pthread_cond_t *condition, pthread_mutex_t *lock, const struct timespec *until) {
    thread *its = &threads[running];
    (void)until;
    its->has_limit = true;
    drawn_wait(condition, lock);
    bool is_over = !its->has_limit;
    its->has_limit = false;
    return is_over ? ETIMEDOUT : 0;
}

static int drawn_broadcast(pthread_cond_t *condition) {
    wake(condition);
    return 0;
}

__attribute__((noinline)) static void make_thread(thread *it, void (*body)(void)) {
    if (it->stack == NULL) it->stack = malloc(STACK);
    MUST(it->stack != NULL && getcontext(&it->at) == 0);
    it->at.uc_stack.ss_sp = it->stack;
    it->at.uc_stack.ss_size = STACK;
    makecontext(&it->at, body, 0);
    it->awaits = NULL;
    it->is_over = it->has_limit = false;
    it->state = (thread_state){0};
}

/* Runs this many threads, each of which makes the call, until all are over. */
static void run_threads(int count, void (*body)(void)) {
    thread_state before = state_now();
    thread_count = count;
    for (int at = 0; at < count; at++) make_thread(&threads[at], body);
    running = 0;
    set_state(&threads[0].state);
    swapcontext(&main_program, &threads[0].at);
    set_state(&before);
}

/* The end of each body. */
static void end_thread(void) {
    MUST(held == 0 && !is_for_later && made_before == NULL);
    threads[running].is_over = true;
    switch_threads();
}

#endif

/*
 * latches.h: for stress.c: latches of pages, each of several readers or of one writer.
 */
#ifndef LATCHES_H
#define LATCHES_H

#include <pthread.h>
#include <stdbool.h>

/* Its lock is held while nothing is waited for but itself: so who is in a shard may try the latch,
 * and no order of locks is turned round. */
typedef struct latch {
    pthread_mutex_t lock;
    pthread_cond_t freed;
    unsigned readers;
    bool has_writer;
} latch;

static inline bool try_shared(latch *of) {
    pthread_mutex_lock(&of->lock);
    bool is_free = !of->has_writer;
    if (is_free) of->readers++;
    pthread_mutex_unlock(&of->lock);
    return is_free;
}

static inline void latch_shared(latch *of) {
    pthread_mutex_lock(&of->lock);
    while (of->has_writer) pthread_cond_wait(&of->freed, &of->lock);
    of->readers++;
    pthread_mutex_unlock(&of->lock);
}

static inline void latch_alone(latch *of) {
    pthread_mutex_lock(&of->lock);
    while (of->has_writer || of->readers > 0) pthread_cond_wait(&of->freed, &of->lock);
    of->has_writer = true;
    pthread_mutex_unlock(&of->lock);
}

static inline void unlatch(latch *of) {
    pthread_mutex_lock(&of->lock);
    if (of->has_writer) of->has_writer = false;
    else of->readers--;
    pthread_cond_broadcast(&of->freed);
    pthread_mutex_unlock(&of->lock);
}

#endif

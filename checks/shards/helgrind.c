/*
 * helgrind.c: atomic operations as helgrind sees them: each holds the lock of its address.
 *
 * Helgrind knows the order that locks make, and none that atomic operations make: it takes what one
 * thread writes before an atomic store, and another reads after the load, for a race. A lock for
 * each address orders the operations on that address, and on the few that share its lock: a race
 * that only these would show may go unseen. What helgrind watches is compiled by gcc with
 * -fno-inline-atomics, so that each operation is a call of a function below.
 */
#include <pthread.h>
#include <stdbool.h>
#include <stdint.h>

/* Addresses that share a lock cannot block each other: no operation is within another. */
enum { ATOMIC_LOCKS = 4096 };
static pthread_mutex_t locks[ATOMIC_LOCKS];

static pthread_mutex_t *lock_of(const volatile void *at) {
    pthread_mutex_t *its_lock = &locks[((uintptr_t)at >> 1) % ATOMIC_LOCKS];
    pthread_mutex_lock(its_lock);
    return its_lock;
}

/* Stores a value that is made of the one before, which is returned. */
#define CHANGES(name, type, changed)                                         \
    type name(volatile void *at, type value, int order) {                    \
        pthread_mutex_t *its_lock = lock_of(at);                             \
        type before = *(volatile type *)at;                                  \
        (void)order;                                                         \
        *(volatile type *)at = (type)(changed);                              \
        pthread_mutex_unlock(its_lock);                                      \
        return before;                                                       \
    }

#define OF_SIZE(size, type)                                                  \
    type __atomic_load_##size(const volatile void *at, int order) {          \
        pthread_mutex_t *its_lock = lock_of(at);                             \
        type value = *(const volatile type *)at;                             \
        (void)order;                                                         \
        pthread_mutex_unlock(its_lock);                                      \
        return value;                                                        \
    }                                                                        \
    CHANGES(__atomic_exchange_##size, type, value)                           \
    CHANGES(__atomic_fetch_add_##size, type, before + value)                 \
    CHANGES(__atomic_fetch_sub_##size, type, before - value)                 \
    CHANGES(__atomic_fetch_and_##size, type, before & value)                 \
    CHANGES(__atomic_fetch_or_##size, type, before | value)                  \
    void __atomic_store_##size(volatile void *at, type value, int order) {   \
        __atomic_exchange_##size(at, value, order);                          \
    }                                                                        \
    bool __atomic_compare_exchange_##size(volatile void *at, void *seen, type value, bool weak, \
        int order, int otherwise) {                                          \
        pthread_mutex_t *its_lock = lock_of(at);                             \
        type before = *(volatile type *)at;                                  \
        bool is_same = before == *(type *)seen;                              \
        (void)weak, (void)order, (void)otherwise;                            \
        if (is_same) *(volatile type *)at = value;                           \
        else *(type *)seen = before;                                         \
        pthread_mutex_unlock(its_lock);                                      \
        return is_same;                                                      \
    }

OF_SIZE(1, uint8_t)
OF_SIZE(2, uint16_t)
OF_SIZE(4, uint32_t)
OF_SIZE(8, uint64_t)

/*
 * sync_once.c: which descriptors are still to be synced, as sync_once.h says. Nothing here is
 * proved; c/check tests it.
 *
 * Its locks come after all others: syncing, which is held during an fsync, and then that of the
 * chains, which is held during nothing that waits.
 */
#define _POSIX_C_SOURCE 200809L /* pthread_mutex_t */
#include "sync_once.h"
#include "devices.h"

#include <errno.h>
#include <pthread.h>
#include <stdint.h>
#include <stdlib.h>

enum { CHAINS = 1024 };

typedef struct counted {
    int fd;
    size_t devices, users; /* devices; and the threads that sync it, are about to, or let it go */
    uint64_t writes;       /* that have returned */
    uint64_t synced; /* how many writes had returned when the last sync that succeeded began */
    int error;       /* errno of the sync that failed; 0: none has */
    struct counted *next;
    /* Who syncs has this lock, and then the other one to change what is known. */
    pthread_mutex_t syncing;
    bool is_let_go; /* no device has the descriptor, which may be another file's now */
} counted;

/* The descriptors that are counted, in chains. Who reads or changes them, and what is known of
 * them, has the lock. */
static pthread_mutex_t chains_lock = PTHREAD_MUTEX_INITIALIZER;
static counted *chains[CHAINS];

/* What points to a descriptor, or to the end of its chain. */
static counted **place_of(int fd) {
    counted **place = &chains[(unsigned)fd % CHAINS];
    while (*place != NULL && (*place)->fd != fd) place = &(*place)->next;
    return place;
}

static counted *new_counted(int fd) {
    counted *made = malloc(sizeof(counted));
    if (made == NULL) return NULL;
    *made = (counted){.fd = fd};
    if (pthread_mutex_init(&made->syncing, NULL) == 0) return made;
    free(made);
    return NULL;
}

bool sync_add(int fd) {
    pthread_mutex_lock(&chains_lock);
    counted **place = place_of(fd);
    if (*place == NULL) *place = new_counted(fd);
    counted *its = *place;
    if (its != NULL) its->devices++;
    pthread_mutex_unlock(&chains_lock);
    return its != NULL;
}

/* One that no chain has is freed by who leaves it last. */
static void leave_use(counted *its) {
    pthread_mutex_lock(&chains_lock);
    bool is_last = --its->users == 0 && its->devices == 0;
    pthread_mutex_unlock(&chains_lock);
    if (!is_last) return;
    pthread_mutex_destroy(&its->syncing);
    free(its);
}

/* Takes it from its chain with the last device, so that nobody begins to use it. */
static counted *unlink_last(int fd) {
    counted **place = place_of(fd), *its = *place;
    if (its == NULL || --its->devices > 0) return NULL;
    *place = its->next;
    its->users++;
    return its;
}

void sync_drop(int fd) {
    pthread_mutex_lock(&chains_lock);
    counted *its = unlink_last(fd);
    pthread_mutex_unlock(&chains_lock);
    if (its == NULL) return;
    pthread_mutex_lock(&its->syncing);
    its->is_let_go = true;
    pthread_mutex_unlock(&its->syncing);
    leave_use(its);
}

void sync_wrote(int fd) {
    pthread_mutex_lock(&chains_lock);
    counted *its = *place_of(fd);
    if (its != NULL) its->writes++;
    pthread_mutex_unlock(&chains_lock);
}

static bool is_settled(const counted *its) { return its->error == 0 && its->writes == its->synced; }

bool sync_is_settled(int fd) {
    pthread_mutex_lock(&chains_lock);
    counted *its = *place_of(fd);
    bool is_so = its == NULL || is_settled(its);
    pthread_mutex_unlock(&chains_lock);
    return is_so;
}

/* A descriptor that is counted and has something to sync, else NULL. It stays there until
 * leave_use. */
static counted *use(int fd, bool *is_counted) {
    pthread_mutex_lock(&chains_lock);
    counted *its = *place_of(fd);
    *is_counted = its != NULL;
    if (its != NULL && is_settled(its)) its = NULL;
    if (its != NULL) its->users++;
    pthread_mutex_unlock(&chains_lock);
    return its;
}

/* Whether there is still something to sync, and the writes that had returned by then. */
static bool is_to_sync(counted *its, uint64_t *writes) {
    pthread_mutex_lock(&chains_lock);
    *writes = its->writes;
    bool is_needed = !its->is_let_go && its->error == 0 && *writes != its->synced;
    pthread_mutex_unlock(&chains_lock);
    return is_needed;
}

static void note_sync(counted *its, uint64_t writes, int error) {
    pthread_mutex_lock(&chains_lock);
    if (error == 0) its->synced = writes;
    else its->error = error;
    pthread_mutex_unlock(&chains_lock);
}

/* Syncs what was not synced before, notes what came of it, and returns the errno. Only one thread
 * is in here for a descriptor: another one that learned of a success could have lost pages by a
 * failure that the system reports once. */
static int sync_rest(counted *its, bool *is_made) {
    uint64_t writes;
    pthread_mutex_lock(&its->syncing);
    *is_made = is_to_sync(its, &writes);
    if (*is_made) note_sync(its, writes, device_sync(its->fd) == 0 ? 0 : errno);
    int error = its->is_let_go ? 0 : its->error;
    pthread_mutex_unlock(&its->syncing);
    return error;
}

sync_use *sync_take(int fd) {
    bool is_counted;
    return use(fd, &is_counted);
}

int sync_taken(sync_use *its, bool *is_made) {
    int error = sync_rest(its, is_made);
    leave_use(its);
    if (error == 0) return 0;
    errno = error;
    return -1;
}

static _Thread_local bool is_for_later;

bool sync_later(bool is_later) {
    bool before = is_for_later;
    is_for_later = is_later;
    return before;
}

int sync_once(int fd) {
    bool is_counted, is_made;
    counted *its = use(fd, &is_counted);
    if (!is_counted) return device_sync(fd);
    if (its == NULL) return 0;
    if (!is_for_later) return sync_taken(its, &is_made);
    leave_use(its);
    return 0;
}

/*
 * Watches the order of writes and syncs of a program that is started with it as LD_PRELOAD: what kill -9 cannot show, since what is written
 * and not synced outlives a process, but not a loss of power. It ends the program where
 *  - the database is written while its journal has bytes that are not synced: a rollback could miss old bytes;
 *  - the journal is deleted while the database has bytes that are not synced: a commit could lose new ones;
 *  - the database is written while its WAL has bytes that are not synced, or the WAL is reset (deleted, truncated, or written from its start)
 *    while the database has such bytes.
 * It goes by names: FILE.db, FILE.db-journal and FILE.db-wal. At the end it says how often it looked.
 */
#define _GNU_SOURCE
#include <dlfcn.h>
#include <stdbool.h>
#include <stdio.h>
#include <stdlib.h>
#include <string.h>
#include <sys/types.h>
#include <unistd.h>

static bool database_waits, journal_waits, wal_waits;
static unsigned long long database_writes, deletions, resets;

static bool ends_with(const char *text, const char *end) {
    size_t length = strlen(text), rest = strlen(end);
    return length >= rest && strcmp(text + length - rest, end) == 0;
}

/* The flag of the file behind a descriptor, or NULL where it is none of these. */
static bool *flag_of(int fd) {
    char link[64], path[1024];
    snprintf(link, sizeof link, "/proc/self/fd/%d", fd);
    ssize_t length = readlink(link, path, sizeof path - 1);
    if (length < 0) return NULL;
    path[length] = 0;
    if (ends_with(path, ".db-wal")) return &wal_waits;
    return ends_with(path, ".db") ? &database_waits : ends_with(path, ".db-journal") ? &journal_waits : NULL;
}

static void refuse(const char *what) {
    fprintf(stderr, "sync_order: %s\n", what);
    _exit(3);
}

static void note_reset(void) {
    if (database_waits) refuse("the WAL is reset before the database is synced");
    resets++;
}

static void note_write(int fd, bool is_at_start) {
    bool *flag = flag_of(fd);
    if (flag == NULL) return;
    if (flag == &database_waits && journal_waits) refuse("the database is written before its journal is synced");
    if (flag == &database_waits && wal_waits) refuse("the database is written before its WAL is synced");
    if (flag == &wal_waits && is_at_start) note_reset();
    if (flag == &database_waits) database_writes++;
    *flag = true;
}

static void note_sync(int fd) {
    bool *flag = flag_of(fd);
    if (flag != NULL) *flag = false;
}

#define NEXT(name) ((__typeof__(&name))dlsym(RTLD_NEXT, #name))

ssize_t write(int fd, const void *bytes, size_t length) {
    note_write(fd, false);
    return NEXT(write)(fd, bytes, length);
}

ssize_t pwrite(int fd, const void *bytes, size_t length, off_t at) {
    note_write(fd, at == 0);
    return NEXT(pwrite)(fd, bytes, length, at);
}

ssize_t pwrite64(int fd, const void *bytes, size_t length, off64_t at) {
    note_write(fd, at == 0);
    return NEXT(pwrite64)(fd, bytes, length, at);
}

int ftruncate(int fd, off_t size) {
    if (flag_of(fd) == &wal_waits) note_reset();
    return NEXT(ftruncate)(fd, size);
}

int ftruncate64(int fd, off64_t size) {
    if (flag_of(fd) == &wal_waits) note_reset();
    return NEXT(ftruncate64)(fd, size);
}

int fsync(int fd) {
    int result = NEXT(fsync)(fd);
    if (result == 0) note_sync(fd);
    return result;
}

int fdatasync(int fd) {
    int result = NEXT(fdatasync)(fd);
    if (result == 0) note_sync(fd);
    return result;
}

int unlink(const char *path) {
    if (ends_with(path, ".db-journal")) {
        if (database_waits) refuse("the journal is deleted before the database is synced");
        deletions++;
        journal_waits = false;
    } else if (ends_with(path, ".db-wal")) {
        note_reset();
        wal_waits = false;
    }
    return NEXT(unlink)(path);
}

__attribute__((destructor)) static void report(void) {
    fprintf(stderr, "sync_order: %llu writes of the database, %llu deletions of the journal, %llu resets of the WAL, each in order\n",
        database_writes, deletions, resets);
}

/* Tests of pools that wait for their file, of one thread and of several at once: check also runs it under the thread sanitizer.
 * prepare_test FOLDER */
#define _GNU_SOURCE
#include <pthread.h>
#include <stdio.h>
#include <stdlib.h>

#include "vfs.h"

enum { THREADS = 4, ROUNDS = 50 };

/* A thread and a database of its own, and how often its pool waited for that. */
typedef struct opener {
    pthread_t thread;
    char path[512];
    int prepared;
} opener;

static void must(bool is_so, const char *what, int line) {
    if (is_so) return;
    fprintf(stderr, "prepare_test: line %d: not so: %s\n", line, what);
    exit(1);
}
#define MUST(what) must(what, #what, __LINE__)

static sqlite3 *open_pooled(const opener *its) {
    sqlite3 *db;
    MUST(pool_vfs_open(its->path, SQLITE_OPEN_READWRITE | SQLITE_OPEN_CREATE, false, &db) == SQLITE_OK);
    return db;
}

static void create(opener *its, const char *folder, int number) {
    snprintf(its->path, sizeof its->path, "%s/prepared-%d", folder, number);
    sqlite3 *db = open_pooled(its);
    MUST(sqlite3_exec(db, "CREATE TABLE IF NOT EXISTS t(a)", NULL, NULL, NULL) == SQLITE_OK && sqlite3_close(db) == SQLITE_OK);
}

static int prepare(const opener *its, pool_file **pool) { return pool_vfs_prepare(its->path, its->path, pool); }

/* SQLite takes the pool that waited for this file, and writes by it. */
static void open_by(const opener *its, const pool_file *pool) {
    sqlite3 *db = open_pooled(its);
    MUST(pool_vfs_of(db) == pool);
    MUST(sqlite3_exec(db, "INSERT INTO t VALUES (1)", NULL, NULL, NULL) == SQLITE_OK && sqlite3_close(db) == SQLITE_OK);
}

/* One pool waits. Another one is refused until SQLite has opened the file of the first, and files that no pool waits for are opened meanwhile. */
static void one_waits(const opener *its, const opener *other) {
    pool_file *first, *second = NULL;
    MUST(prepare(its, &first) == SQLITE_OK);
    MUST(prepare(other, &second) == SQLITE_MISUSE && prepare(its, &second) == SQLITE_MISUSE && second == NULL);
    sqlite3 *db = open_pooled(other);
    MUST(pool_vfs_of(db) != NULL && pool_vfs_of(db) != first && sqlite3_close(db) == SQLITE_OK);
    open_by(its, first);
    MUST(prepare(other, &second) == SQLITE_OK);
    open_by(other, second);
}

/* Whoever comes second is refused, and opens its file all the same. */
static void *open_often(void *of) {
    opener *its = of;
    for (int round = 0; round < ROUNDS; round++) {
        pool_file *pool;
        int result = prepare(its, &pool);
        MUST(result == SQLITE_OK || result == SQLITE_MISUSE);
        if (result == SQLITE_OK) open_by(its, pool);
        else MUST(sqlite3_close(open_pooled(its)) == SQLITE_OK);
        its->prepared += result == SQLITE_OK;
    }
    return NULL;
}

static int threads_at_once(opener *all) {
    int prepared = 0;
    for (int at = 0; at < THREADS; at++) MUST(pthread_create(&all[at].thread, NULL, open_often, &all[at]) == 0);
    for (int at = 0; at < THREADS; at++) {
        MUST(pthread_join(all[at].thread, NULL) == 0);
        prepared += all[at].prepared;
    }
    MUST(prepared > 0);
    return prepared;
}

int main(int count, char **words) {
    static opener all[THREADS];
    if (count != 2) {
        fprintf(stderr, "usage: prepare_test FOLDER\n");
        return 2;
    }
    MUST(pool_vfs_register(1, 20) == SQLITE_OK);
    for (int at = 0; at < THREADS; at++) create(&all[at], words[1], at);
    one_waits(&all[0], &all[1]);
    printf("prepare_test: of %d pools of %d threads %d waited for their file\n", THREADS * ROUNDS, THREADS, threads_at_once(all));
    return 0;
}

/*
 * mpool.c: Berkeley DB's Mpool. A call gets a page, which pins it, reads its first eight bytes in place, and puts it. A pool of the kind
 * "alone" takes no locks, and one thread may use it; one of the kind "shared" is for all threads.
 */
#define _DEFAULT_SOURCE /* db.h needs u_int */
#include "load.h"

#include <db.h>
#include <stdio.h>
#include <stdlib.h>
#include <string.h>

const char *const program = "mpool";
const char *const kinds[2] = {"alone", "shared"};

struct pool {
    DB_ENV *environment;
    DB_MPOOLFILE *file;
};

static void ok(int status, const char *call) {
    if (status == 0) return;
    fprintf(stderr, "mpool: %s: %s\n", call, db_strerror(status));
    exit(1);
}

/* Berkeley DB itself makes a pool below 500 MB a quarter larger than is asked for, for the heads of its pages. Where all pages are to be hits,
 * a quarter more gives the lists of its hash table room to be of unequal length. A file is not mapped: its pages would not be in the pool. */
void *open_pool(const struct load *load, uint64_t drawn) {
    (void)drawn;
    u_int32_t threads = strcmp(load->kind, kinds[1]) == 0 ? DB_THREAD : 0;
    u_int32_t bytes = load->pages * PAGE_SIZE;
    struct pool *pool = malloc(sizeof *pool);
    if (pool == NULL) ok(DB_BUFFER_SMALL, "malloc");
    ok(db_env_create(&pool->environment, 0), "db_env_create");
    DB_ENV *environment = pool->environment;
    ok(environment->set_cachesize(environment, 0, load->is_of_misses ? bytes : bytes + bytes / 4, 1), "set_cachesize");
    ok(environment->set_mp_pagesize(environment, PAGE_SIZE), "set_mp_pagesize");
    ok(environment->open(environment, NULL, DB_CREATE | DB_INIT_MPOOL | DB_PRIVATE | threads, 0), "open of the environment");
    ok(environment->memp_fcreate(environment, &pool->file, 0), "memp_fcreate");
    ok(pool->file->open(pool->file, load->path, DB_RDONLY | DB_NOMMAP, 0, PAGE_SIZE), "open of the file");
    return pool;
}

void *join_pool(void *pool) { return pool; }

void leave_pool(void *pool, void *joined) {
    (void)pool, (void)joined;
}

void before_slice(void *at, const uint32_t *pages, size_t count) {
    (void)at, (void)pages, (void)count;
}

uint64_t play_slice(void *at, const uint32_t *pages, size_t count) {
    DB_MPOOLFILE *file = ((struct pool *)at)->file;
    uint64_t checksum = 0;
    for (size_t i = 0; i < count; i++) {
        db_pgno_t no = pages[i];
        void *page;
        uint64_t number;
        ok(file->get(file, &no, NULL, 0, &page), "get");
        memcpy(&number, page, sizeof number);
        ok(file->put(file, page, DB_PRIORITY_DEFAULT, 0), "put");
        checksum = added(checksum, number);
    }
    return checksum;
}

void close_pool(void *at) {
    struct pool *pool = at;
    ok(pool->file->close(pool->file, 0), "close of the file");
    ok(pool->environment->close(pool->environment, 0), "close of the environment");
    free(pool);
}

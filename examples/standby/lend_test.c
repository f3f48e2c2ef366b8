/* Tests of lent pages: SQLite's xFetch and xUnfetch by hand, and cursors that read while the database changes, beside stock SQLite on a file of
 * its own. lend_test FOLDER [RUNS] [SEED] */
#define _GNU_SOURCE
#include <fcntl.h>
#include <stdio.h>
#include <stdlib.h>
#include <string.h>
#include <unistd.h>

#include "vfs.h"

enum { PAGE = 4096, MOST_PAGES = 64, FRAMES = 8, CURSORS = 3 };

static const char *folder;
static int checks;
static uint64_t lends[2]; /* to all cursors, by whether they were alone: of a WAL pages are lent once they are in the file */
static uint64_t reloads;  /* for another connection's commits, of pools that lent pages */

static void must(bool is_so, const char *what, int line) {
    checks++;
    if (is_so) return;
    fprintf(stderr, "lend_test: line %d: not so: %s\n", line, what);
    exit(1);
}
#define MUST(what) must(what, #what, __LINE__)

static const char *path_of(const char *name) {
    static char path[512];
    snprintf(path, sizeof path, "%s/%s", folder, name);
    return path;
}

static void run(sqlite3 *db, const char *sql) {
    if (sqlite3_exec(db, sql, NULL, NULL, NULL) == SQLITE_OK) return;
    fprintf(stderr, "lend_test: %s: %s\n", sql, sqlite3_errmsg(db));
    exit(1);
}

/* A database of some pages of this size, alone, over a pool with this many frames. */
static sqlite3 *open_with(size_t frames, int page_size, sqlite3_file **file) {
    sqlite3 *db;
    char sql[300];
    unlink(path_of("lent"));
    pool_vfs_register(1, frames);
    MUST(pool_vfs_open(path_of("lent"), SQLITE_OPEN_READWRITE | SQLITE_OPEN_CREATE, true, &db) == SQLITE_OK);
    snprintf(sql, sizeof sql, "PRAGMA page_size=%d; CREATE TABLE t(a INTEGER PRIMARY KEY, b);"
        " WITH RECURSIVE n(i) AS (SELECT 1 UNION ALL SELECT i + 1 FROM n LIMIT 60) INSERT INTO t SELECT i, randomblob(2500) FROM n;", page_size);
    run(db, sql);
    MUST(sqlite3_file_control(db, "main", SQLITE_FCNTL_FILE_POINTER, file) == SQLITE_OK && (*file)->pMethods->iVersion == 3);
    return db;
}

static const uint8_t *fetch(sqlite3_file *file, uint64_t no, int length) {
    void *bytes;
    MUST(file->pMethods->xFetch(file, (sqlite3_int64)no * PAGE, length, &bytes) == SQLITE_OK);
    return bytes;
}

static void unfetch(sqlite3_file *file, uint64_t no, const uint8_t *bytes) {
    MUST(file->pMethods->xUnfetch(file, (sqlite3_int64)no * PAGE, (void *)(uintptr_t)bytes) == SQLITE_OK);
}

static void read_all(sqlite3_file *file, uint8_t pages[][PAGE], int count) {
    for (int no = 0; no < count; no++) MUST(file->pMethods->xRead(file, pages[no], PAGE, no * PAGE) == SQLITE_OK);
}

static int page_count(sqlite3_file *file) {
    sqlite3_int64 size;
    MUST(file->pMethods->xFileSize(file, &size) == SQLITE_OK && size / PAGE > 3 * FRAMES && size / PAGE <= MOST_PAGES);
    return (int)(size / PAGE);
}

/* The pages are those of the file, by the system's own call. */
static void are_in_file(const pool_file *pool, uint8_t pages[][PAGE], int count) {
    static uint8_t there[PAGE];
    for (int no = 0; no < count; no++) MUST(pread(pool->fd, there, PAGE, (off_t)no * PAGE) == PAGE && memcmp(there, pages[no], PAGE) == 0);
}

/* Newer versions of SQLite have an xFetch that leaves 256 bytes behind a page. */
static void may_be_read(const uint8_t *bytes) {
    static volatile uint8_t seen;
    for (int at = 0; at < PAGE + 256; at++) seen = bytes[at];
    (void)seen;
}

/* Half of the frames are lent at most. What is lent stays, and shows what is written, whatever else comes into the pool. */
static void lent_pages(void) {
    static uint8_t pages[MOST_PAGES][PAGE], other[PAGE];
    const uint8_t *lent[FRAMES / 2];
    sqlite3_file *file;
    sqlite3 *db = open_with(FRAMES, PAGE, &file);
    int count = page_count(file);
    pool_file *pool = pool_vfs_of(db);
    read_all(file, pages, count);
    are_in_file(pool, pages, count);
    for (uint64_t no = 0; no < FRAMES / 2; no++) {
        lent[no] = fetch(file, no, PAGE);
        MUST(lent[no] != NULL && memcmp(lent[no], pages[no], PAGE) == 0);
        may_be_read(lent[no]);
    }
    MUST(fetch(file, FRAMES / 2, PAGE) == NULL && fetch(file, 0, PAGE) == NULL && pool->lent == FRAMES / 2);
    read_all(file, pages, count);
    for (int no = 0; no < FRAMES / 2; no++) MUST(memcmp(lent[no], pages[no], PAGE) == 0);
    memset(other, 7, PAGE);
    MUST(file->pMethods->xWrite(file, other, PAGE, 2 * PAGE) == SQLITE_OK && memcmp(lent[2], other, PAGE) == 0);
    MUST(file->pMethods->xSync(file, SQLITE_SYNC_NORMAL) == SQLITE_OK && memcmp(lent[2], other, PAGE) == 0);
    MUST(file->pMethods->xWrite(file, pages[2], PAGE, 2 * PAGE) == SQLITE_OK && memcmp(lent[2], pages[2], PAGE) == 0);
    unfetch(file, 0, lent[0]);
    unfetch(file, 1, lent[1]);
    MUST(fetch(file, 2, PAGE) == lent[2]); /* lent twice, by one pin */
    unfetch(file, 2, lent[2]);
    read_all(file, pages, count);
    MUST(memcmp(lent[2], pages[2], PAGE) == 0 && pool->lent == 2);
    unfetch(file, 2, lent[2]);
    unfetch(file, 3, lent[3]);
    MUST(pool->lent == 0 && file->pMethods->xUnfetch(file, 0, NULL) == SQLITE_OK);
    sqlite3_close(db);
}

/* What is given back and was not lent, in a frame or in none, in the file or not, is refused, and what is lent stays so. */
static void not_given_back(void) {
    static uint8_t pages[MOST_PAGES][PAGE];
    sqlite3_file *file;
    sqlite3 *db = open_with(FRAMES, PAGE, &file);
    int count = page_count(file);
    read_all(file, pages, count);
    const uint8_t *lent = fetch(file, 1, PAGE);
    MUST(lent != NULL);
    for (sqlite3_int64 no = -1; no <= count; no++) {
        if (no != 1) MUST(file->pMethods->xUnfetch(file, no * PAGE, pages) == SQLITE_MISUSE);
    }
    MUST(file->pMethods->xUnfetch(file, INT64_MAX, pages) == SQLITE_MISUSE && pool_vfs_of(db)->lent == 1);
    read_all(file, pages, count);
    MUST(memcmp(lent, pages[1], PAGE) == 0);
    unfetch(file, 1, lent);
    MUST(file->pMethods->xUnfetch(file, PAGE, pages) == SQLITE_MISUSE && pool_vfs_of(db)->lent == 0);
    sqlite3_close(db);
}

/* What is no whole page of the pool, or no page of the file, is read and not lent. */
static void not_lent(void) {
    sqlite3_file *file;
    sqlite3 *db = open_with(FRAMES, PAGE, &file);
    void *bytes = &file;
    int count = page_count(file);
    MUST(file->pMethods->xFetch(file, 100, PAGE, &bytes) == SQLITE_OK && bytes == NULL);
    MUST(fetch(file, 1, PAGE / 2) == NULL && fetch(file, 1, 2 * PAGE) == NULL);
    MUST(fetch(file, (uint64_t)count, PAGE) == NULL && fetch(file, (uint64_t)count + 100, PAGE) == NULL);
    sqlite3_close(db);
    static const struct { size_t frames; int page_size; bool lends; } of[] = {{1, PAGE, false}, {2, PAGE, true}, {8, 1024, false}, {8, 512, false},
        {8, 8192, true}, {8, 65536, true}, {1000, PAGE, true}};
    for (size_t at = 0; at < sizeof of / sizeof *of; at++) {
        db = open_with(of[at].frames, of[at].page_size, &file);
        run(db, "PRAGMA integrity_check");
        sqlite3_close(db);
        pool_vfs_register(1, of[at].frames); /* over pages of that size from the beginning */
        MUST(pool_vfs_open(path_of("lent"), SQLITE_OPEN_READWRITE, false, &db) == SQLITE_OK);
        run(db, "SELECT sum(length(b)) FROM t");
        MUST((pool_vfs_of(db)->lends > 0) == of[at].lends && pool_vfs_of(db)->lent == 0);
        uint64_t before = pool_vfs_of(db)->lends;
        run(db, "PRAGMA mmap_size=0; SELECT sum(length(b)) FROM t");
        MUST(pool_vfs_of(db)->lends == before);
        sqlite3_close(db);
    }
}

/* A page that cannot be read is not lent, and the next time it may be. */
static void unreadable(void) {
    sqlite3_file *file;
    sqlite3 *db = open_with(FRAMES, PAGE, &file);
    static uint8_t pages[MOST_PAGES][PAGE];
    void *bytes = &file;
    read_all(file, pages, page_count(file));
    are_in_file(pool_vfs_of(db), pages, page_count(file));
    int fd = pool_vfs_of(db)->fd, kept = dup(fd), writer = open(path_of("lent"), O_WRONLY);
    MUST(kept >= 0 && writer >= 0 && dup2(writer, fd) == fd);
    MUST(file->pMethods->xFetch(file, 0, PAGE, &bytes) == SQLITE_IOERR_READ && bytes == NULL && pool_vfs_of(db)->lent == 0);
    MUST(dup2(kept, fd) == fd);
    const uint8_t *lent = fetch(file, 0, PAGE);
    MUST(lent != NULL && memcmp(lent, pages[0], PAGE) == 0);
    unfetch(file, 0, lent);
    close(kept);
    close(writer);
    sqlite3_close(db);
}

/* What is pinned and not lent gives its frame to a page of the warm-up. */
static void warmed_up(void) {
    static uint8_t pages[MOST_PAGES][PAGE];
    sqlite3_file *file;
    sqlite3 *db = open_with(2, PAGE, &file);
    pool_file *pool = pool_vfs_of(db);
    uint64_t last = (uint64_t)page_count(file) - 1;
    bool found;
    read_all(file, pages, (int)last); /* the last page is in no frame */
    MUST(file->pMethods->xRead(file, pages[last - 2], PAGE, ((sqlite3_int64)last - 2) * PAGE) == SQLITE_OK && pool->held.count == 2);
    for (uint64_t at = 1; at < 4; at++) {
        warm_reference hot = {.time = pool->time + at, .no = last, .replica = 2};
        MUST(warm_absorb(pool_file_handle(pool), &hot, 1) == WARM_OK);
    }
    MUST(pool_file_step(pool, &found) == WARM_OK && found);
    uint64_t before = pool->device_reads;
    const uint8_t *lent = fetch(file, last, PAGE);
    read_all(file, pages, (int)last + 1);
    are_in_file(pool, pages, (int)last + 1);
    MUST(lent != NULL && memcmp(lent, pages[last], PAGE) == 0 && pool->device_reads >= before + last - 1 && pool->device_reads <= before + last);
    unfetch(file, last, lent);
    sqlite3_close(db);
}

/* Where a page is lent and another connection has committed, which SQLite keeps apart by its locks, no frame is dropped: the read fails, and
 * those after the page is given back do not. */
static void lent_at_a_commit(void) {
    static uint8_t page[PAGE];
    sqlite3_file *file;
    sqlite3 *db, *other;
    sqlite3_close(open_with(FRAMES, PAGE, &file));
    MUST(pool_vfs_open(path_of("lent"), SQLITE_OPEN_READWRITE, false, &db) == SQLITE_OK);
    MUST(pool_vfs_open(path_of("lent"), SQLITE_OPEN_READWRITE, false, &other) == SQLITE_OK);
    run(db, "SELECT sum(length(b)) FROM t");
    MUST(sqlite3_file_control(db, "main", SQLITE_FCNTL_FILE_POINTER, &file) == SQLITE_OK);
    const uint8_t *lent = fetch(file, 3, PAGE);
    MUST(lent != NULL && pool_vfs_of(db)->lent == 1);
    memcpy(page, lent, PAGE);
    run(other, "UPDATE t SET b = 7");
    MUST(sqlite3_exec(db, "SELECT count(*) FROM t", NULL, NULL, NULL) == SQLITE_IOERR && memcmp(lent, page, PAGE) == 0);
    run(other, "UPDATE t SET b = 8"); /* no lock is left */
    unfetch(file, 3, lent);
    MUST(sqlite3_exec(db, "SELECT 1 / (sum(b) = 480) FROM t", NULL, NULL, NULL) == SQLITE_OK && pool_vfs_of(db)->reloads == 1);
    sqlite3_close(other);
    sqlite3_close(db);
}

/* ---- cursors ---- */

static uint64_t random_state;

static uint32_t draw(uint32_t below) {
    random_state = random_state * 6364136223846793005u + 1442695040888963407u;
    return (uint32_t)(random_state >> 33) % below;
}

/* The same statement on both. */
typedef struct pair {
    sqlite3_stmt *stock, *pooled;
} pair;

/* False where both are refused, as they are by another connection's lock. */
static bool prepare(pair *both, sqlite3 *stock, sqlite3 *pooled, const char *sql) {
    int wanted = sqlite3_prepare_v2(stock, sql, -1, &both->stock, NULL);
    MUST(sqlite3_prepare_v2(pooled, sql, -1, &both->pooled, NULL) == wanted);
    return wanted == SQLITE_OK;
}

static void finish(pair *both) {
    MUST(sqlite3_finalize(both->stock) == sqlite3_finalize(both->pooled));
    *both = (pair){0};
}

static bool is_same_text(const unsigned char *one, const unsigned char *other) {
    return one == NULL || other == NULL ? one == other : strcmp((const char *)one, (const char *)other) == 0;
}

/* A row of both, the same, or the end of both, by the same result. */
static bool step(pair *both) {
    int wanted = sqlite3_step(both->stock), given = sqlite3_step(both->pooled);
    if (wanted != given) fprintf(stderr, "lend_test: %s: %d, not %d\n", sqlite3_sql(both->stock), given, wanted);
    MUST(wanted == given);
    for (int at = 0; wanted == SQLITE_ROW && at < sqlite3_column_count(both->stock); at++)
        MUST(is_same_text(sqlite3_column_text(both->stock, at), sqlite3_column_text(both->pooled, at)));
    return wanted == SQLITE_ROW;
}

/* Some rows on, or a new cursor in place of one that is at its end. */
static void move(pair *cursor, sqlite3 *stock, sqlite3 *pooled) {
    static const char *const sql[] = {"SELECT a, b, substr(c, 1, 9) FROM t", "SELECT a, length(c) FROM t ORDER BY a DESC", "SELECT b, a FROM t ORDER BY b, a",
        "SELECT x.a, y.b, x.c FROM t AS x JOIN t AS y ON y.a = x.b"};
    if (cursor->stock == NULL && !prepare(cursor, stock, pooled, sql[draw(4)])) return;
    for (uint32_t rows = draw(20); rows > 0; rows--) {
        if (step(cursor)) continue;
        finish(cursor);
        return;
    }
}

/* A spill takes the exclusive lock, and comes earlier over the pool, where the cache is smaller: another connection is then refused there alone. */
static void change(sqlite3 *stock, sqlite3 *pooled, bool may_spill) {
    static const char *const fixed[] = {"BEGIN", "COMMIT", "COMMIT", "ROLLBACK", "SAVEPOINT s", "ROLLBACK TO s", "RELEASE s", "PRAGMA wal_checkpoint",
        "PRAGMA incremental_vacuum(3)", "PRAGMA mmap_size=0", "PRAGMA mmap_size=1000000", "PRAGMA mmap_size=1000000", "DELETE FROM t", "VACUUM",
        "PRAGMA cache_spill=0", "PRAGMA shrink_memory", "PRAGMA cache_spill=1"};
    char sql[300];
    uint32_t a = draw(900), n = 1 + draw(60);
    switch (draw(5)) {
        case 0: snprintf(sql, sizeof sql, "UPDATE t SET b = (b * 7 + 1) %% 900, c = c || 'xyz' WHERE a BETWEEN %u AND %u", a, a + n); break;
        case 1: snprintf(sql, sizeof sql, "DELETE FROM t WHERE a BETWEEN %u AND %u", a, a + n / 4); break;
        case 2: snprintf(sql, sizeof sql, "%s", fixed[draw(sizeof fixed / sizeof *fixed - !may_spill)]); break;
        default:
            snprintf(sql, sizeof sql, "WITH RECURSIVE g(v) AS (SELECT %u UNION ALL SELECT v + 1 FROM g LIMIT %u)"
                " INSERT OR REPLACE INTO t SELECT v, v * 7919 %% 900, hex(zeroblob(v * 31 %% 700)) FROM g", a, n);
    }
    int wanted = sqlite3_exec(stock, sql, NULL, NULL, NULL), given = sqlite3_exec(pooled, sql, NULL, NULL, NULL);
    if (wanted != given) fprintf(stderr, "lend_test: %s: %d %s, not %d\n", sql, given, sqlite3_errmsg(pooled), wanted);
    MUST(wanted == given);
}

/* A file of its own for each, with a WAL where they are alone. */
static void open_both(sqlite3 **stock, sqlite3 **pooled, size_t frames, bool is_alone) {
    static const char schema[] = "PRAGMA auto_vacuum=2; CREATE TABLE t(a INTEGER PRIMARY KEY, b, c); CREATE INDEX i ON t(b)";
    int flags = SQLITE_OPEN_READWRITE | SQLITE_OPEN_CREATE;
    unlink(path_of("stock"));
    unlink(path_of("pooled"));
    pool_vfs_register(1, frames);
    MUST(sqlite3_open_v2(path_of("stock"), stock, flags, "unix") == SQLITE_OK);
    MUST(pool_vfs_open(path_of("pooled"), flags, is_alone, pooled) == SQLITE_OK);
    run(*stock, "PRAGMA cache_spill=0");
    if (is_alone) run(*stock, "PRAGMA locking_mode=EXCLUSIVE; PRAGMA journal_mode=WAL; PRAGMA wal_autocheckpoint=5");
    if (is_alone) run(*pooled, "PRAGMA journal_mode=WAL; PRAGMA wal_autocheckpoint=5");
    run(*stock, schema);
    run(*pooled, schema);
}

static void same_rows(sqlite3 *stock, sqlite3 *pooled) {
    pair all = {0};
    MUST(prepare(&all, stock, pooled, "SELECT * FROM t ORDER BY a"));
    while (step(&all)) continue;
    finish(&all);
}

/* The pool's file has the rows of the other one, and is sound, as stock SQLite finds both once they are closed. */
static void same_files(void) {
    sqlite3 *stock, *pooled;
    sqlite3_stmt *check;
    MUST(sqlite3_open_v2(path_of("stock"), &stock, SQLITE_OPEN_READWRITE, "unix") == SQLITE_OK);
    MUST(sqlite3_open_v2(path_of("pooled"), &pooled, SQLITE_OPEN_READWRITE, "unix") == SQLITE_OK);
    same_rows(stock, pooled);
    MUST(sqlite3_prepare_v2(pooled, "PRAGMA integrity_check", -1, &check, NULL) == SQLITE_OK && sqlite3_step(check) == SQLITE_ROW);
    MUST(strcmp((const char *)sqlite3_column_text(check, 0), "ok") == 0);
    sqlite3_finalize(check);
    sqlite3_close(pooled);
    sqlite3_close(stock);
}

/* Cursors that stay where they are while the same connection writes, commits and rolls back see what those of stock SQLite see. */
static void random_cursors(uint64_t seed, size_t frames, bool is_alone) {
    sqlite3 *stock, *pooled;
    pair cursors[CURSORS] = {{0}};
    random_state = seed;
    open_both(&stock, &pooled, frames, is_alone);
    for (int at = 0; at < 600; at++) {
        if (draw(3) == 0) change(stock, pooled, true);
        else move(&cursors[draw(CURSORS)], stock, pooled);
    }
    lends[is_alone] += pool_vfs_of(pooled)->lends;
    for (int at = 0; at < CURSORS; at++) finish(&cursors[at]);
    MUST(pool_vfs_of(pooled)->lent == 0);
    same_rows(stock, pooled);
    MUST(sqlite3_close(stock) == SQLITE_OK && sqlite3_close(pooled) == SQLITE_OK);
    same_files();
}

/* A change by one of two connections, or rows for one of its cursors. Now and then one lets all its cursors and its transaction go, so that the
 * other may write. */
static void change_or_move(int at, sqlite3 **stock, sqlite3 **pooled, pair cursors[][CURSORS]) {
    uint32_t who = draw(2);
    if (at % 20 == 0) {
        for (int cursor = 0; cursor < CURSORS; cursor++) finish(&cursors[who][cursor]);
        MUST(sqlite3_exec(stock[who], "COMMIT", NULL, NULL, NULL) == sqlite3_exec(pooled[who], "COMMIT", NULL, NULL, NULL));
    }
    if (draw(3) == 0) change(stock[who], pooled[who], false);
    else move(&cursors[who][draw(CURSORS)], stock[who], pooled[who]);
}

/* Two connections to one file, of which each drops its frames once the other has committed: none is lent then. */
static void two_connections(uint64_t seed, size_t frames) {
    sqlite3 *stock[2], *pooled[2];
    pair cursors[2][CURSORS] = {{{0}}};
    random_state = seed;
    open_both(&stock[0], &pooled[0], frames, false);
    MUST(sqlite3_open_v2(path_of("stock"), &stock[1], SQLITE_OPEN_READWRITE, "unix") == SQLITE_OK);
    MUST(pool_vfs_open(path_of("pooled"), SQLITE_OPEN_READWRITE, false, &pooled[1]) == SQLITE_OK);
    run(stock[1], "PRAGMA cache_spill=0");
    for (int at = 0; at < 600; at++) change_or_move(at, stock, pooled, cursors);
    for (int who = 0; who < 2; who++) {
        for (int at = 0; at < CURSORS; at++) finish(&cursors[who][at]);
        MUST(sqlite3_exec(stock[who], "ROLLBACK", NULL, NULL, NULL) == sqlite3_exec(pooled[who], "ROLLBACK", NULL, NULL, NULL));
        MUST(pool_vfs_of(pooled[who])->lent == 0);
        reloads += pool_vfs_of(pooled[who])->lends > 0 ? pool_vfs_of(pooled[who])->reloads : 0;
    }
    for (int who = 0; who < 2; who++) same_rows(stock[who], pooled[who]);
    for (int who = 0; who < 2; who++) MUST(sqlite3_close(stock[who]) == SQLITE_OK && sqlite3_close(pooled[who]) == SQLITE_OK);
    same_files();
}

int main(int count, char **words) {
    static const size_t frames[] = {1, 2, 5, 20, 100, 1000};
    if (count < 2 || count > 4) {
        fprintf(stderr, "usage: lend_test FOLDER [RUNS] [SEED]\n");
        return 2;
    }
    folder = words[1];
    int runs = count > 2 ? atoi(words[2]) : 12;
    uint64_t seed = count > 3 ? strtoull(words[3], NULL, 10) : 1;
    pool_vfs_register(1, FRAMES);
    lent_pages();
    not_given_back();
    not_lent();
    unreadable();
    warmed_up();
    lent_at_a_commit();
    for (int at = 0; at < 2 * runs; at++) random_cursors(seed + (uint64_t)at, frames[at % 6], at / 6 % 2 == 1);
    for (int at = 0; at < runs; at++) two_connections(seed + (uint64_t)at, frames[at % 6]);
    MUST(runs < 6 || (lends[0] > 0 && lends[1] > 0 && reloads > 0));
    printf("lend_test: %d checks\n", checks);
    return 0;
}

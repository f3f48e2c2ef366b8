/* Tests of the VFS "warm": every answer is compared with that of stock SQLite on a file of its own. vfs_test FOLDER */
#define _GNU_SOURCE
#include <errno.h>
#include <fcntl.h>
#include <signal.h>
#include <stdarg.h>
#include <stdio.h>
#include <stdlib.h>
#include <string.h>
#include <sys/resource.h>
#include <sys/stat.h>
#include <sys/wait.h>
#include <unistd.h>

#include "messages.h"
#include "vfs.h"

static const char *folder;
static int checks;

static void must(bool is_so, const char *what, int line) {
    checks++;
    if (is_so) return;
    fprintf(stderr, "vfs_test: line %d: not so: %s\n", line, what);
    exit(1);
}
#define MUST(what) must(what, #what, __LINE__)

static const char *path_of(const char *name) {
    static char paths[4][512];
    static int next;
    next = (next + 1) % 4;
    snprintf(paths[next], sizeof paths[next], "%s/%s", folder, name);
    return paths[next];
}

static sqlite3 *open_by(const char *vfs, const char *name, int flags) {
    sqlite3 *db;
    bool is_pooled = strcmp(vfs, POOL_VFS) == 0;
    if (flags == 0) flags = SQLITE_OPEN_READWRITE | SQLITE_OPEN_CREATE;
    int result = is_pooled ? pool_vfs_open(path_of(name), flags, false, &db) : sqlite3_open_v2(path_of(name), &db, flags, vfs);
    if (result != SQLITE_OK) fprintf(stderr, "vfs_test: %s by %s: %s\n", name, vfs, sqlite3_errmsg(db));
    MUST(result == SQLITE_OK);
    return db;
}

/* With locking_mode=EXCLUSIVE, which WAL needs over the pool; and without spilling, so that both write the same frames to a WAL. */
static sqlite3 *open_alone(const char *vfs, const char *name) {
    sqlite3 *db;
    int flags = SQLITE_OPEN_READWRITE | SQLITE_OPEN_CREATE;
    if (strcmp(vfs, POOL_VFS) == 0) MUST(pool_vfs_open(path_of(name), flags, true, &db) == SQLITE_OK);
    else MUST(sqlite3_open_v2(path_of(name), &db, flags, vfs) == SQLITE_OK);
    MUST(sqlite3_exec(db, "PRAGMA locking_mode=EXCLUSIVE; PRAGMA cache_spill=0", NULL, NULL, NULL) == SQLITE_OK);
    return db;
}

/* Of a checkpoint's row the first value alone. How many frames a WAL has is no property of the data: SQLite pads a commit to a sector where a
 * file's characteristics ask for it, and those of the pool differ while its page size is not SQLite's. */
static int add_row(void *text, int count, char **values, char **names) {
    if (count == 3 && strcmp(names[1], "log") == 0) count = 1;
    for (int at = 0; at < count; at++) sqlite3_str_appendf(text, "%s|", values[at] != NULL ? values[at] : "NULL");
    sqlite3_str_appendchar(text, 1, '\n');
    return 0;
}

/* The rows of a statement, or the name of its error. The caller frees it. */
static char *answer(sqlite3 *db, const char *sql) {
    sqlite3_str *text = sqlite3_str_new(db);
    int result = sqlite3_exec(db, sql, add_row, text, NULL);
    if (result != SQLITE_OK) sqlite3_str_appendf(text, "error %d %s", result, sqlite3_errmsg(db));
    char *all = sqlite3_str_finish(text);
    return all != NULL ? all : sqlite3_mprintf("");
}

static bool answers(sqlite3 *db, const char *sql, const char *wanted) {
    char *given = answer(db, sql);
    bool is_so = strcmp(given, wanted) == 0;
    if (!is_so) fprintf(stderr, "vfs_test: %s\n answered: %.500s\n wanted: %.500s\n", sql, given, wanted);
    sqlite3_free(given);
    return is_so;
}

static bool is_whole(sqlite3 *db) { return answers(db, "PRAGMA integrity_check", "ok|\n"); }

static bool done(sqlite3 *db, const char *sql) { return answers(db, sql, ""); }

/* ---- random statements ---- */

static uint64_t random_state;

static uint32_t draw(uint32_t below) {
    random_state = random_state * 6364136223846793005u + 1442695040888963407u;
    return (uint32_t)(random_state >> 33) % below;
}

/* A connection that is not alone has no WAL over the pool, and one that is alone stays so. */
static const char *const of_shared[] = {"PRAGMA locking_mode=EXCLUSIVE", "PRAGMA locking_mode=NORMAL", "PRAGMA cache_spill=1",
    "PRAGMA cache_spill=0", "PRAGMA journal_mode=PERSIST", "PRAGMA journal_mode=TRUNCATE", "PRAGMA journal_mode=DELETE"};
static const char *const of_alone[] = {"PRAGMA journal_mode=WAL", "PRAGMA journal_mode=WAL", "PRAGMA journal_mode=WAL", "PRAGMA journal_mode=WAL",
    "PRAGMA journal_mode=DELETE", "PRAGMA journal_mode=PERSIST", "PRAGMA wal_checkpoint", "PRAGMA wal_checkpoint(FULL)",
    "PRAGMA wal_checkpoint(RESTART)", "PRAGMA wal_checkpoint(TRUNCATE)", "PRAGMA wal_autocheckpoint=1", "PRAGMA wal_autocheckpoint=20",
    "PRAGMA wal_autocheckpoint=0", "PRAGMA journal_size_limit=0", "PRAGMA synchronous=NORMAL", "PRAGMA synchronous=OFF",
    "PRAGMA synchronous=OFF", "PRAGMA synchronous=OFF"};

static const char *draw_pragma(bool is_alone) {
    if (is_alone) return of_alone[draw(sizeof of_alone / sizeof *of_alone)];
    return of_shared[draw(sizeof of_shared / sizeof *of_shared)];
}

/* One statement. Some are refused, as a COMMIT without a BEGIN: then both databases refuse it. */
static void draw_statement(char *sql, size_t room, bool is_alone) {
    static const char *const fixed[] = {"BEGIN", "BEGIN", "COMMIT", "COMMIT", "ROLLBACK", "SAVEPOINT s", "ROLLBACK TO s", "RELEASE s", "VACUUM",
        "PRAGMA page_size=1024", "PRAGMA page_size=8192", "PRAGMA page_size=512", "PRAGMA page_size=4096", "PRAGMA auto_vacuum=1",
        "PRAGMA auto_vacuum=2", "PRAGMA auto_vacuum=0", "PRAGMA incremental_vacuum(7)", "PRAGMA synchronous=OFF", "PRAGMA synchronous=FULL",
        "CREATE INDEX i ON t(b)", "DROP INDEX i", "REINDEX", "ANALYZE", "DELETE FROM t", "PRAGMA page_count", "PRAGMA mmap_size=0",
        "PRAGMA mmap_size=100000", "PRAGMA mmap_size=10000000", "PRAGMA freelist_count", "PRAGMA integrity_check", "PRAGMA shrink_memory", "PRAGMA secure_delete=1"};
    uint32_t a = draw(4000), n = 1 + draw(300);
    switch (draw(8)) {
        case 0:
            snprintf(sql, room, "INSERT OR REPLACE INTO t SELECT value, value * 7919 %% 1000, hex(zeroblob(value %% 97)) FROM generate(%u, %u)", a, n);
            break;
        case 1: snprintf(sql, room, "UPDATE t SET b = b + 1, c = c || 'xyz' WHERE a BETWEEN %u AND %u", a, a + n); break;
        case 2: snprintf(sql, room, "DELETE FROM t WHERE a BETWEEN %u AND %u", a, a + 2 * n); break;
        case 3: snprintf(sql, room, "SELECT count(*), sum(b), sum(length(c)) FROM t WHERE a > %u", a); break;
        case 4: snprintf(sql, room, "SELECT a, b, substr(c, 1, 5) FROM t WHERE b = %u ORDER BY a", draw(1000)); break;
        case 5: snprintf(sql, room, "INSERT OR REPLACE INTO t VALUES (%u, %u, hex(zeroblob(%u)))", a, n, draw(20000)); break;
        case 6: snprintf(sql, room, "%s", fixed[draw(sizeof fixed / sizeof *fixed)]); break;
        default: snprintf(sql, room, "%s", is_alone || draw(3) == 0 ? draw_pragma(is_alone) : fixed[draw(sizeof fixed / sizeof *fixed)]); break;
    }
}

/* generate(FIRST, COUNT) is not SQLite's own: it is put in place as a recursive query. */
static char *with_generated(const char *sql) {
    const char *at = strstr(sql, "generate(");
    unsigned first, count;
    if (at == NULL || sscanf(at, "generate(%u, %u)", &first, &count) != 2) return sqlite3_mprintf("%s", sql);
    return sqlite3_mprintf("%.*s(WITH RECURSIVE g(value) AS (SELECT %u UNION ALL SELECT value + 1 FROM g LIMIT %u) SELECT value FROM g)",
        (int)(at - sql), sql, first, count);
}

static void same_answer(sqlite3 *one, sqlite3 *other, const char *drawn) {
    char *sql = with_generated(drawn), *wanted = answer(one, sql);
    MUST(answers(other, sql, wanted));
    sqlite3_free(wanted);
    sqlite3_free(sql);
}

static off_t size_of(const char *name) {
    struct stat about;
    MUST(stat(path_of(name), &about) == 0);
    return about.st_size;
}

/* The bytes of a file as another process finds them, where there is one. (Closing a file drops the locks of the process on it, which
 * here are in nobody's way.) */
static void copy_of(const char *from, const char *to, const char *suffix) {
    static uint8_t bytes[1 << 16];
    char name[64];
    ssize_t got = 0;
    snprintf(name, sizeof name, "%s%s", to, suffix);
    unlink(path_of(name));
    int target = -1, source;
    char source_name[64];
    snprintf(source_name, sizeof source_name, "%s%s", from, suffix);
    if ((source = open(path_of(source_name), O_RDONLY)) < 0) return;
    MUST((target = open(path_of(name), O_WRONLY | O_CREAT, 0666)) >= 0);
    while ((got = read(source, bytes, sizeof bytes)) > 0) MUST(write(target, bytes, (size_t)got) == got);
    MUST(got == 0 && close(source) == 0 && close(target) == 0);
}

/* What both would leave if they were killed now, read by stock SQLite after it has recovered it, is the same. */
static void same_after_kill(void) {
    static const char *const suffixes[] = {"", "-journal", "-wal"};
    unlink(path_of("stock2-shm"));
    unlink(path_of("pooled2-shm"));
    for (int at = 0; at < 3; at++) {
        copy_of("stock", "stock2", suffixes[at]);
        copy_of("pooled", "pooled2", suffixes[at]);
    }
    sqlite3 *stock = open_by("unix", "stock2", 0), *pooled = open_by("unix", "pooled2", 0);
    MUST(is_whole(pooled));
    same_answer(stock, pooled, "SELECT a, b, length(c) FROM t ORDER BY a");
    sqlite3_close(stock);
    sqlite3_close(pooled);
}

static sqlite3 *open_for_run(const char *vfs, const char *name, bool is_alone) {
    return is_alone ? open_alone(vfs, name) : open_by(vfs, name, 0);
}

static void random_run(uint64_t seed, size_t frames, int statements, bool is_alone) {
    char sql[256];
    random_state = seed;
    unlink(path_of("stock"));
    unlink(path_of("pooled"));
    pool_vfs_register(1, frames);
    sqlite3 *stock = open_for_run("unix", "stock", is_alone), *pooled = open_for_run(POOL_VFS, "pooled", is_alone);
    same_answer(stock, pooled, "CREATE TABLE t(a INTEGER PRIMARY KEY, b, c)");
    if (is_alone) same_answer(stock, pooled, "PRAGMA journal_mode=WAL");
    for (int at = 0; at < statements; at++) {
        draw_statement(sql, sizeof sql, is_alone);
        same_answer(stock, pooled, sql);
        if (draw(is_alone ? 8 : 20) == 0) same_after_kill();
        if (draw(40) > 0) continue;
        sqlite3_close(stock); /* an open transaction is rolled back */
        sqlite3_close(pooled);
        stock = open_for_run("unix", "stock", is_alone);
        pooled = open_for_run(POOL_VFS, "pooled", is_alone);
    }
    sqlite3_exec(stock, "ROLLBACK", NULL, NULL, NULL); /* an error where there is no transaction */
    sqlite3_exec(pooled, "ROLLBACK", NULL, NULL, NULL);
    same_answer(stock, pooled, "PRAGMA journal_mode=DELETE");
    same_answer(stock, pooled, "PRAGMA locking_mode=NORMAL");
    same_answer(stock, pooled, "SELECT count(*) FROM t");
    MUST(is_whole(pooled));
    MUST(pool_vfs_of(pooled)->page_size == pool_vfs_of(pooled)->header_page_size);
    sqlite3_close(pooled);
    MUST(size_of("pooled") == size_of("stock"));
    pooled = open_by("unix", "pooled", 0);
    MUST(is_whole(pooled));
    same_answer(stock, pooled, "SELECT * FROM t ORDER BY a");
    same_answer(stock, pooled, "PRAGMA page_count");
    sqlite3_close(pooled);
    sqlite3_close(stock);
}

/* ---- bytes of a file beside bytes in memory ---- */

enum { MODEL_ROOM = 100000 };

typedef struct model {
    uint8_t bytes[MODEL_ROOM], read[MODEL_ROOM];
    size_t size;
} model;

static void compare_read(pool_file *file, model *m, size_t at, size_t length) {
    size_t there = at >= m->size ? 0 : length < m->size - at ? length : m->size - at;
    memset(m->read, 'x', length);
    MUST(pool_file_read(file, m->read, length, at) == (there < length ? POOL_SHORT : WARM_OK));
    MUST(memcmp(m->read, m->bytes + at, length) == 0); /* the model has zeros behind its end */
}

static void write_both(pool_file *file, model *m, size_t at, size_t length) {
    memset(m->bytes + at, (int)(1 + draw(255)), length);
    MUST(pool_file_write(file, m->bytes + at, length, at) == WARM_OK);
    if (m->size < at + length) m->size = at + length;
}

/* Makes the file shorter, or now and then longer. */
static void truncate_both(pool_file *file, model *m) {
    size_t size = draw(3) == 0 ? draw(MODEL_ROOM - 8192) : draw((uint32_t)m->size + 1);
    if (size < m->size) memset(m->bytes + size, 0, m->size - size);
    m->size = size;
    MUST(pool_file_truncate(file, size) == WARM_OK);
}

/* After a sync the file has the bytes and the size of the model. */
static void sync_both(pool_file *file, model *m) {
    MUST(pool_file_sync(file) == WARM_OK);
    MUST(pread(file->fd, m->read, MODEL_ROOM, 0) == (ssize_t)m->size);
    MUST(memcmp(m->read, m->bytes, m->size) == 0);
}

/* Another process writes, and counts that in the header. */
static void foreign_write(pool_file *file, model *m) {
    size_t at = 512 + draw(MODEL_ROOM - 8192), length = 1 + draw(3000);
    sync_both(file, m);
    memset(m->bytes + at, (int)(1 + draw(255)), length);
    m->bytes[24]++; /* the counter is another than before, as SQLite's is */
    if (m->size < at + length) m->size = at + length;
    MUST(pwrite(file->fd, m->bytes, m->size, 0) == (ssize_t)m->size);
    MUST(pool_file_enter(file) == WARM_OK);
}

static void random_bytes(uint64_t seed, size_t frames) {
    static model m;
    static pool_file file;
    int fd = open(path_of("bytes"), O_RDWR | O_CREAT | O_TRUNC, 0666);
    m = (model){.size = 0};
    random_state = seed;
    MUST(fd >= 0 && pool_file_open(&file, fd, 1, frames) == WARM_OK);
    for (int at = 0; at < 1000; at++) {
        uint32_t kind = draw(10), page = 512u << draw(4), length = draw(3) == 0 ? 1 + draw(5000) : page;
        size_t offset = draw((MODEL_ROOM - 8192) / page) * page;
        /* Bytes 16 to 39 mean something to the pool: nothing is written there. */
        if (kind < 4 && offset >= 512) write_both(&file, &m, offset, length);
        else if (kind < 8) compare_read(&file, &m, draw(2) == 0 ? offset : draw(MODEL_ROOM - 8192), length);
        else if (kind == 8 && draw(4) == 0) truncate_both(&file, &m);
        else if (kind == 9 && draw(4) == 0) foreign_write(&file, &m);
        else if (kind == 9) sync_both(&file, &m);
    }
    sync_both(&file, &m);
    pool_file_close(&file);
    close(fd);
}

static void absorb_batch(warm *handle, batch *waiting) {
    warm_reference references[BATCH_ROOM];
    MUST(warm_absorb(handle, references, batch_take(waiting, 1, references)) == WARM_OK);
}

/* A history is the same whether it gets each reference, or of each batch two a page: equal digests. */
static void batches(uint64_t seed) {
    warm each = {0}, batched = {0};
    const warm_options alone = {.size = sizeof alone, .replica = 1, .page_size = 512};
    batch waiting = {0};
    static uint8_t one[4096], other[4096];
    size_t length;
    random_state = seed;
    MUST(warm_open(&each, &alone) == WARM_OK && warm_open(&batched, &alone) == WARM_OK);
    for (uint64_t time = 1; time < 3000; time++) {
        warm_reference reference = {.time = time, .no = draw(3) == 0 ? draw(1000) : draw(20), .replica = 1};
        MUST(warm_absorb(&each, &reference, 1) == WARM_OK);
        if (draw(100) == 0) absorb_batch(&batched, &waiting);
        if (batch_add(&waiting, reference.no, time)) continue;
        absorb_batch(&batched, &waiting); /* it is full */
        MUST(batch_add(&waiting, reference.no, time));
    }
    absorb_batch(&batched, &waiting);
    MUST(warm_offer(&each, one, sizeof one, &length) == WARM_OK && warm_offer(&batched, other, sizeof other, &length) == WARM_OK);
    MUST(memcmp(one, other, length) == 0);
    warm_close(&each);
    warm_close(&batched);
}

/* The change counter reads as it was last written, by this process or by another one. */
static void change_counter(void) {
    static pool_file file;
    uint8_t page[4096] = {[16] = 16}, read[POOL_COUNTER];
    int fd = open(path_of("counter"), O_RDWR | O_CREAT | O_TRUNC, 0666);
    MUST(fd >= 0 && pool_file_open(&file, fd, 1, 2) == WARM_OK);
    MUST(pool_file_read(&file, read, POOL_COUNTER, 24) == POOL_SHORT); /* there is none in an empty file */
    for (uint8_t at = 1; at < 5; at++) {
        memset(page + 24, at, POOL_COUNTER);
        MUST(pool_file_enter(&file) == WARM_OK);
        if (at % 2 == 0) MUST(pwrite(fd, page, sizeof page, 0) == sizeof page && pool_file_enter(&file) == WARM_OK);
        else MUST(pool_file_write(&file, page, sizeof page, 0) == WARM_OK);
        MUST(pool_file_read(&file, read, POOL_COUNTER, 24) == WARM_OK && memcmp(read, page + 24, POOL_COUNTER) == 0);
        MUST(pool_file_leave(&file) == WARM_OK);
        MUST(pool_file_read(&file, read, POOL_COUNTER, 24) == WARM_OK && memcmp(read, page + 24, POOL_COUNTER) == 0);
    }
    pool_file_close(&file);
    close(fd);
}

/* A page that was cut off, and comes again with the bytes that its frame still has, is written to the file again. Pages before it that nobody
 * takes are zeros, as are those of a file that is made longer, whatever their frames had. */
static void taken_again(void) {
    enum { PAGE = 4096, PAGES = 5 };
    static pool_file file;
    static uint8_t pages[PAGES][PAGE], read[PAGES][PAGE], room[PAGE];
    bool differs, is_in, found;
    int fd = open(path_of("taken"), O_RDWR | O_CREAT | O_TRUNC, 0666);
    MUST(fd >= 0 && pool_file_open(&file, fd, 1, 8) == WARM_OK);
    for (uint64_t at = 0; at < PAGES; at++) {
        warm_reference hot = {.time = at + 1, .no = at, .replica = 2};
        memset(pages[at], (int)at + 1, PAGE);
        MUST(pool_file_take(&file, at, pages[at], room, &differs, &is_in) == WARM_OK && differs && !is_in);
        MUST(warm_absorb(pool_file_handle(&file), &hot, 1) == WARM_OK);
    }
    for (int at = 0; at < PAGES; at++) MUST(pool_file_step(&file, &found) == WARM_OK && found);
    MUST(pool_file_truncate(&file, PAGE + 100) == WARM_OK);
    MUST(pool_file_take(&file, 1, pages[1], room, &differs, &is_in) == WARM_OK && differs && is_in);
    MUST(pool_file_take(&file, 4, pages[4], room, &differs, &is_in) == WARM_OK && differs && is_in);
    MUST(pool_file_take(&file, 4, pages[4], room, &differs, &is_in) == WARM_OK && !differs && is_in);
    MUST(pool_file_leave(&file) == WARM_OK && file.size == sizeof pages);
    memset(pages[2], 0, 2 * PAGE);
    MUST(pread(fd, read, sizeof read, 0) == sizeof read && memcmp(read, pages, sizeof read) == 0);
    MUST(pool_file_read(&file, read[0], sizeof read, 0) == WARM_OK && memcmp(read, pages, sizeof read) == 0);
    MUST(pool_file_truncate(&file, 3 * PAGE) == WARM_OK && pool_file_truncate(&file, sizeof pages) == WARM_OK);
    memset(pages[3], 0, 2 * PAGE);
    MUST(pool_file_read(&file, read[0], sizeof read, 0) == WARM_OK && memcmp(read, pages, sizeof read) == 0);
    pool_file_close(&file);
    close(fd);
}

/* A bucket of more pages than a frame carries is handed over in pieces: as the pool is opened again, and as gossip publishes it. */
static void many_pages(void) {
    enum { PAGES = 2 * WARM_MAX_ENTRIES + 500 };
    static pool_file file;
    size_t known;
    uint8_t header[40] = {[24] = 1};
    int fd = open(path_of("many"), O_RDWR | O_CREAT | O_TRUNC, 0666);
    MUST(fd >= 0 && pool_file_open(&file, fd, 1, 4) == WARM_OK);
    for (uint64_t at = 0; at < 2 * PAGES; at++) {
        /* each third page has one stamp, and each other one has two, so that entries differ in length */
        warm_reference reference = {.time = at + 1, .no = WARM_BUCKETS * (at % PAGES), .replica = 1};
        if (at < PAGES || at % 3 != 0) MUST(warm_absorb(pool_file_handle(&file), &reference, 1) == WARM_OK);
    }
    MUST(pwrite(fd, header, sizeof header, 0) == sizeof header);
    MUST(pool_file_enter(&file) == WARM_OK && file.reloads == 1);
    MUST(warm_history_length(pool_file_handle(&file), &known) == WARM_OK && known == PAGES);
    pool_file_close(&file);
    close(fd);
}

/* A request of replica 2 with this horizon. */
static void request_with(uint8_t request[27], uint64_t horizon) {
    memcpy(request, "L2G2\3\0\2\0\0\0\0\0\0\0\0\0\0\0\10\0\0\0\0\0\0\0\6", 27);
    for (int at = 0; at < 8; at++) request[7 + at] = (uint8_t)(horizon >> (56 - 8 * at));
}

/* The times of a frame are found in either format, and a reference is later than each that was heard. A frame that speaks of a later time than
 * is believed is refused, and neither empties the history nor moves its times. */
static void heard_times(void) {
    static const uint8_t two[] = "L2G2\1\0\1\0\0\0\0\0\0\0\0\0\0\0\70\0\0\0\2" /* the body has 4, 31 and 21 bytes */
        "\0\0\0\0\0\0\0\0\0\7\2\0\0\0\0\0\0\1\4\0\1\0\0\0\0\0\0\0\12\0\1"
        "\0\0\0\0\0\0\0\0\0\107\1\0\0\0\0\0\0\0\5\0\1";
    static const uint8_t old[] = "L2G1\1\0\1\0\0\0\25\0\0\0\1\0\0\0\0\0\7\1\0\0\0\0\0\0\2\0\0\1";
    static const uint64_t second = 1000000000;
    static pool_file file;
    uint8_t request[27];
    size_t known;
    int fd = open(path_of("heard"), O_RDWR | O_CREAT | O_TRUNC, 0666);
    MUST(fd >= 0 && pool_file_open(&file, fd, 1, 4) == WARM_OK);
    MUST(warm_receive(pool_file_handle(&file), two, sizeof two - 1) == WARM_OK && message_latest(two, sizeof two - 1) == 260);
    MUST(warm_receive(pool_file_handle(&file), old, sizeof old - 1) == WARM_OK && message_latest(old, sizeof old - 1) == 512);
    request_with(request, 258);
    MUST(message_latest(request, sizeof request) == 258);
    uint64_t now = file.time;
    pool_file_heard(&file, now - second);
    MUST(file.time == now);
    pool_file_heard(&file, now + 30 * second);
    MUST(file.time == now + 30 * second + 1);
    pool_file_heard(&file, UINT64_MAX);
    pool_file_heard(&file, now + 3600 * second);
    MUST(file.time == now + 30 * second + 1);
    MUST(pool_file_enter(&file) == WARM_OK && file.time == now + 30 * second + 1); /* the clock is behind */
    request_with(request, now + 3540 * second);
    MUST(pool_file_receive(&file, request, sizeof request) == WARM_LATE_HORIZON && file.time == now + 30 * second + 1);
    MUST(warm_history_length(pool_file_handle(&file), &known) == WARM_OK && known == 2);
    /* The horizon of a peer whose clock is ahead drops nothing of what is referenced from then on. */
    request_with(request, now + 40 * second);
    MUST(pool_file_receive(&file, request, sizeof request) == WARM_OK && file.time == now + 40 * second + 1);
    MUST(pool_file_write(&file, request, sizeof request, 4096) == WARM_OK);
    pool_file_absorb(&file);
    MUST(warm_history_length(pool_file_handle(&file), &known) == WARM_OK && known == 2);
    pool_file_close(&file);
    close(fd);
}

/* ---- other connections ---- */

static void two_connections(void) {
    pool_vfs_register(1, 20);
    sqlite3 *one = open_by(POOL_VFS, "shared", 0), *two = open_by(POOL_VFS, "shared", 0);
    MUST(done(one, "CREATE TABLE t(a INTEGER PRIMARY KEY, b)"));
    for (int at = 0; at < 30; at++) {
        sqlite3 *writer = at % 2 == 0 ? one : two, *reader = at % 2 == 0 ? two : one;
        char sql[64], wanted[32];
        snprintf(sql, sizeof sql, "INSERT INTO t VALUES (%d, hex(zeroblob(3000)))", at);
        snprintf(wanted, sizeof wanted, "%d|%d|\n", at + 1, (at + 1) * 6000);
        MUST(done(writer, sql));
        MUST(answers(reader, "SELECT count(*), sum(length(b)) FROM t", wanted));
    }
    MUST(pool_vfs_of(one)->reloads > 0);
    /* A lock that one holds stays although another connection of the process closes. */
    MUST(done(one, "BEGIN IMMEDIATE"));
    sqlite3_close(two);
    char command[600];
    snprintf(command, sizeof command, "sqlite3 %s 'DELETE FROM t' 2> %s", path_of("shared"), path_of("refused"));
    /* Another program, and no fork, which would have SQLite's own notes of this process's locks. */
    MUST(system(command) != 0);
    MUST(done(one, "COMMIT"));
    MUST(system(command) == 0);
    MUST(answers(one, "SELECT count(*) FROM t", "0|\n"));
    sqlite3_close(one);
}

/* Runs SQL on a file by stock SQLite in another process. */
static void elsewhere(const char *name, const char *sql) {
    int status;
    if (fork() == 0) {
        sqlite3 *db = open_by("unix", name, 0);
        int result = sqlite3_exec(db, sql, NULL, NULL, NULL);
        if (result != SQLITE_OK) fprintf(stderr, "vfs_test: elsewhere: %s\n", sqlite3_errmsg(db));
        _exit(result != SQLITE_OK || sqlite3_close(db) != SQLITE_OK);
    }
    wait(&status);
    MUST(status == 0);
}

static void other_process(void) {
    size_t before, after;
    sqlite3 *db = open_by(POOL_VFS, "foreign", 0);
    MUST(done(db, "CREATE TABLE t(a INTEGER PRIMARY KEY, b); INSERT INTO t VALUES (1, 'x'), (2, 'y')"));
    MUST(done(db, "INSERT INTO t VALUES (3, hex(zeroblob(50000))); DELETE FROM t WHERE a = 3")); /* references to many pages */
    MUST(answers(db, "SELECT * FROM t", "1|x|\n2|y|\n"));
    pool_file_absorb(pool_vfs_of(db));
    MUST(warm_history_length(pool_file_handle(pool_vfs_of(db)), &before) == WARM_OK && before > 20);
    elsewhere("foreign", "UPDATE t SET b = 'z' WHERE a = 2; INSERT INTO t SELECT a + 10, hex(zeroblob(2000)) FROM t");
    MUST(answers(db, "SELECT a, substr(b, 1, 2) FROM t", "1|x|\n2|z|\n11|00|\n12|00|\n"));
    MUST(warm_history_length(pool_file_handle(pool_vfs_of(db)), &after) == WARM_OK && after >= before); /* only the frames are dropped */
    uint64_t reloads = pool_vfs_of(db)->reloads;
    MUST(answers(db, "SELECT count(*) FROM t", "4|\n"));
    MUST(pool_vfs_of(db)->reloads == reloads); /* nor are they dropped twice */
    elsewhere("foreign", "PRAGMA page_size=1024; VACUUM");
    MUST(answers(db, "SELECT count(*) FROM t", "4|\n"));
    MUST(pool_vfs_of(db)->page_size == 1024);
    elsewhere("foreign", "DELETE FROM t WHERE a > 2; VACUUM");
    MUST(answers(db, "SELECT * FROM t", "1|x|\n2|z|\n"));
    MUST(is_whole(db));
    sqlite3_close(db);
}

/* ---- what fails ---- */

static void full_disk(void) {
    struct rlimit old, low;
    pool_vfs_register(1, 4);
    sqlite3 *db = open_by(POOL_VFS, "full", 0);
    signal(SIGXFSZ, SIG_IGN);
    MUST(done(db, "CREATE TABLE t(a INTEGER PRIMARY KEY, b); INSERT INTO t VALUES (1, hex(zeroblob(20000)))"));
    MUST(getrlimit(RLIMIT_FSIZE, &old) == 0);
    low = (struct rlimit){100000, old.rlim_max};
    MUST(setrlimit(RLIMIT_FSIZE, &low) == 0);
    int result = sqlite3_exec(db, "INSERT INTO t VALUES (2, hex(zeroblob(100000)))", NULL, NULL, NULL);
    MUST(setrlimit(RLIMIT_FSIZE, &old) == 0);
    MUST(result == SQLITE_FULL);
    MUST(answers(db, "SELECT a, length(b) FROM t", "1|40000|\n"));
    MUST(is_whole(db));
    MUST(done(db, "INSERT INTO t VALUES (2, hex(zeroblob(100000)))")); /* the same connection goes on */
    MUST(answers(db, "SELECT a, length(b) FROM t", "1|40000|\n2|200000|\n"));
    sqlite3_close(db);
    db = open_by("unix", "full", 0);
    MUST(is_whole(db));
    sqlite3_close(db);
}

/* The same on a disk that is full in earnest, until another file on it goes: what was committed before is there, and it goes on. */
static void small_disk(void) {
    static const char insert[] = "INSERT INTO t(b) VALUES (hex(zeroblob(10000)))";
    static const uint8_t bytes[1 << 16] = {1};
    char wanted[32];
    int rows = 0, result, other = open(path_of("other"), O_RDWR | O_CREAT | O_TRUNC, 0666);
    MUST(other >= 0 && write(other, bytes, sizeof bytes) == sizeof bytes);
    pool_vfs_register(1, 20);
    sqlite3 *db = open_by(POOL_VFS, "full", 0);
    MUST(done(db, "CREATE TABLE t(a INTEGER PRIMARY KEY, b)"));
    while ((result = sqlite3_exec(db, insert, NULL, NULL, NULL)) == SQLITE_OK) MUST(++rows < 1000);
    MUST(result == SQLITE_FULL && rows > 2);
    snprintf(wanted, sizeof wanted, "%d|%d|\n", rows, 20000 * rows);
    MUST(answers(db, "SELECT count(*), sum(length(b)) FROM t", wanted));
    MUST(is_whole(db));
    MUST(close(other) == 0 && unlink(path_of("other")) == 0);
    MUST(done(db, insert));
    sqlite3_close(db);
    db = open_by("unix", "full", 0);
    snprintf(wanted, sizeof wanted, "%d|%d|\n", rows + 1, 20000 * (rows + 1));
    MUST(answers(db, "SELECT count(*), sum(length(b)) FROM t", wanted));
    MUST(is_whole(db));
    sqlite3_close(db);
    printf("vfs_test: %d checks on a disk that was full after %d rows\n", checks, rows);
}

/* Writes fail beneath the pool. Where a sync finds it, all that follows is refused until the database is opened again. Where a write past
 * the pool finds it, SQLite rolls the transaction back, and goes on once the file can be written. */
static void failing_device(size_t frames, bool is_at_sync) {
    pool_vfs_register(1, frames);
    unlink(path_of("failing"));
    sqlite3 *db = open_by(POOL_VFS, "failing", 0);
    MUST(done(db, "CREATE TABLE t(a INTEGER PRIMARY KEY, b); INSERT INTO t VALUES (1, hex(zeroblob(20000)))"));
    int fd = pool_vfs_of(db)->fd, kept = dup(fd), reader = open(path_of("failing"), O_RDONLY);
    MUST(dup2(reader, fd) == fd);
    int result = sqlite3_exec(db, "UPDATE t SET b = 'new'", NULL, NULL, NULL);
    MUST((result & 0xff) == SQLITE_IOERR);
    MUST(dup2(kept, fd) == fd);
    MUST((sqlite3_exec(db, "SELECT b FROM t", NULL, NULL, NULL) & 0xff) == (is_at_sync ? SQLITE_IOERR : SQLITE_OK));
    if (!is_at_sync) MUST(answers(db, "SELECT a, length(b) FROM t", "1|40000|\n"));
    sqlite3_close(db);
    close(kept);
    close(reader);
    db = open_by(POOL_VFS, "failing", 0);
    MUST(answers(db, "SELECT a, length(b) FROM t", "1|40000|\n"));
    MUST(is_whole(db));
    MUST(done(db, "UPDATE t SET b = 'new'"));
    sqlite3_close(db);
}

/* A process that ends without a word after a commit, with synchronous=OFF, loses nothing, as with a file of the system. */
static void killed_without_sync(void) {
    pool_vfs_register(1, 50);
    for (int at = 1; at <= 5; at++) {
        char wanted[32];
        int status;
        if (fork() == 0) {
            sqlite3 *db = open_by(POOL_VFS, "unsynced", 0);
            if (at > 2) MUST(answers(db, "PRAGMA locking_mode=EXCLUSIVE", "exclusive|\n")); /* no lock is lowered then */
            MUST(done(db, "PRAGMA synchronous=OFF; CREATE TABLE IF NOT EXISTS t(a INTEGER PRIMARY KEY, b);"
                          " INSERT INTO t(b) VALUES (hex(zeroblob(9000)))"));
            kill(getpid(), SIGKILL);
        }
        wait(&status);
        MUST(WIFSIGNALED(status));
        sqlite3 *db = open_by("unix", "unsynced", 0);
        snprintf(wanted, sizeof wanted, "%d|\n", at);
        MUST(answers(db, "SELECT count(*) FROM t", wanted));
        MUST(is_whole(db));
        sqlite3_close(db);
    }
}

/* Runs SQL in a process of its own, which then ends by kill -9. */
static void run_and_die(const char *vfs, const char *const *sql, int count) {
    int status;
    if (fork() == 0) {
        sqlite3 *db = open_alone(vfs, "wal");
        for (int at = 0; at < count; at++) MUST(sqlite3_exec(db, sql[at], NULL, NULL, NULL) == SQLITE_OK);
        kill(getpid(), SIGKILL);
    }
    wait(&status);
    MUST(WIFSIGNALED(status));
}

/* What stock SQLite finds in a WAL database after such an end. The caller frees it. */
static char *after_death(const char *vfs, const char *synchronous, const char *last) {
    const char *const sql[] = {"PRAGMA journal_mode=WAL", synchronous, "CREATE TABLE t(a INTEGER PRIMARY KEY, b)",
        "WITH RECURSIVE n(i) AS (SELECT 1 UNION ALL SELECT i + 1 FROM n LIMIT 100) INSERT INTO t SELECT i, hex(zeroblob(1000)) FROM n", last,
        "INSERT INTO t VALUES (1000, 'last')"};
    unlink(path_of("wal"));
    unlink(path_of("wal-wal"));
    run_and_die(vfs, sql, 6);
    sqlite3 *db = open_by("unix", "wal", 0);
    MUST(is_whole(db));
    char *found = answer(db, "SELECT count(*), sum(a), sum(length(b)) FROM t");
    sqlite3_close(db);
    return found;
}

/* Whatever writes pages of a WAL to the database, and whatever SQLite syncs, nothing that was committed is lost with the process: what is
 * there is what stock SQLite leaves. */
static void killed_in_wal(void) {
    static const char *const synchronous[] = {"PRAGMA synchronous=OFF", "PRAGMA synchronous=NORMAL", "PRAGMA synchronous=FULL"};
    static const char *const last[] = {"PRAGMA wal_checkpoint", "PRAGMA wal_checkpoint(FULL)", "PRAGMA wal_checkpoint(RESTART)",
        "PRAGMA wal_checkpoint(TRUNCATE)", "PRAGMA journal_mode=DELETE", "PRAGMA wal_autocheckpoint=1; UPDATE t SET b = b || 'x'",
        "DELETE FROM t WHERE a > 50; VACUUM; PRAGMA wal_checkpoint(TRUNCATE)"};
    for (size_t which = 0; which < 3 * sizeof last / sizeof *last; which++) {
        char *wanted = after_death("unix", synchronous[which % 3], last[which / 3]);
        MUST(strncmp(wanted, which / 3 == 6 ? "51|" : "101|", 3) == 0);
        for (size_t frames = 2; frames <= 200; frames += 198) {
            pool_vfs_register(1, frames);
            char *found = after_death(POOL_VFS, synchronous[which % 3], last[which / 3]);
            if (strcmp(found, wanted) != 0) fprintf(stderr, "vfs_test: %s, %s, %zu frames: %s", synchronous[which % 3], last[which / 3], frames, found);
            MUST(strcmp(found, wanted) == 0);
            sqlite3_free(found);
        }
        sqlite3_free(wanted);
    }
}

static bool refuses_syncs;

int __real_fsync(int fd);
int __wrap_fsync(int fd);

int __wrap_fsync(int fd) {
    if (!refuses_syncs) return __real_fsync(fd);
    errno = EIO;
    return -1;
}

/* A checkpoint whose pages cannot be synced leaves the WAL, also with synchronous=OFF, where SQLite itself syncs nothing. */
static void failing_checkpoint(const char *synchronous) {
    pool_vfs_register(1, 50);
    unlink(path_of("wal"));
    sqlite3 *db = open_alone(POOL_VFS, "wal");
    MUST(answers(db, "PRAGMA journal_mode=WAL", "wal|\n") && done(db, synchronous));
    MUST(done(db, "CREATE TABLE t(a INTEGER PRIMARY KEY, b); INSERT INTO t VALUES (1, hex(zeroblob(20000))), (2, 'b')"));
    refuses_syncs = true;
    MUST((sqlite3_exec(db, "PRAGMA wal_checkpoint(TRUNCATE)", NULL, NULL, NULL) & 0xff) == SQLITE_IOERR);
    refuses_syncs = false;
    MUST((sqlite3_exec(db, "PRAGMA wal_checkpoint(TRUNCATE)", NULL, NULL, NULL) & 0xff) == SQLITE_IOERR); /* once is for good */
    MUST(size_of("wal-wal") > 40000);
    sqlite3_close(db);
    MUST(size_of("wal-wal") > 40000);
    db = open_alone(POOL_VFS, "wal");
    MUST(answers(db, "SELECT a, length(b) FROM t", "1|40000|\n2|1|\n"));
    MUST(is_whole(db) && answers(db, "PRAGMA journal_mode", "wal|\n"));
    sqlite3_close(db);
    MUST(access(path_of("wal-wal"), F_OK) != 0);
}

/* ---- refused memory ---- */

/* Of the allocations of this program and of the pool, not of SQLite's library, the one at which the countdown ends is refused. */
static long countdown;

static bool is_refused(void) { return countdown > 0 && --countdown == 0; }

void *__real_malloc(size_t size);
void *__real_calloc(size_t count, size_t size);
void *__real_realloc(void *old, size_t size);
void *__wrap_malloc(size_t size);
void *__wrap_calloc(size_t count, size_t size);
void *__wrap_realloc(void *old, size_t size);

void *__wrap_malloc(size_t size) { return is_refused() ? NULL : __real_malloc(size); }
void *__wrap_calloc(size_t count, size_t size) { return is_refused() ? NULL : __real_calloc(count, size); }
void *__wrap_realloc(void *old, size_t size) { return is_refused() ? NULL : __real_realloc(old, size); }

/* Whether SQL was done. Where it was not, memory is the reason. */
static bool done_or_refused(sqlite3 *db, const char *sql) {
    int result = sqlite3_exec(db, sql, NULL, NULL, NULL);
    if (result == SQLITE_OK) return true;
    int extended = sqlite3_extended_errcode(db);
    MUST(result == SQLITE_NOMEM || result == SQLITE_CANTOPEN || extended == SQLITE_IOERR_NOMEM);
    return false;
}

/* One connection commits, reads, sees that another has committed, and commits again. Gives how many rows must be there. */
static int rows_of_a_run(long refused) {
    sqlite3 *db;
    int rows = 0;
    countdown = refused;
    if (pool_vfs_open(path_of("refused"), SQLITE_OPEN_READWRITE, false, &db) == SQLITE_OK) {
        rows += done_or_refused(db, "INSERT INTO t(b) VALUES (hex(zeroblob(3000)))");
        done_or_refused(db, "SELECT sum(length(b)) FROM t");
        long left = countdown;
        countdown = 0;
        sqlite3 *other = open_by(POOL_VFS, "refused", 0);
        MUST(done(other, "INSERT INTO t(b) VALUES ('other')"));
        sqlite3_close(other);
        rows++;
        countdown = left;
        done_or_refused(db, "SELECT count(*) FROM t");
        rows += done_or_refused(db, "INSERT INTO t(b) VALUES (hex(zeroblob(5000)))");
    }
    sqlite3_close(db);
    return rows;
}

/* Each of the first allocations is refused in a run of its own, and of the later ones those that are each by a part further. */
static long next_refused(long refused, long part) { return refused + 1 + refused / part; }

static void refused_memory(long part) {
    int rows = 0;
    long refused, tried = 0;
    bool is_over = false;
    pool_vfs_register(1, 3);
    unlink(path_of("refused"));
    sqlite3 *db = open_by(POOL_VFS, "refused", 0);
    MUST(done(db, "CREATE TABLE t(a INTEGER PRIMARY KEY, b)"));
    sqlite3_close(db);
    for (refused = 1; !is_over; refused = next_refused(refused, part), tried++) {
        char wanted[32];
        rows += rows_of_a_run(refused);
        is_over = countdown > 0; /* there were fewer allocations */
        countdown = 0;
        db = open_by(POOL_VFS, "refused", 0);
        snprintf(wanted, sizeof wanted, "%d|\n", rows);
        MUST(answers(db, "SELECT count(*) FROM t", wanted));
        MUST(is_whole(db));
        MUST(done(db, "DELETE FROM t WHERE a % 3 > 0 OR a < (SELECT max(a) FROM t) - 9")); /* a few stay */
        sqlite3_close(db);
        db = open_by("unix", "refused", 0);
        MUST(is_whole(db));
        char *left = answer(db, "SELECT count(*) FROM t");
        rows = atoi(left);
        sqlite3_free(left);
        sqlite3_close(db);
    }
    printf("vfs_test: one allocation was refused in each of %ld runs\n", tried - 1);
}

static void modes(void) {
    sqlite3 *db = open_by(POOL_VFS, "modes", 0);
    MUST(answers(db, "PRAGMA journal_mode=WAL", "delete|\n"));
    MUST(done(db, "CREATE TABLE t(a); INSERT INTO t VALUES (5)"));
    MUST(answers(db, "PRAGMA journal_mode=MEMORY", "memory|\n"));
    MUST(done(db, "INSERT INTO t VALUES (6)"));
    MUST(pool_vfs_of(db)->reloads == 0); /* its own commits do not drop its frames */
    MUST(done(db, "ATTACH ':memory:' AS m; CREATE TABLE m.u(a); INSERT INTO m.u SELECT a FROM t; CREATE TEMP TABLE v AS SELECT a FROM m.u"));
    MUST(answers(db, "SELECT sum(a) FROM v", "11|\n"));
    MUST(done(db, "DETACH m"));
    sqlite3_close(db);
    db = open_by(POOL_VFS, "modes", SQLITE_OPEN_READONLY);
    MUST(answers(db, "SELECT sum(a) FROM t", "11|\n"));
    MUST((sqlite3_exec(db, "DELETE FROM t", NULL, NULL, NULL) & 0xff) == SQLITE_READONLY);
    sqlite3 *writer = open_by(POOL_VFS, "modes", 0); /* it shares the descriptor */
    MUST(done(writer, "INSERT INTO t VALUES (7)"));
    sqlite3_close(writer);
    MUST(answers(db, "SELECT sum(a) FROM t", "18|\n"));
    sqlite3_close(db);
}

/* A database in WAL mode is opened by a connection that is alone, and refused to any other. */
static void wal_mode(void) {
    sqlite3 *db = open_alone(POOL_VFS, "modes");
    MUST(answers(db, "PRAGMA journal_mode=WAL", "wal|\n"));
    sqlite3_close(db);
    MUST(pool_vfs_open(path_of("modes"), SQLITE_OPEN_READWRITE, false, &db) == SQLITE_CANTOPEN);
    sqlite3_close(db);
    db = open_alone(POOL_VFS, "modes");
    MUST(answers(db, "SELECT sum(a) FROM t", "18|\n"));
    MUST(answers(db, "PRAGMA journal_mode=DELETE", "delete|\n"));
    sqlite3_close(db);
    db = open_by(POOL_VFS, "modes", 0);
    MUST(answers(db, "SELECT sum(a) FROM t", "18|\n"));
    sqlite3_close(db);
}

int main(int count, char **words) {
    if (count < 2 || count > 4) {
        fprintf(stderr, "usage: vfs_test FOLDER [RUNS] [SEED], or vfs_test FOLDER full, where FOLDER is on an empty disk of 512 KB\n");
        return 2;
    }
    folder = words[1];
    if (count == 3 && strcmp(words[2], "full") == 0) {
        small_disk();
        return 0;
    }
    int runs = count > 2 ? atoi(words[2]) : 12;
    uint64_t seed = count > 3 ? strtoull(words[3], NULL, 10) : 1;
    static const size_t frames[] = {1, 2, 5, 20, 100, 1000};
    pool_vfs_register(1, 20);
    two_connections();
    other_process();
    full_disk();
    failing_device(100, true);
    failing_device(1, false);
    killed_without_sync();
    killed_in_wal();
    failing_checkpoint("PRAGMA synchronous=OFF");
    failing_checkpoint("PRAGMA synchronous=FULL");
    refused_memory(runs > 12 ? 1000 : 50);
    modes();
    wal_mode();
    many_pages();
    change_counter();
    taken_again();
    heard_times();
    for (int at = 0; at < runs; at++) batches(seed + (uint64_t)at);
    for (int at = 0; at < runs; at++) random_bytes(seed + (uint64_t)at, frames[at % 6]);
    for (int at = 0; at < runs; at++) random_run(seed + (uint64_t)at, frames[at % 6], 400, at % 2 == 1);
    for (int at = 0; at < runs; at++) random_run(seed + (uint64_t)at, frames[at % 6], 400, at % 2 == 0);
    printf("vfs_test: %d checks\n", checks);
    return 0;
}

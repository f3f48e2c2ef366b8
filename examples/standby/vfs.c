/*
 * An SQLite VFS over a buffer pool. Pages of a main database are read where they lie in the pool (xFetch), or copied; every other file
 * (journals, temporary files) and all locks are those of the default VFS. Why committed transactions outlive kill -9 is said in pool_file.c.
 *
 * Why a page may be lent. SQLite asks for one by xFetch where mmap_size is not 0: for each page but the first, in a transaction that reads,
 * and in one that writes for a cursor that does not (getPageMMap in pager.c of SQLite 3.40). It only reads through the pointer, and takes a
 * page that it has changed from its own cache. Over a map of the file what is written by xWrite shows in the pages that are out, and
 * SQLite counts on no less: before it changes, moves or rolls back pages that a cursor is on, the cursor lets them go (saveAllCursors,
 * sqlite3BtreeTripAllCursors). The same holds here, since xWrite writes into the frame. No page is out without a lock, and page 1,
 * which is never lent, is held until all others are back (pagerUnlockIfUnused). So frames are dropped for another connection's commit only
 * when none is lent.
 *
 * Limits:
 *  - The methods have version 3, but none of shared memory. So journal_mode=WAL needs locking_mode=EXCLUSIVE, and stays as it was without.
 *    To open a database that is in WAL mode EXCLUSIVE is set before anything is read, as pool_vfs_open does. Pages of a WAL are not lent.
 *  - Nothing is mapped: PRAGMA mmap_size is 0 or not 0, and another number means nothing.
 *  - A pool has one thread, so a connection is used by the thread that opened it.
 *  - Each connection has a pool of its own. Two connections to one file are right, and share no frame: each drops its frames when the
 *    change counter says that the other has committed.
 *  - Files of this VFS and of the default one are not mixed in one process: the system drops a process's locks on a file when any of its
 *    descriptors of that file is closed, and neither VFS knows the other's.
 *  - What the disk cannot write at a sync makes the file fail until it is closed and opened again, which rolls the journal back.
 */
#define _GNU_SOURCE
#include "vfs.h"

#include <errno.h>
#include <fcntl.h>
#include <stdlib.h>
#include <string.h>
#include <sys/stat.h>
#include <unistd.h>

/* A main database as SQLite sees it. The default VFS's file of the same path follows in memory: it has the locks. */
typedef struct db_file {
    sqlite3_file base;
    pool_file *pool;
    int lock;
    sqlite3_int64 mmap_size; /* as SQLite set it: it asks for pages by xFetch where it is not 0 */
} db_file;

static sqlite3_vfs *inner_vfs;
static uint16_t own_replica = 1;
static size_t own_frames = 64;

static sqlite3_file *inner(sqlite3_file *file) { return (sqlite3_file *)((db_file *)file + 1); }

static pool_file *pool_of(sqlite3_file *file) { return ((db_file *)file)->pool; }

/* ---- descriptors ---- */

/*
 * The pool's own descriptor of a file. POSIX locks belong to a process and a file, and closing any descriptor of the file drops them, also
 * those that another connection of the process holds through the default VFS. So a file is opened once in a process however many
 * connections it has, and its descriptor is closed when the last of them is, after that one's locks.
 */
typedef struct shared_fd {
    struct shared_fd *next;
    dev_t dev;
    ino_t ino;
    int fd, users;
} shared_fd;

static shared_fd *shared_fds;

static sqlite3_mutex *list_mutex(void) { return sqlite3_mutex_alloc(SQLITE_MUTEX_STATIC_VFS3); }

static shared_fd *find_shared(const struct stat *about) {
    shared_fd *at = shared_fds;
    while (at != NULL && (at->dev != about->st_dev || at->ino != about->st_ino)) at = at->next;
    return at;
}

static int open_fd(const char *path, int flags) {
    int fd;
    do fd = open(path, flags | O_CLOEXEC);
    while (fd < 0 && errno == EINTR);
    return fd;
}

/* For writing, where the system allows it: a connection that only reads may be the first of several. */
static int add_shared(const char *path) {
    struct stat about;
    int fd = open_fd(path, O_RDWR);
    if (fd < 0) fd = open_fd(path, O_RDONLY);
    if (fd < 0) return -1;
    shared_fd *added = malloc(sizeof *added);
    if (added == NULL || fstat(fd, &about) != 0) {
        free(added);
        close(fd);
        return -1;
    }
    *added = (shared_fd){shared_fds, about.st_dev, about.st_ino, fd, 1};
    shared_fds = added;
    return fd;
}

/* A file that is open already is found without opening it: closing that again would drop the locks. */
static int take_fd(const char *path) {
    struct stat about;
    sqlite3_mutex_enter(list_mutex());
    shared_fd *found = stat(path, &about) == 0 ? find_shared(&about) : NULL;
    int fd = found != NULL ? found->fd : add_shared(path);
    if (found != NULL) found->users++;
    sqlite3_mutex_leave(list_mutex());
    return fd;
}

static void give_fd_back(int fd) {
    sqlite3_mutex_enter(list_mutex());
    shared_fd **link = &shared_fds;
    while ((*link)->fd != fd) link = &(*link)->next;
    shared_fd *found = *link;
    if (--found->users == 0) {
        *link = found->next;
        close(fd);
        free(found);
    }
    sqlite3_mutex_leave(list_mutex());
}

/* ---- pools ---- */

static int close_pool(pool_file *pool) {
    int fd = pool->fd;
    pool_file_close(pool);
    free(pool);
    give_fd_back(fd);
    return SQLITE_OK;
}

static int open_pool(const char *path, pool_file **opened) {
    int fd = take_fd(path);
    if (fd < 0) return SQLITE_CANTOPEN;
    pool_file *pool = malloc(sizeof *pool);
    int status = pool == NULL ? WARM_MEMORY : pool_file_open(pool, fd, own_replica, own_frames);
    if (status == WARM_OK) {
        *opened = pool;
        return SQLITE_OK;
    }
    free(pool);
    give_fd_back(fd);
    return status == WARM_MEMORY ? SQLITE_NOMEM : SQLITE_CANTOPEN;
}

/* One pool may wait for its file. Any thread that opens a file looks for it, so both are read and written under the mutex. */
static pool_file *prepared;
static char *prepared_path;

static char *full_path(const char *path) {
    char *full = malloc((size_t)inner_vfs->mxPathname + 1);
    if (full == NULL) return NULL;
    int result = inner_vfs->xFullPathname(inner_vfs, path, inner_vfs->mxPathname + 1, full);
    if (result == SQLITE_OK || result == SQLITE_OK_SYMLINK) return full;
    free(full);
    return NULL;
}

/* False where another pool waits. The look and the change are one: two threads may come at once. */
static bool set_prepared(pool_file *pool, char *path) {
    sqlite3_mutex_enter(list_mutex());
    bool is_only = prepared == NULL;
    if (is_only) {
        prepared = pool;
        prepared_path = path;
    }
    sqlite3_mutex_leave(list_mutex());
    return is_only;
}

int pool_vfs_prepare(const char *now_at, const char *path, pool_file **pool) {
    pool_file *made = NULL;
    char *full = full_path(path);
    if (full == NULL) return SQLITE_CANTOPEN;
    int result = open_pool(now_at, &made);
    if (result == SQLITE_OK && !set_prepared(made, full)) {
        close_pool(made);
        result = SQLITE_MISUSE;
    }
    if (result == SQLITE_OK) *pool = made;
    else free(full);
    return result;
}

/* The pool that was prepared for this path, once. */
static pool_file *take_prepared(const char *path) {
    pool_file *pool = NULL;
    sqlite3_mutex_enter(list_mutex());
    if (prepared != NULL && strcmp(prepared_path, path) == 0) {
        pool = prepared;
        prepared = NULL;
        free(prepared_path);
        prepared_path = NULL;
    }
    sqlite3_mutex_leave(list_mutex());
    return pool;
}

/* ---- the methods of a main database ---- */

/* A result for a status; other is the result where the file could not be read, written or synced. */
static int result_of(int status, int other) {
    switch (status) {
        case WARM_OK: return SQLITE_OK;
        case WARM_MEMORY: return SQLITE_IOERR_NOMEM;
        case POOL_FULL: return SQLITE_FULL;
        case POOL_SHORT: return SQLITE_IOERR_SHORT_READ;
        default: return other;
    }
}

/* The descriptor is closed last: by then no lock is left that this would drop. */
static int db_close(sqlite3_file *file) {
    int synced = pool_file_sync(pool_of(file));
    int closed = inner(file)->pMethods->xClose(inner(file));
    close_pool(pool_of(file));
    return closed != SQLITE_OK ? closed : result_of(synced, SQLITE_IOERR_CLOSE);
}

static int db_read(sqlite3_file *file, void *into, int length, sqlite3_int64 offset) {
    return result_of(pool_file_read(pool_of(file), into, (size_t)length, (uint64_t)offset), SQLITE_IOERR_READ);
}

static int db_write(sqlite3_file *file, const void *bytes, int length, sqlite3_int64 offset) {
    return result_of(pool_file_write(pool_of(file), bytes, (size_t)length, (uint64_t)offset), SQLITE_IOERR_WRITE);
}

static int db_truncate(sqlite3_file *file, sqlite3_int64 size) {
    return result_of(pool_file_truncate(pool_of(file), (uint64_t)size), SQLITE_IOERR_TRUNCATE);
}

static int db_sync(sqlite3_file *file, int flags) {
    (void)flags; /* a full sync is more than each of them asks for */
    return result_of(pool_file_sync(pool_of(file)), SQLITE_IOERR_FSYNC);
}

/* The file on disk may be shorter: pages that were added may still be in frames alone. */
static int db_file_size(sqlite3_file *file, sqlite3_int64 *size) {
    *size = (sqlite3_int64)pool_of(file)->size;
    return SQLITE_OK;
}

/* With the first lock the file stands still: this is where another process's commits are seen. */
static int db_lock(sqlite3_file *file, int level) {
    db_file *own = (db_file *)file;
    int result = inner(file)->pMethods->xLock(inner(file), level);
    if (result != SQLITE_OK) return result;
    if (own->lock == SQLITE_LOCK_NONE) result = result_of(pool_file_enter(own->pool), SQLITE_IOERR_READ);
    if (result != SQLITE_OK) inner(file)->pMethods->xUnlock(inner(file), own->lock);
    else if (own->lock < level) own->lock = level;
    return result;
}

/* Another process may read as soon as the lock is lowered, so nothing is dirty by then. */
static int db_unlock(sqlite3_file *file, int level) {
    db_file *own = (db_file *)file;
    int left = own->lock > SQLITE_LOCK_SHARED ? result_of(pool_file_leave(own->pool), SQLITE_IOERR_UNLOCK) : SQLITE_OK;
    int result = inner(file)->pMethods->xUnlock(inner(file), level);
    if (result == SQLITE_OK && own->lock > level) own->lock = level;
    return result != SQLITE_OK ? result : left;
}

static int db_check_reserved(sqlite3_file *file, int *is_reserved) {
    return inner(file)->pMethods->xCheckReservedLock(inner(file), is_reserved);
}

/* Answers the old size, and takes the new one where it is not negative. Nothing is mapped, so that each size but 0 is enough for all pages. */
static int set_mmap_size(db_file *own, sqlite3_int64 *size) {
    sqlite3_int64 asked = *size;
    *size = own->mmap_size;
    if (asked >= 0) own->mmap_size = asked;
    return SQLITE_OK;
}

static int db_control(sqlite3_file *file, int code, void *argument) {
    switch (code) {
        /* Each comes before xSync, and in place of it with synchronous=OFF: see pool_file.c. SQLite does not look at the answer to the
         * second. A failure is remembered by the file, which then refuses the truncation that ends each checkpoint. */
        case SQLITE_FCNTL_SYNC:
        case SQLITE_FCNTL_CKPT_DONE: return db_sync(file, 0);
        /* The default VFS would change the length of the file itself. */
        case SQLITE_FCNTL_SIZE_HINT:
        case SQLITE_FCNTL_CHUNK_SIZE: return SQLITE_OK;
        case SQLITE_FCNTL_MMAP_SIZE: return set_mmap_size((db_file *)file, argument);
        default: break;
    }
    int result = inner(file)->pMethods->xFileControl(inner(file), code, argument);
    if (code != SQLITE_FCNTL_VFSNAME || result != SQLITE_OK) return result;
    *(char **)argument = sqlite3_mprintf(POOL_VFS "/%z", *(char **)argument);
    return SQLITE_OK;
}

/* Whether each write of SQLite is one of whole pages of the pool. It is not after a change of the page size, until the next lock. */
static bool has_own_pages(const pool_file *pool) { return pool->header_page_size == 0 || pool->header_page_size == pool->page_size; }

static int db_sector_size(sqlite3_file *file) {
    int size = inner(file)->pMethods->xSectorSize(inner(file));
    int page_size = (int)pool_of(file)->page_size;
    return !has_own_pages(pool_of(file)) && size < page_size ? page_size : size;
}

/* Nothing that the default VFS says of atomic writes holds: the pool writes pages one by one. A smaller page that is written takes the rest
 * of its page of the pool with it, which is no powersafe overwrite. */
static int db_characteristics(sqlite3_file *file) {
    int kept = SQLITE_IOCAP_UNDELETABLE_WHEN_OPEN | (has_own_pages(pool_of(file)) ? SQLITE_IOCAP_POWERSAFE_OVERWRITE : 0);
    return inner(file)->pMethods->xDeviceCharacteristics(inner(file)) & kept;
}

/* SQLite reads through the pointer alone (getPageMMap of its pager.c). */
static int db_fetch(sqlite3_file *file, sqlite3_int64 offset, int length, void **bytes) {
    const uint8_t *lent;
    int status = pool_file_lend(pool_of(file), (size_t)length, (uint64_t)offset, &lent);
    *bytes = (void *)(uintptr_t)lent;
    return result_of(status, SQLITE_IOERR_READ);
}

/* Without bytes it says that the file may have changed, which pool_file_enter has seen. No page is lent then. */
static int db_unfetch(sqlite3_file *file, sqlite3_int64 offset, void *bytes) {
    return bytes == NULL || pool_file_take_back(pool_of(file), (uint64_t)offset) ? SQLITE_OK : SQLITE_MISUSE;
}

static const sqlite3_io_methods db_methods = {
    .iVersion = 3, /* without the methods of version 2, which are those of shared memory */
    .xClose = db_close,
    .xRead = db_read,
    .xWrite = db_write,
    .xTruncate = db_truncate,
    .xSync = db_sync,
    .xFileSize = db_file_size,
    .xLock = db_lock,
    .xUnlock = db_unlock,
    .xCheckReservedLock = db_check_reserved,
    .xFileControl = db_control,
    .xSectorSize = db_sector_size,
    .xDeviceCharacteristics = db_characteristics,
    .xFetch = db_fetch,
    .xUnfetch = db_unfetch,
};

/* ---- the methods of the VFS ---- */

/* Whether the pool's file is the one at this path, of which the default VFS has the locks. */
static bool is_at(const pool_file *pool, const char *path) {
    struct stat own, there;
    return fstat(pool->fd, &own) == 0 && stat(path, &there) == 0 && own.st_dev == there.st_dev && own.st_ino == there.st_ino;
}

static int pool_at(const char *path, pool_file **pool) {
    *pool = take_prepared(path);
    if (*pool == NULL) return open_pool(path, pool);
    if (is_at(*pool, path)) return SQLITE_OK;
    close_pool(*pool);
    return SQLITE_CANTOPEN;
}

static int open_db(const char *name, sqlite3_file *file, int flags, int *flags_out) {
    db_file *own = (db_file *)file;
    int opened_with = flags;
    own->base.pMethods = NULL;
    int result = inner_vfs->xOpen(inner_vfs, name, inner(file), flags, &opened_with);
    if (result != SQLITE_OK) return result;
    own->lock = SQLITE_LOCK_NONE;
    own->mmap_size = 0;
    result = pool_at(name, &own->pool);
    if (result != SQLITE_OK) {
        inner(file)->pMethods->xClose(inner(file));
        return result;
    }
    if (flags_out != NULL) *flags_out = opened_with;
    own->base.pMethods = &db_methods;
    return SQLITE_OK;
}

/* Every other file is one of the default VFS, with that one's methods. */
static int vfs_open(sqlite3_vfs *vfs, const char *name, sqlite3_file *file, int flags, int *flags_out) {
    (void)vfs;
    if ((flags & SQLITE_OPEN_MAIN_DB) != 0 && name != NULL) return open_db(name, file, flags, flags_out);
    return inner_vfs->xOpen(inner_vfs, name, file, flags, flags_out);
}

static int vfs_delete(sqlite3_vfs *vfs, const char *name, int sync_folder) {
    (void)vfs;
    return inner_vfs->xDelete(inner_vfs, name, sync_folder);
}

static int vfs_access(sqlite3_vfs *vfs, const char *name, int flags, int *result) {
    (void)vfs;
    return inner_vfs->xAccess(inner_vfs, name, flags, result);
}

static int vfs_full_pathname(sqlite3_vfs *vfs, const char *name, int room, char *full) {
    (void)vfs;
    return inner_vfs->xFullPathname(inner_vfs, name, room, full);
}

static int vfs_randomness(sqlite3_vfs *vfs, int room, char *bytes) {
    (void)vfs;
    return inner_vfs->xRandomness(inner_vfs, room, bytes);
}

static int vfs_sleep(sqlite3_vfs *vfs, int microseconds) {
    (void)vfs;
    return inner_vfs->xSleep(inner_vfs, microseconds);
}

static int vfs_current_time(sqlite3_vfs *vfs, double *time) {
    (void)vfs;
    return inner_vfs->xCurrentTime(inner_vfs, time);
}

static int vfs_last_error(sqlite3_vfs *vfs, int room, char *text) {
    (void)vfs;
    return inner_vfs->xGetLastError(inner_vfs, room, text);
}

static int vfs_current_time_64(sqlite3_vfs *vfs, sqlite3_int64 *time) {
    (void)vfs;
    return inner_vfs->xCurrentTimeInt64(inner_vfs, time);
}

static void *vfs_dl_open(sqlite3_vfs *vfs, const char *name) {
    (void)vfs;
    return inner_vfs->xDlOpen(inner_vfs, name);
}

static void vfs_dl_error(sqlite3_vfs *vfs, int room, char *text) {
    (void)vfs;
    inner_vfs->xDlError(inner_vfs, room, text);
}

static void (*vfs_dl_sym(sqlite3_vfs *vfs, void *library, const char *symbol))(void) {
    (void)vfs;
    return inner_vfs->xDlSym(inner_vfs, library, symbol);
}

static void vfs_dl_close(sqlite3_vfs *vfs, void *library) {
    (void)vfs;
    inner_vfs->xDlClose(inner_vfs, library);
}

static sqlite3_vfs pool_vfs = {
    .iVersion = 2,
    .zName = POOL_VFS,
    .xOpen = vfs_open,
    .xDelete = vfs_delete,
    .xAccess = vfs_access,
    .xFullPathname = vfs_full_pathname,
    .xDlOpen = vfs_dl_open,
    .xDlError = vfs_dl_error,
    .xDlSym = vfs_dl_sym,
    .xDlClose = vfs_dl_close,
    .xRandomness = vfs_randomness,
    .xSleep = vfs_sleep,
    .xCurrentTime = vfs_current_time,
    .xGetLastError = vfs_last_error,
    .xCurrentTimeInt64 = vfs_current_time_64,
};

int pool_vfs_configure(void) {
    enum { SMALL_PAGE = 4096, HELD_PAGES = 32 };
    static _Alignas(16) uint8_t room[HELD_PAGES * (SMALL_PAGE + 512)];
    int header = 0;
    int result = sqlite3_config(SQLITE_CONFIG_PCACHE_HDRSZ, &header);
    int size = (SMALL_PAGE + header + 7) & ~7;
    if (result != SQLITE_OK || size > SMALL_PAGE + 512) return result;
    return sqlite3_config(SQLITE_CONFIG_PAGECACHE, room, size, HELD_PAGES);
}

int pool_vfs_register(uint16_t replica, size_t frames) {
    own_replica = replica;
    own_frames = frames;
    if (inner_vfs != NULL) return SQLITE_OK;
    int result = sqlite3_initialize();
    if (result != SQLITE_OK) return result;
    inner_vfs = sqlite3_vfs_find(NULL);
    if (inner_vfs == NULL) return SQLITE_ERROR;
    pool_vfs.szOsFile = (int)sizeof(db_file) + inner_vfs->szOsFile;
    pool_vfs.mxPathname = inner_vfs->mxPathname;
    return sqlite3_vfs_register(&pool_vfs, 0);
}

pool_file *pool_vfs_of(sqlite3 *db) {
    sqlite3_file *file = NULL;
    if (sqlite3_file_control(db, "main", SQLITE_FCNTL_FILE_POINTER, &file) != SQLITE_OK || file == NULL) return NULL;
    return file->pMethods == &db_methods ? pool_of(file) : NULL;
}

int pool_vfs_open(const char *path, int flags, bool is_alone, sqlite3 **db) {
    int result = sqlite3_open_v2(path, db, flags, POOL_VFS);
    if (result == SQLITE_OK && is_alone) result = sqlite3_exec(*db, "PRAGMA locking_mode = EXCLUSIVE;", NULL, NULL, NULL);
    if (result != SQLITE_OK) return result;
    return sqlite3_exec(*db, "PRAGMA cache_size = 0; PRAGMA cache_spill = OFF; PRAGMA mmap_size = 0x7fff0000;", NULL, NULL, NULL);
}

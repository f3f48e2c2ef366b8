/*
 * Why the database comes last. A journal belongs to the database of its name: SQLite would roll it back into any file that is there. So
 * nothing is there: DB appears by a rename when its journal and its WAL are in place, and these have reached the disk before. A DB that is
 * there already was taken over before, and may have new transactions: it is not written over.
 */
#define _GNU_SOURCE
#include "take.h"

#include <errno.h>
#include <fcntl.h>
#include <libgen.h>
#include <sqlite3.h>
#include <stdio.h>
#include <stdlib.h>
#include <string.h>
#include <sys/file.h>
#include <sys/sendfile.h>
#include <sys/stat.h>
#include <unistd.h>

#include "clock.h"

void take_must(bool is_so, const char *what) {
    if (is_so) return;
    fprintf(stderr, "standby: %s: %s\n", what, strerror(errno));
    exit(1);
}

static char *joined(const char *path, const char *end) {
    char *all = sqlite3_mprintf("%s%s", path, end);
    take_must(all != NULL, "a path");
    return all;
}

/* A symbolic link to nothing is there too. */
static void must_not_be_there(const char *db) {
    struct stat about;
    if (lstat(db, &about) == 0) errno = EEXIST;
    take_must(errno == ENOENT, db);
}

/* Whether the descriptors are of two files: what is written to one must not be what is read from the other. */
static bool are_two_files(int one, int other) {
    struct stat first, second;
    if (fstat(one, &first) != 0 || fstat(other, &second) != 0) return false;
    if (first.st_dev != second.st_dev || first.st_ino != second.st_ino) return true;
    errno = EINVAL;
    return false;
}

/* The descriptor stays open: with it goes the lock, and closing it would also drop SQLite's locks on what is DB by then. A symbolic link is
 * refused: it, and not its file, would become DB. */
char *take_copy_path(const char *db) {
    char *copy = joined(db, ".copy");
    must_not_be_there(db);
    int fd = open(copy, O_RDWR | O_CREAT | O_NOFOLLOW | O_CLOEXEC, 0600); /* DB gets the mode of the primary's file */
    take_must(fd >= 0 && flock(fd, LOCK_EX | LOCK_NB) == 0, copy);
    return copy;
}

void take_header(const char *copy_path, const char *from) {
    uint8_t header[100];
    struct stat about;
    int copy = open(copy_path, O_WRONLY | O_CLOEXEC), source = open(from, O_RDONLY | O_CLOEXEC);
    take_must(copy >= 0 && fstat(copy, &about) == 0, copy_path);
    bool is_known = about.st_size == 0 && source >= 0 && pread(source, header, sizeof header, 0) == sizeof header;
    take_must(!is_known || pwrite(copy, header, sizeof header, 0) == sizeof header, copy_path);
    if (source >= 0) close(source);
    close(copy);
}

/* ---- pages ---- */

/* Bytes past the end of the file are zeros. */
static bool read_page(int fd, uint8_t *page, size_t page_size, uint64_t no) {
    size_t done = 0;
    while (done < page_size) {
        ssize_t got = pread(fd, page + done, page_size - done, (off_t)(no * page_size + done));
        if (got < 0 && errno == EINTR) continue;
        if (got < 0) return false;
        if (got == 0) break;
        done += (size_t)got;
    }
    memset(page + done, 0, page_size - done);
    return true;
}

/* The size is looked at first: a page that the primary adds meanwhile comes with the next pass. */
static bool begin_at(pass *p, const pool_file *copy, int source) {
    struct stat about;
    *p = (pass){.source = source};
    if (fstat(source, &about) != 0 || !are_two_files(source, copy->fd)) return false;
    p->size = (uint64_t)about.st_size;
    p->room = malloc(2 * copy->page_size);
    return p->room != NULL;
}

bool take_begin(pass *p, const pool_file *copy, const char *from) {
    int source = open(from, O_RDONLY | O_CLOEXEC);
    if (source >= 0 && begin_at(p, copy, source)) return true;
    int error = errno;
    if (source >= 0) close(source);
    errno = error;
    return false;
}

void take_end(pass *p) {
    if (p->room == NULL) return;
    close(p->source);
    free(p->room);
    *p = (pass){0};
}

static bool take_page(pass *p, pool_file *copy) {
    bool differs, is_in;
    if (!read_page(p->source, p->room, copy->page_size, p->next)) return false;
    if (pool_file_take(copy, p->next, p->room, p->room + copy->page_size, &differs, &is_in) != WARM_OK) return false;
    p->next++;
    p->counts.pages++;
    p->counts.changed += differs;
    p->counts.in_frames += differs && is_in;
    return true;
}

bool take_slice(pass *p, pool_file *copy, uint64_t milliseconds, const volatile sig_atomic_t *is_time, bool *is_over) {
    uint64_t end = milliseconds_now() + milliseconds;
    *is_over = false;
    while (p->next * copy->page_size < p->size) {
        if (*is_time || milliseconds_now() >= end) return true;
        if (!take_page(p, copy)) return false;
    }
    *is_over = true;
    return copy->size == p->size || pool_file_truncate(copy, p->size) == WARM_OK;
}

/* A whole pass, whatever it takes. */
static bool take_pages(pool_file *copy, int source, taken *counts) {
    static const volatile sig_atomic_t never;
    pass p;
    bool is_over = false;
    if (!begin_at(&p, copy, source) || !take_slice(&p, copy, UINT32_MAX, &never, &is_over)) return false;
    *counts = p.counts;
    free(p.room);
    return is_over;
}

/* ---- the primary's file ---- */

/* SQLite's locks are on 512 bytes of the database, from here on. Whoever reads has one of them, and whoever writes. */
enum { LOCKS_AT = 0x40000000, LOCK_BYTES = 512, LOCK_TRIES = 100, TRY_MICROSECONDS = 10000 };

/* A lock on all of these bytes. Without the right to write, it is one that readers share. */
static bool lock_all(int fd) {
    bool may_write = (fcntl(fd, F_GETFL) & O_ACCMODE) == O_RDWR;
    struct flock all = {.l_type = may_write ? F_WRLCK : F_RDLCK, .l_whence = SEEK_SET, .l_start = LOCKS_AT, .l_len = LOCK_BYTES};
    return fcntl(fd, F_SETLK, &all) == 0;
}

/* It is tried again for a second: a process that was just killed may not have ended. */
bool take_source(source *primary, const char *from) {
    primary->path = realpath(from, NULL);
    take_must(primary->path != NULL, from);
    primary->fd = open(primary->path, O_RDWR | O_CLOEXEC);
    if (primary->fd < 0) primary->fd = open(primary->path, O_RDONLY | O_CLOEXEC);
    take_must(primary->fd >= 0, from);
    for (int at = 0; at < LOCK_TRIES; at++) {
        if (lock_all(primary->fd)) return true;
        if (errno != EACCES && errno != EAGAIN) {
            printf("standby: %s is taken without a lock: %s\n", from, strerror(errno));
            return true;
        }
        usleep(TRY_MICROSECONDS);
    }
    close(primary->fd);
    free(primary->path);
    return false;
}

/* ---- files ---- */

/* Whether SQLite looks at what is in a journal or in a WAL. It begins a journal with zeros, until the transaction may have to be rolled back and
 * again once it is over. */
static bool is_in_use(int fd, const char *path) {
    uint8_t first = 0;
    take_must(pread(fd, &first, 1, 0) >= 0, path);
    return first != 0;
}

/* The last bytes of a journal of a transaction over several databases: the length of a name, which is before them, a sum of its bytes,
 * and what a journal begins with, too. */
enum { MAGIC = 8, NAMED = 16 };

static const uint8_t journal_magic[MAGIC] = {0xd9, 0xd5, 0x05, 0xf9, 0x20, 0xa1, 0x63, 0xd7};

/* Whether a journal that is in use names a super-journal. Its end alone does not say so: the name may have come before the use. */
static bool names_super_journal(int journal, const char *path) {
    uint8_t last[NAMED];
    struct stat about;
    take_must(fstat(journal, &about) == 0, path);
    if (!is_in_use(journal, path) || about.st_size <= NAMED) return false;
    take_must(pread(journal, last, NAMED, about.st_size - NAMED) == NAMED, path);
    uint32_t length = (uint32_t)last[0] << 24 | (uint32_t)last[1] << 16 | (uint32_t)last[2] << 8 | last[3];
    return memcmp(last + NAMED - MAGIC, journal_magic, MAGIC) == 0 && length > 0 && length <= about.st_size - NAMED;
}

/* SQLite rolls such a journal back only where the super-journal is, by the name that the primary's machine has for it. Elsewhere it would leave
 * a part of the transaction in DB. */
static void must_name_no_super_journal(const char *from) {
    char *path = joined(from, "-journal");
    int journal = open(path, O_RDONLY | O_CLOEXEC);
    take_must(journal >= 0 || errno == ENOENT, path);
    if (journal >= 0 && names_super_journal(journal, path)) {
        fprintf(stderr, "standby: %s names a super-journal: its transaction is over several databases, of which this is one alone\n", path);
        exit(1);
    }
    if (journal >= 0) close(journal);
    sqlite3_free(path);
}

/* Copies a whole file, which is on its disk then, with its mode. The target is cut once it is known to be another file. */
static void copy_file(int source, const char *to) {
    ssize_t copied;
    struct stat about;
    int target = open(to, O_WRONLY | O_CREAT | O_NOFOLLOW | O_CLOEXEC, 0600);
    take_must(target >= 0 && are_two_files(source, target) && ftruncate(target, 0) == 0, to);
    do copied = sendfile(target, source, NULL, 1 << 30);
    while (copied > 0 || (copied < 0 && errno == EINTR));
    take_must(copied == 0 && fstat(source, &about) == 0 && fchmod(target, about.st_mode & 0777) == 0, to);
    take_must(pool_file_sync_fd(target) && close(target) == 0, to);
}

static void sync_folder_of(const char *path) {
    char *copy = joined(path, "");
    int fd = open(dirname(copy), O_RDONLY | O_DIRECTORY | O_CLOEXEC);
    take_must(fd >= 0 && pool_file_sync_fd(fd) && close(fd) == 0, "the folder");
    sqlite3_free(copy);
}

/* The journal or the WAL, under the name that DB will have, or none there where the primary has none in use. One that is not in use may end with
 * the name of a super-journal, and SQLite writes the next journal of DB over its beginning: it would take that for one of several databases. */
static void take_beside(const char *from, const char *db, const char *end) {
    char *source_path = joined(from, end), *to = joined(db, end), *draft = joined(to, ".draft");
    int source = open(source_path, O_RDONLY | O_CLOEXEC);
    take_must(source >= 0 || errno == ENOENT, source_path);
    if (source >= 0 && is_in_use(source, source_path)) {
        copy_file(source, draft);
        take_must(rename(draft, to) == 0, to);
    } else {
        take_must(unlink(to) == 0 || errno == ENOENT, to);
    }
    if (source >= 0) close(source);
    sqlite3_free(source_path);
    sqlite3_free(to);
    sqlite3_free(draft);
}

/* DB may have come meanwhile: it is not written over. Where the file system, or the system, has no such rename, a look must do. */
static void put_in_place(const char *copy_path, const char *db) {
    if (renameat2(AT_FDCWD, copy_path, AT_FDCWD, db, RENAME_NOREPLACE) == 0) return;
    take_must(errno == EINVAL || errno == ENOSYS, db);
    must_not_be_there(db);
    take_must(rename(copy_path, db) == 0, db);
}

static taken take_database(pool_file *copy, const source *primary, const char *copy_path) {
    taken counts = {0};
    struct stat about;
    if (copy != NULL) {
        take_must(take_pages(copy, primary->fd, &counts), primary->path);
        take_must(fstat(primary->fd, &about) == 0 && fchmod(copy->fd, about.st_mode & 0777) == 0, copy_path);
        /* What stood in the copy before this program may not be on its disk, so it is synced also where nothing differed. */
        take_must(pool_file_leave(copy) == WARM_OK && pool_file_sync_fd(copy->fd), copy_path);
    } else {
        copy_file(primary->fd, copy_path);
    }
    return counts;
}

/* The primary's descriptor is closed last: that drops the lock. */
taken take_files(pool_file *copy, source *primary, const char *db) {
    char *copy_path = joined(db, ".copy");
    must_not_be_there(db);
    must_name_no_super_journal(primary->path);
    taken counts = take_database(copy, primary, copy_path);
    take_beside(primary->path, db, "-journal");
    take_beside(primary->path, db, "-wal");
    sync_folder_of(db);
    put_in_place(copy_path, db);
    sync_folder_of(db);
    sqlite3_free(copy_path);
    close(primary->fd);
    free(primary->path);
    return counts;
}

/* Byte 19 of a database is the version of its format for readers: 2 is that of a WAL. */
bool take_has_wal(const char *db) {
    uint8_t version = 0;
    int fd = open(db, O_RDONLY | O_CLOEXEC);
    take_must(fd >= 0 && pread(fd, &version, 1, 19) >= 0 && close(fd) == 0, db);
    return version == 2;
}

/*
 * The bytes of one database file through a buffer pool.
 *
 * Why a committed transaction survives kill -9 at any moment. SQLite with a rollback journal writes in this order: it syncs the
 * journal, which has the old bytes of each page that will change; it writes the changed pages to the database; it syncs the database;
 * it deletes the journal, and that is the commit. Between two syncs SQLite counts on no order of the writes and on no write being
 * there, since with a file the system may write its cached pages back in any order too. The pool does the same: a page that was
 * written may leave its frame for the file at any time before the sync, or not before it. Either is right:
 *  - A dirty page in the file before the sync: SQLite hands a page to xWrite only once its old bytes are in the synced journal,
 *    so a process that opens the file after the kill finds a hot journal, and rolls back.
 *  - A dirty page in a frame at the kill, and lost with it: its transaction is not committed, since the database was not synced.
 *    The rollback writes old bytes over old bytes.
 *  - After the sync no page is dirty: pool_file_sync writes all of them back and syncs the file before it answers, so the journal
 *    is deleted only when the file has the whole transaction.
 * One thing differs from a file: what a process wrote outlives its kill -9 in the system's cache, and what is in a frame does not.
 * So even with synchronous=OFF, where SQLite does not call xSync, the pages are written back where it would have: at
 * SQLITE_FCNTL_SYNC, which comes before the journal is deleted. (Then they are also synced, since warm_write_back_all does both.)
 *
 * warm_open asks that nothing else writes to a page of the file that may be in a frame. Twice something does, and no frame's bytes are used
 * after it. Other connections commit while this one has no lock: pool_file_enter then makes a new pool before a page is read, and the old
 * one, which has nothing dirty, is asked for its history alone. And the file is cut off by ftruncate: what frames have of pages behind its
 * end is not read (pool_file_read ends with the file), and is written over before the file grows over it (write_zeros, or whole pages, also
 * where the bytes are those that the frame has: behind the end they are in no file).
 *
 * With a WAL a commit is in the WAL, which is no file of the pool. Pages reach the database in a checkpoint alone, and the WAL has them
 * until it is reset: truncated, deleted, or written from its start again. In walCheckpoint of SQLite 3.40 the order is: the WAL is synced
 * (not with OFF); pages are written; SQLITE_FCNTL_CKPT_DONE; the database is truncated to its size, and synced (not with OFF); and only
 * then are the pages counted as being in the database, without which nothing resets the WAL. Every checkpoint is that one: PASSIVE, FULL,
 * RESTART, TRUNCATE, the automatic one, that of a close, and that of a journal_mode that leaves WAL. So at SQLITE_FCNTL_CKPT_DONE the
 * pages are written back. A checkpoint of a part of the WAL, which would skip the truncation, is made only where other connections
 * still read, and with locking_mode=EXCLUSIVE there are none.
 */
#define _GNU_SOURCE
#include "pool_file.h"

#include <errno.h>
#include <fcntl.h>
#include <stdlib.h>
#include <string.h>
#include <sys/stat.h>
#include <unistd.h>

#include "clock.h"
#include "messages.h"

enum { DEFAULT_PAGE_SIZE = 4096, SMALLEST_PAGE = 512, LENT_UNIT = 4096, SIZE_AT = 16, COUNTER_AT = 24, HEADER_PART = COUNTER_AT + POOL_COUNTER };

static const uint64_t SKEW = POOL_SKEW_SECONDS * (uint64_t)1000000000;

/* SQLite's greatest number of pages. The pool's device is as large, since its file may grow to that. */
static const uint64_t MOST_PAGES = 4294967294;

warm *pool_file_handle(pool_file *file) { return &file->handles[file->current]; }

/* The page size in the two bytes of a database's header, or 0 where they are not that. */
static size_t page_size_in(const uint8_t *bytes) {
    size_t size = message_number(bytes, 2);
    if (size == 1) return 65536;
    return size >= SMALLEST_PAGE && (size & (size - 1)) == 0 ? size : 0;
}

/* Reads the front of the header past the pool. Where the file is shorter it reads as zeros. */
static bool read_header(const pool_file *file, uint8_t header[HEADER_PART]) {
    memset(header, 0, HEADER_PART);
    ssize_t got;
    do got = pread(file->fd, header, HEADER_PART, 0);
    while (got < 0 && errno == EINTR);
    return got >= 0;
}

static bool read_size(pool_file *file) {
    struct stat about;
    if (fstat(file->fd, &about) != 0) return false;
    file->size = (uint64_t)about.st_size;
    return true;
}

/* The clock is read once a transaction. Times rise even where it stands still. */
static void read_clock(pool_file *file) {
    uint64_t time = nanoseconds(CLOCK_REALTIME);
    if (time > file->time) file->time = time;
}

/* Without that the new pages of a replica whose clock is behind would rank below all of its peer's, until its clock is where the peer's was. */
void pool_file_heard(pool_file *file, uint64_t time) {
    if (time >= file->time && time <= nanoseconds(CLOCK_REALTIME) + SKEW) file->time = time + 1;
}

int pool_file_receive(pool_file *file, const uint8_t *message, size_t length) {
    int status = warm_limit(pool_file_handle(file), nanoseconds(CLOCK_REALTIME) + SKEW);
    if (status == WARM_OK) status = warm_receive(pool_file_handle(file), message, length);
    if (status == WARM_OK) pool_file_heard(file, message_latest(message, length));
    return status;
}

/* Opens one of the two handles, with frames that are all empty, and makes it the current one. */
static int open_handle(pool_file *file, int which, size_t page_size) {
    warm_device device = {.pages = MOST_PAGES, .fd = file->fd};
    warm_options options = {.size = sizeof options, .replica = file->replica, .frames = file->frames, .page_size = page_size,
        .devices = &device, .device_count = 1};
    int status = warm_open(&file->handles[which], &options);
    if (status != WARM_OK) return status;
    file->current = which;
    file->page_size = page_size;
    file->page_shift = __builtin_ctzll(page_size);
    residents_clear(&file->residents);
    held_clear(&file->held);
    return WARM_OK;
}

int pool_file_open(pool_file *file, int fd, uint16_t replica, size_t frames) {
    uint8_t header[HEADER_PART];
    *file = (pool_file){.fd = fd, .replica = replica, .frames = frames};
    if (!read_header(file, header) || !read_size(file)) return POOL_IO;
    read_clock(file);
    memcpy(file->counter, header + COUNTER_AT, POOL_COUNTER);
    file->header_page_size = page_size_in(header + SIZE_AT);
    int status = residents_open(&file->residents, frames) && held_open(&file->held, frames) ? WARM_OK : WARM_MEMORY;
    if (status == WARM_OK) status = open_handle(file, 0, file->header_page_size != 0 ? file->header_page_size : DEFAULT_PAGE_SIZE);
    if (status != WARM_OK) pool_file_close(file);
    return status;
}

void pool_file_close(pool_file *file) {
    warm_abandon(&file->handles[0]);
    warm_abandon(&file->handles[1]);
    residents_close(&file->residents);
    held_close(&file->held);
}

/* ---- references ---- */

/* A reference that finds no memory is lost: a page then ranks lower than it should, and nothing else. */
void pool_file_absorb(pool_file *file) {
    warm_reference references[BATCH_ROOM];
    size_t count = batch_take(&file->batch, file->replica, references);
    if (count > 0 && warm_absorb(pool_file_handle(file), references, count) != WARM_OK) file->lost_references += count;
}

/* A page that is in no frame does not wait for its batch: victims are chosen by all references that there were, and a page that came in
 * without one would be the next to leave. */
static void refer(pool_file *file, uint64_t no, bool is_in) {
    uint64_t time = file->time++;
    if (!batch_add(&file->batch, no, time)) {
        pool_file_absorb(file);
        batch_add(&file->batch, no, time);
    }
    if (!is_in) pool_file_absorb(file);
}

/* ---- bytes ---- */

static int pin(pool_file *file, uint64_t no, warm_slot *slot) {
    int status = residents_have(&file->residents, no) ? WARM_OK : held_drop(&file->held, pool_file_handle(file));
    if (status == WARM_OK) status = warm_pin(pool_file_handle(file), (warm_page){.no = no}, slot);
    if (status != WARM_OK) return status;
    residents_note(&file->residents, *slot, no);
    /* A page beyond the end of the file is made of zeros, and read from no device. */
    if (!slot->hit && no * file->page_size < file->size) file->device_reads++;
    return WARM_OK;
}

/* Pins a page, which then stays pinned until the next page comes in, or as long as it has users. */
static int hold_new(pool_file *file, uint64_t no, held_page **page) {
    const uint8_t *bytes;
    warm_slot slot;
    int status = pin(file, no, &slot);
    if (status != WARM_OK) return status;
    status = warm_bytes(pool_file_handle(file), slot, &bytes);
    if (status == WARM_OK) *page = held_add(&file->held, slot, bytes);
    else warm_unpin(pool_file_handle(file), slot);
    return status;
}

/* The page of a frame, counted from 1, which is the one that the page is in; or 0. */
static int hold_in(pool_file *file, uint32_t frame, uint64_t no, held_page **page) {
    if (frame == 0 || file->held.pages[frame - 1].bytes == NULL) return hold_new(file, no, page);
    *page = &file->held.pages[frame - 1];
    return WARM_OK;
}

/* The same with a reference to the page. */
static int hold_page(pool_file *file, uint64_t no, held_page **page) {
    uint32_t frame = residents_frame(&file->residents, no);
    refer(file, no, frame != 0);
    return hold_in(file, frame, no, page);
}

static int read_part(pool_file *file, uint64_t no, size_t at, uint8_t *into, size_t length, bool is_page) {
    held_page *page;
    int status = is_page ? hold_page(file, no, &page) : hold_in(file, residents_frame(&file->residents, no), no, &page);
    if (status == WARM_OK) memcpy(into, page->bytes + at, length);
    return status;
}

/* Writes a page to the file itself. */
static int write_past_pool(pool_file *file, uint64_t no, const uint8_t *bytes) {
    file->is_unsynced = true;
    for (size_t done = 0; done < file->page_size;) {
        ssize_t put = pwrite(file->fd, bytes + done, file->page_size - done, (off_t)(no * file->page_size + done));
        if (put < 0 && errno == EINTR) continue;
        if (put <= 0) return POOL_IO;
        done += (size_t)put;
    }
    return WARM_OK;
}

/*
 * A page that is written was read before, and referenced then. A page that is new to the file is referenced as it is written.
 *
 * A page that has left its frame since it was read is written whole to the file: a pin would first read, for nothing, what is
 * written over at once. It is in no frame, so no frame has older bytes.
 */
static int write_part(pool_file *file, uint64_t no, size_t at, const uint8_t *bytes, size_t length) {
    held_page *page;
    uint32_t frame = residents_frame(&file->residents, no);
    bool is_new = no * file->page_size >= file->size;
    if (!is_new && length == file->page_size && frame == 0) {
        file->direct_writes++;
        return write_past_pool(file, no, bytes);
    }
    if (is_new) refer(file, no, frame != 0);
    int status = hold_in(file, frame, no, &page);
    if (status == WARM_OK) status = warm_write(pool_file_handle(file), page->slot, at, bytes, length);
    if (status == WARM_OK) file->is_dirty = true;
    return status;
}

/* The part of a range of bytes that is in the page of its first byte. */
static size_t first_part(const pool_file *file, uint64_t offset, size_t length) {
    size_t rest = file->page_size - (size_t)(offset % file->page_size);
    return length < rest ? length : rest;
}

/* SQLite reads the change counter at the start of a transaction. pool_file_enter has just read it. */
static bool is_counter(const pool_file *file, size_t length, uint64_t offset) {
    return offset == COUNTER_AT && length == POOL_COUNTER && file->size >= HEADER_PART && !file->has_written;
}

int pool_file_read(pool_file *file, uint8_t *into, size_t length, uint64_t offset) {
    if (file->is_failed) return POOL_IO;
    if (is_counter(file, length, offset)) {
        memcpy(into, file->counter, POOL_COUNTER);
        return WARM_OK;
    }
    size_t there = offset >= file->size ? 0 : length;
    if (there > 0 && length > file->size - offset) there = (size_t)(file->size - offset);
    /* SQLite reads its header in fewer bytes than the smallest page has. That is no reference to the page. */
    bool is_page = length >= SMALLEST_PAGE;
    for (size_t done = 0; done < there;) {
        size_t part = first_part(file, offset + done, there - done);
        uint64_t at = offset + done;
        int status = read_part(file, at / file->page_size, (size_t)(at % file->page_size), into + done, part, is_page);
        if (status != WARM_OK) return status;
        done += part;
    }
    if (is_page) file->page_reads++;
    if (there == length) return WARM_OK;
    memset(into + there, 0, length - there);
    return POOL_SHORT;
}

/* Half of the frames are always free for pages that are read and written. Of a damaged page SQLite may read some bytes more than it has (the
 * xFetch of its newer versions leaves 256 for that): behind a frame of whole units of 4,096 bytes they are there, whatever they are. */
static bool can_lend(const pool_file *file, size_t length, uint64_t offset) {
    if (length != file->page_size || length % LENT_UNIT != 0 || (offset & (length - 1)) != 0) return false;
    return offset < file->size && length <= file->size - offset && file->lent < file->frames / 2;
}

int pool_file_lend(pool_file *file, size_t length, uint64_t offset, const uint8_t **bytes) {
    held_page *page;
    *bytes = NULL;
    if (file->is_failed) return POOL_IO;
    if (!can_lend(file, length, offset)) return WARM_OK;
    int status = hold_page(file, offset >> file->page_shift, &page);
    if (status != WARM_OK) return status;
    *bytes = page->bytes;
    page->users++;
    file->lent++;
    file->lends++;
    file->page_reads++;
    return WARM_OK;
}

bool pool_file_take_back(pool_file *file, uint64_t offset) {
    uint32_t frame = residents_frame(&file->residents, offset >> file->page_shift);
    if (frame == 0 || file->held.pages[frame - 1].users == 0) return false;
    file->held.pages[frame - 1].users--;
    file->lent--;
    return true;
}

static int write_bytes(pool_file *file, const uint8_t *bytes, size_t length, uint64_t offset) {
    for (size_t done = 0; done < length;) {
        uint64_t at = offset + done;
        size_t part = first_part(file, at, length - done);
        int status = write_part(file, at / file->page_size, (size_t)(at % file->page_size), bytes + done, part);
        if (status != WARM_OK) return status;
        done += part;
        if (file->size < at + part) file->size = at + part;
    }
    return WARM_OK;
}

/* Bytes between the end of the file and a write beyond it are zeros. A frame may still have what stood there before a truncation. */
static int write_zeros(pool_file *file, uint64_t end) {
    static const uint8_t zeros[SMALLEST_PAGE];
    while (file->size < end) {
        uint64_t gap = end - file->size;
        int status = write_bytes(file, zeros, gap < sizeof zeros ? (size_t)gap : sizeof zeros, file->size);
        if (status != WARM_OK) return status;
    }
    return WARM_OK;
}

/* Takes the room on the disk as the file grows, and makes it longer, as a write to the file would. Else a full disk would be found at the
 * sync, too late to say SQLITE_FULL. It is still found there where the file system cannot take room. */
static int take_room(const pool_file *file, uint64_t end) {
    if (end <= file->size) return WARM_OK;
    while (fallocate(file->fd, 0, (off_t)file->size, (off_t)(end - file->size)) != 0) {
        if (errno == ENOSPC || errno == EDQUOT || errno == EFBIG) return POOL_FULL;
        if (errno != EINTR) return WARM_OK;
    }
    return WARM_OK;
}

int pool_file_write(pool_file *file, const uint8_t *bytes, size_t length, uint64_t offset) {
    if (file->is_failed) return POOL_IO;
    file->has_written = true;
    int status = take_room(file, offset + length);
    if (status == WARM_OK) status = write_zeros(file, offset);
    if (status == WARM_OK) status = write_bytes(file, bytes, length, offset);
    if (status == WARM_OK && offset <= SIZE_AT && offset + length >= SIZE_AT + 2)
        file->header_page_size = page_size_in(bytes + (SIZE_AT - offset));
    return status;
}

/* A page beyond the new end stays in its frame. Where it is dirty and reaches the file, the next sync cuts the file again. Where the file
 * grows, what frames have of bytes behind the old end is written over. */
int pool_file_truncate(pool_file *file, uint64_t size) {
    if (file->is_failed) return POOL_IO;
    file->is_unsynced = file->has_written = true;
    if (ftruncate(file->fd, (off_t)size) != 0) return POOL_IO;
    int status = write_zeros(file, size);
    if (status == WARM_OK) file->size = size;
    return status;
}

bool pool_file_sync_fd(int fd) {
    int status;
    do status = fsync(fd);
    while (status != 0 && errno == EINTR);
    return status == 0;
}

/* Once pages were written back the file may be longer than it should: a page of the pool is written whole where SQLite's are smaller, and
 * one beyond the end after a truncation. */
static bool cut_to_size(pool_file *file) {
    struct stat about;
    if (fstat(file->fd, &about) != 0) return false;
    if ((uint64_t)about.st_size == file->size) return true;
    return ftruncate(file->fd, (off_t)file->size) == 0 && pool_file_sync_fd(file->fd);
}

/* Where something is dirty the flush in warm_write_back_all comes after all writes past the pool, and is one of the same file. */
static int write_and_sync(pool_file *file) {
    if (file->is_dirty) return warm_write_back_all(pool_file_handle(file));
    return pool_file_sync_fd(file->fd) ? WARM_OK : POOL_IO;
}

int pool_file_sync(pool_file *file) {
    if (file->is_failed) return POOL_IO;
    if (!file->is_dirty && !file->is_unsynced) return WARM_OK;
    int status = write_and_sync(file);
    if (status == WARM_OK && !cut_to_size(file)) status = POOL_IO;
    /* A failed sync is not repaired by the next one: the system may have dropped what it could not write. So no later call succeeds. */
    file->is_failed = status != WARM_OK;
    if (status == WARM_OK) file->is_dirty = file->is_unsynced = false;
    return status;
}

/* ---- other processes ---- */

/* Sends the whole history of one handle to the other. */
static int hand_history_over(warm *from, warm *to) {
    uint8_t *message = malloc(WARM_MESSAGE_ROOM);
    int status = message == NULL ? WARM_MEMORY : WARM_OK;
    for (uint8_t bucket = 0; bucket < WARM_BUCKETS && status == WARM_OK; bucket++) {
        warm_sending sending = {.bucket = bucket};
        do {
            size_t length;
            status = warm_send(from, &sending, message, WARM_MESSAGE_ROOM, &length);
            if (status == WARM_OK) status = warm_receive(to, message, length);
        } while (status == WARM_OK && sending.more);
    }
    free(message);
    return status;
}

/* Empties all frames. The history stays, but where pages have another size by now: then their numbers mean other bytes. A size of 0, which
 * an empty file has, changes none. */
static int reload(pool_file *file, size_t new_size) {
    int old = file->current, new = 1 - old;
    size_t page_size = new_size != 0 ? new_size : file->page_size;
    bool keeps_history = page_size == file->page_size;
    pool_file_absorb(file);
    int status = open_handle(file, new, page_size);
    if (status == WARM_OK && keeps_history) status = hand_history_over(&file->handles[old], &file->handles[new]);
    /* Without memory for it the history is lost, and the file still right. */
    if (status != WARM_OK && file->handles[new].at == NULL) return status;
    warm_abandon(&file->handles[old]); /* pages are pinned in it, and none is dirty */
    file->reloads++;
    return WARM_OK;
}

/* After VACUUM has changed the size of SQLite's pages the pool still has the old one, and is right, until the next lock.
 *
 * SQLite drops its own cache where the change counter in the header is another than it last saw. The pool goes by the same rule. */
int pool_file_enter(pool_file *file) {
    uint8_t header[HEADER_PART];
    if (file->is_failed) return POOL_IO;
    read_clock(file);
    if (!read_header(file, header) || !read_size(file)) return POOL_IO;
    size_t page_size = page_size_in(header + SIZE_AT);
    bool is_same = memcmp(file->counter, header + COUNTER_AT, POOL_COUNTER) == 0;
    file->header_page_size = page_size;
    if (is_same && (page_size == 0 || page_size == file->page_size)) return WARM_OK;
    /* SQLite has no page where it has no lock. If it had, its bytes would go with the frames. */
    if (file->lent > 0) return POOL_IO;
    int status = reload(file, page_size);
    /* Where it is refused the frames are as old as before, and the next call must see that. */
    if (status == WARM_OK) memcpy(file->counter, header + COUNTER_AT, POOL_COUNTER);
    return status;
}

int pool_file_leave(pool_file *file) {
    uint8_t header[HEADER_PART];
    if (!file->has_written) return WARM_OK;
    int status = pool_file_sync(file);
    if (status != WARM_OK) return status;
    if (!read_header(file, header)) return POOL_IO;
    memcpy(file->counter, header + COUNTER_AT, POOL_COUNTER);
    file->header_page_size = page_size_in(header + SIZE_AT);
    file->has_written = false;
    return WARM_OK;
}

/* ---- another copy ---- */

/* A page that ends behind the end of the file is written also where its frame has these bytes: the file has not. */
static int take_into_frame(pool_file *file, uint64_t no, const uint8_t *bytes, uint8_t *room, bool *differs) {
    warm_slot slot;
    bool is_cut = (no + 1) * file->page_size > file->size;
    int status = pin(file, no, &slot);
    if (status != WARM_OK) return status;
    status = warm_read(pool_file_handle(file), slot, 0, room, file->page_size);
    *differs = status == WARM_OK && (is_cut || memcmp(room, bytes, file->page_size) != 0);
    if (*differs) status = warm_write(pool_file_handle(file), slot, 0, bytes, file->page_size);
    if (*differs && status == WARM_OK) file->is_dirty = true;
    int unpinned = warm_unpin(pool_file_handle(file), slot);
    return status != WARM_OK ? status : unpinned;
}

static int take_past_pool(pool_file *file, uint64_t no, const uint8_t *bytes, uint8_t *room, bool *differs) {
    ssize_t got;
    do got = pread(file->fd, room, file->page_size, (off_t)(no * file->page_size));
    while (got < 0 && errno == EINTR);
    if (got < 0) return POOL_IO;
    /* A page that is read in part is written whole: that is never wrong. */
    *differs = (size_t)got < file->page_size || memcmp(room, bytes, file->page_size) != 0;
    return *differs ? write_past_pool(file, no, bytes) : WARM_OK;
}

int pool_file_take(pool_file *file, uint64_t no, const uint8_t *bytes, uint8_t *room, bool *differs, bool *is_in) {
    if (file->is_failed) return POOL_IO;
    *differs = false;
    file->has_written = true;
    int status = write_zeros(file, no * file->page_size);
    if (status != WARM_OK) return status;
    *is_in = residents_have(&file->residents, no);
    status = *is_in ? take_into_frame(file, no, bytes, room, differs) : take_past_pool(file, no, bytes, room, differs);
    if (status != WARM_OK) return status;
    if (file->size < (no + 1) * file->page_size) file->size = (no + 1) * file->page_size;
    return WARM_OK;
}

/* ---- warm-up ---- */

int pool_file_step(pool_file *file, bool *found) {
    warm_page page;
    warm_slot slot;
    *found = false;
    pool_file_absorb(file);
    int status = held_drop(&file->held, pool_file_handle(file));
    if (status == WARM_OK) status = warm_step(pool_file_handle(file), found, &page);
    if (status != WARM_OK || !*found) return status;
    file->warmed++;
    /* The page is there: a pin gives its frame. If it did not, the pool could no longer say which pages are in it. */
    status = warm_pin(pool_file_handle(file), page, &slot);
    if (status == WARM_OK) status = warm_unpin(pool_file_handle(file), slot);
    if (status == WARM_OK) residents_note(&file->residents, slot, page.no);
    else file->is_failed = true;
    return status;
}

void pool_file_print(const pool_file *file, FILE *to) {
    fprintf(to, "pool: %llu page reads, %llu lent, %llu device reads, %llu warmed up, %llu direct writes, %llu reloads, %llu lost references\n",
        (unsigned long long)file->page_reads, (unsigned long long)file->lends, (unsigned long long)file->device_reads, (unsigned long long)file->warmed,
        (unsigned long long)file->direct_writes, (unsigned long long)file->reloads, (unsigned long long)file->lost_references);
}

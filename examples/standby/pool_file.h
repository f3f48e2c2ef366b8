/* The bytes of one database file, read and written through a buffer pool. */
#ifndef POOL_FILE_H
#define POOL_FILE_H

#include <stdbool.h>
#include <stddef.h>
#include <stdint.h>
#include <stdio.h>

#include "batch.h"
#include "held.h"
#include "residents.h"
#include "warm.h"

/* What a call answers besides the statuses of warm.h. */
enum {
    POOL_FULL = -1,  /* the disk has no room for the file to grow */
    POOL_SHORT = -2, /* the file ends before the bytes do: those that are missing read as zeros */
    POOL_IO = -3     /* the system refused a call on the file, or a sync of this file failed before */
};

enum { POOL_COUNTER = 16 };

/* So far may a time that is heard be ahead of this clock. Clocks that are set by NTP differ by less than a second, and a machine that was just
 * started by some. A message that claims more could do harm for as long: each history that hears a horizon forgets what is earlier. */
enum { POOL_SKEW_SECONDS = 60 };

typedef struct pool_file {
    /* One is open. The other takes the history over where the frames of the first are out of date. A handle is not copied. */
    warm handles[2];
    int current;
    int fd;
    uint16_t replica;
    size_t frames, page_size;
    int page_shift; /* a page has 2^page_shift bytes */
    uint64_t size;  /* of the file, as if every dirty page were written */
    bool is_dirty;    /* something was written into the pool since the last sync: it may be in frames or in the file by now */
    bool is_unsynced; /* the file was written or truncated past the pool since the last sync */
    bool has_written; /* either of both, since pool_file_enter */
    bool is_failed;   /* a sync failed: what the file holds is unknown until SQLite opens it again and rolls its journal back */
    uint8_t counter[POOL_COUNTER]; /* the change counter and what follows it, as the file had them when a lock was last held */
    size_t header_page_size;       /* of SQLite's pages, as the header last read or written says */
    batch batch;
    uint64_t time;         /* of the next reference */
    residents residents;   /* of the open handle */
    held held;             /* pages of the open handle */
    size_t lent;           /* how many pages are lent, each as often as it is */
    uint64_t page_reads, device_reads, lends, warmed, lost_references, reloads, direct_writes;
} pool_file;

/* A pool of this many frames over a file that is open for reading and writing. The caller closes the descriptor after pool_file_close. */
int pool_file_open(pool_file *file, int fd, uint16_t replica, size_t frames);

/* Drops what is not synced. */
void pool_file_close(pool_file *file);

/* The open handle. */
warm *pool_file_handle(pool_file *file);

int pool_file_read(pool_file *file, uint8_t *into, size_t length, uint64_t offset);

/* Lends the bytes of one whole page, which stays in its frame until pool_file_take_back. What is written to the page meanwhile is seen in them.
 * bytes is NULL where the page is not lent, and is to be read: half of the frames are lent already, the page is none that the file has, or
 * the bytes are no page of the pool, or one of less than 4,096 bytes, behind which nothing may be read. */
int pool_file_lend(pool_file *file, size_t length, uint64_t offset, const uint8_t **bytes);

/* The page at this offset is lent once less. False where it is not lent: then nothing changes. */
bool pool_file_take_back(pool_file *file, uint64_t offset);

int pool_file_write(pool_file *file, const uint8_t *bytes, size_t length, uint64_t offset);
int pool_file_truncate(pool_file *file, uint64_t size);

/* Every dirty page is in the file, and the file is on its disk. */
int pool_file_sync(pool_file *file);

/* Syncs the file or folder behind a descriptor, again where a signal interrupts that. False where
 * the system refuses it. */
bool pool_file_sync_fd(int fd);

/* Looks whether another process has changed the file since pool_file_leave, and drops the frames where it has. Nothing is dirty. */
int pool_file_enter(pool_file *file);

/* Notes the state of the file in which other processes may find it. Whatever is dirty is written first. */
int pool_file_leave(pool_file *file);

/* A page as another copy of the file has it, of page_size bytes, where it differs is written into its frame, or past the pool to the file. Writes
 * whether it differs, and whether it is in a frame. Bytes between the end of the file and the page are zeros. It is no reference. room is for
 * page_size bytes. */
int pool_file_take(pool_file *file, uint64_t no, const uint8_t *bytes, uint8_t *room, bool *differs, bool *is_in);

/* Takes the references that wait into the history. */
void pool_file_absorb(pool_file *file);

/* Loads one page of the warm-up, and writes whether there was one. */
int pool_file_step(pool_file *file, bool *found);

/* Takes in a message from a peer, of any bytes, as warm_receive does, and hears its times. One that speaks of a time more than POOL_SKEW_SECONDS
 * ahead of the clock is refused (WARM_LATE_HORIZON, WARM_LATE_STAMP): its horizon would empty the history, or its pages would rank as hottest
 * until then. */
int pool_file_receive(pool_file *file, const uint8_t *message, size_t length);

/* A peer's reference or its horizon has this time: references that follow here are later. A time that is more than POOL_SKEW_SECONDS ahead of
 * the clock is not believed. */
void pool_file_heard(pool_file *file, uint64_t time);

/* One line: what was counted. */
void pool_file_print(const pool_file *file, FILE *to);

#endif

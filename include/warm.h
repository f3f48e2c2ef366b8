/*
   warm.h: a buffer pool and a history of references, for C and C++ on 64-bit Linux.

   A replica has a buffer pool with LRU-2 replacement (O'Neil, O'Neil, Weikum, 1993), and a history
   of page references, which ranks the pages. Replicas exchange histories by messages, which the
   caller carries: lost, repeated or reordered ones do no harm. Messages are believed: take them
   from trusted senders alone (see warm_limit). docs/C.md has programs.

   Statuses. A call that returns an int returns WARM_OK, or is refused. A refused call changes
   nothing but counts and the last failure, and writes nothing through its pointers (but see
   WARM_BUFFER_TOO_SMALL), unless its description says otherwise. "Refused" lists statuses in the
   order of their checks. WARM_CLOSED comes first; warm_close and warm_abandon of a closed handle
   return WARM_OK. errno means nothing after a call.

   Shards. Page dev:no is in shard (dev + no) modulo the number of shards. Each shard has its
   pages' history, and its part of the frames. It evicts its unpinned page of greatest backward
   2-distance.

   Threads. Each thread has its own handle (warm_attach). A call on a page, a slot or a bucket locks
   its shard, but not while it reads a page, and seldom while it writes one. A call on the whole
   replica locks one shard after another; warm_forget_pages and warm_replace lock all at once, and
   wait for reads and writes of their pages; warm_replace locks all while it writes and flushes. A
   pin of a page pinned twice since it was loaded, its warm_bytes and its unpin usually take no
   lock, for 8 pages of a handle at a time. A call waits while another call reads its page, and
   before it writes a page, while another writes it. If that read or write fails, the call makes its
   own. If another call's second write is under way by then, the call has its result. If all pages
   that could leave for its page are being written, a pin waits for one of these writes or an unpin.
   See warm_limit_waits.
   The calls on a shard have one order. A call on the whole replica is not one step, also with one
   shard: other calls may come in between. warm_receive and warm_load first raise the horizon of
   each shard, and then add to each its part.

   You may pass any slot, page, number, length, message or descriptor: the call is refused, or does
   what its description says. The library starts no thread.

   For every function the caller guarantees:
   - A handle is zero before its first call, and changed by these functions alone. An open one is
     not copied or moved. After a fork one process alone uses a replica; at the fork no other thread
     is in a call of any replica.
   - One call at a time uses a handle: threads that share one take a lock. warm_attach is a call of
     both handles: attach before the thread starts.
   - No pointer is null, unless this is allowed. It points to as many elements as its length says,
     else to one, is aligned for its type, and overlaps no other argument.
   - No call is made in a signal handler, or left by longjmp or by cancelling its thread.
   - A call has 128 KiB of stack.
   - What its description says after "Caller".
*/
#ifndef WARM_H
#define WARM_H

#include <stdbool.h>
#include <stddef.h>
#include <stdint.h>

/* The SONAME has the first number. */
#define WARM_VERSION_MAJOR 2
#define WARM_VERSION_MINOR 0
#define WARM_VERSION_PATCH 0
#define WARM_VERSION "2.0.0"

#ifdef __cplusplus
extern "C" {
#endif

enum {
    WARM_REPLICAS = 64,        /* numbered from 1 */
    WARM_BUCKETS = 64,         /* of a history: page dev:no is in bucket (dev + no) modulo 64 */
    WARM_MAX_SHARDS = 64,
    WARM_MAX_FRAMES = 65536,   /* of a shard */
    WARM_MAX_PAGE_SIZE = 65536,
    WARM_MAX_DEVICES = 65536,
    WARM_MAX_ENTRIES = 1000,   /* of a message */
    WARM_MESSAGE_ROOM = 31023  /* bytes: any message fits */
};

typedef enum warm_status {
    WARM_OK = 0,
    WARM_MEMORY = 1,
    WARM_BAD_FRAMES = 2,
    WARM_BAD_PAGE_SIZE = 3,
    WARM_NO_DEVICE = 4,
    WARM_NO_PAGE = 5,            /* the device has fewer pages */
    WARM_ALL_PINNED = 6,         /* each frame of the shard has a pinned page */
    WARM_READ_FAULT = 7,
    WARM_EVICT_FAULT = 8,        /* the page to evict could not be written */
    WARM_PINS_FULL = 9,          /* the page has 2^32 - 1 pins */
    WARM_OUT_OF_PAGE = 10,       /* the bytes reach beyond the page */
    WARM_PINNED = 11,            /* a page that must leave is pinned */
    WARM_WRITE_FAULT = 12,       /* a write or a flush failed */
    WARM_STALE_SLOT = 13,        /* the slot has no pinned page, or another one now */
    WARM_TRUNCATED = 34,         /* this and the next 8: why bytes are no message */
    WARM_BAD_MAGIC,
    WARM_BAD_KIND,
    WARM_BAD_SENDER,
    WARM_BAD_LENGTH,
    WARM_BAD_COUNT,
    WARM_BAD_TAG,
    WARM_BAD_STAMP,
    WARM_BAD_ORDER,
    WARM_CLOSED = 64,
    WARM_ALREADY_OPEN = 65,
    WARM_BUFFER_TOO_SMALL = 66,  /* length is the room needed */
    WARM_BAD_REPLICA = 67,
    WARM_BAD_BUCKET = 68,
    WARM_SAME_FILE = 69,         /* two devices have one file, or one context of own calls */
    WARM_LATE_HORIZON = 70,      /* a message's horizon is later than a limit */
    WARM_LATE_STAMP = 71,        /* a message's stamp is later than the limit */
    WARM_BAD_SHARDS = 72,
    WARM_UNEVEN_FRAMES = 73,     /* frames is no multiple of shards */
    WARM_ATTACHED = 74,          /* other handles are attached */
    WARM_PINS_LEFT = 75,
    WARM_NO_SHARD = 76,
    WARM_CUT_SHORT = 77,         /* this and the next 3: why bytes are no dump */
    WARM_DIGESTS_DIFFER,
    WARM_HORIZONS_DIFFER,
    WARM_MORE_FOLLOWS,
    WARM_DUMP_NOT_READ = 81,
    WARM_DUMP_NOT_WRITTEN = 82,
    WARM_APPENDS = 83,           /* a device's descriptor has O_APPEND */
    WARM_TOO_MANY_PAGES = 84,    /* a message's pages would exceed the limit */
    WARM_BAD_OPTIONS = 85,       /* a size or flag of another version */
    WARM_BAD_DEVICE = 86,        /* too many devices, or too large; bad ops */
    WARM_DIRTY = 87,             /* dirty pages would be lost */
    WARM_SKIPPED = 88,           /* before_write skipped pages; nothing has failed */
    WARM_BUSY = 89               /* the limit of warm_limit_waits is over */
} warm_status;

/* A handle. All zeros is a closed one. */
typedef struct warm {
    void *at;
} warm;

/* A page, dev:no. Both are numbered from 0, devices in the order of warm_options. */
typedef struct warm_page {
    uint16_t dev;
    uint64_t no;
} warm_page;

/* A replica used page dev:no at a time: the caller's count, or nanoseconds. Replica and time are a
   stamp. */
typedef struct warm_reference {
    uint16_t replica, dev;
    uint64_t no, time;
} warm_reference;

/* Where a pinned page is. A replica opened later may accept it. */
typedef struct warm_slot {
    uint64_t generation; /* of the frame: how many pages it had, with this one */
    uint32_t index;      /* of the frame in its shard, from 0 */
    uint16_t shard;
    uint16_t hit;        /* 1: this pin found the page in a frame; else 0 */
} warm_slot;

/* ---- open and close ---- */

/* The engine's functions for a device, with its context. length is the page size; in a later
   version read and write alone may have several pages.
   read, write and sync are all given, or all null for the descriptor's file. They return 0 or an
   errno; EAGAIN and EINTR count as EIO. read fills all bytes, or fails, as for a wrong checksum
   (WARM_READ_FAULT). sync makes durable all writes that had returned.
   before_write, if not null, is asked before each write of a page. It returns 0: write; EAGAIN:
   skip this page now, as its latch is held or its log not synced; an errno: the write fails. A
   skipped page stays dirty. Calls that change the page wait for the answer, other calls seldom: so
   it may sync a log.
   after_write, if not null, gets the error (or 0) of each write that was made, by the thread
   that asked before_write.
   Any thread that uses the replica may call them, several at once, for different pages.
   Caller: they return, call nothing of this replica, wait for no thread that does, and keep no
   pointer to the bytes. */
typedef struct warm_device_ops {
    size_t size; /* sizeof(warm_device_ops) */
    int (*read)(void *context, uint64_t no, void *into, size_t length);
    int (*write)(void *context, uint64_t no, const void *bytes, size_t length);
    int (*sync)(void *context);
    int (*before_write)(void *context, uint64_t no, const void *bytes, size_t length);
    void (*after_write)(void *context, uint64_t no, int error);
} warm_device_ops;

/* A device. In a file page n is at byte n * page_size. Behind its end are zeros; a write extends
   it. A device without a file yet has the descriptor -1 - dev; its reads and writes fail. No call
   checks that a descriptor is open or writable: check open yourself. */
typedef struct warm_device {
    uint64_t pages;             /* the most it may have; at most 2^63 - 1 bytes */
    int fd;                     /* not used if ops has read, write and sync */
    const warm_device_ops *ops; /* or null */
    void *context;
} warm_device;

/* What a replica is opened with. 0: the default, if any. */
typedef struct warm_options {
    size_t size;                /* sizeof(warm_options) */
    uint32_t replica;           /* 1 to 64; no other replica has it */
    uint32_t flags;             /* 0 */
    size_t shards;              /* 1, 2, 4, 8, 16, 32 or 64; default 1 */
    size_t frames;              /* of all shards; default 1,024, without devices one a shard */
    size_t page_size;           /* 1 to 65,536 bytes; default 4,096 */
    const warm_device *devices; /* not kept; null if there are none */
    size_t device_count;
} warm_options;

/* Opens a closed handle: a replica with empty frames, allocated here, and an empty history.
   Without devices it is a history alone.
   Refused: WARM_ALREADY_OPEN, WARM_BAD_OPTIONS, WARM_BAD_SHARDS, WARM_UNEVEN_FRAMES,
   WARM_BAD_REPLICA, WARM_BAD_FRAMES, WARM_BAD_PAGE_SIZE, WARM_BAD_DEVICE, WARM_APPENDS,
   WARM_SAME_FILE; WARM_MEMORY at any point.
   Caller: until the replica ends, descriptors stay open, of the same file and without O_APPEND, and
   ops and contexts unchanged. Nothing else writes to a page that may be in a frame, or syncs its
   file: the system reports a failed write to one sync. No call syncs what the caller writes.
   O_DIRECT needs a multiple of 4,096 as page size, and no fork during a call. */
int warm_open(warm *handle, const warm_options *options);

/* Opens attached, a closed handle, on the replica of handle, for another thread. Its pins, answers
   and last failure are its own.
   Refused: WARM_ALREADY_OPEN, WARM_MEMORY. */
int warm_attach(warm *handle, warm *attached);

/* Closes a handle. The one that opened the replica ends it, after a flush of the devices.
   Refused: WARM_ATTACHED, WARM_PINS_LEFT; for that one also WARM_DIRTY, and WARM_WRITE_FAULT if a
   flush fails. */
int warm_close(warm *handle);

/* Closes a handle by force. If it opened the replica, dirty pages are lost, and nothing says
   whether a flush failed. What an attached one has pinned is unpinned; if it ever had more than 64
   pins at once, some may stay.
   Refused: WARM_ATTACHED. */
int warm_abandon(warm *handle);

/* Sets how long later calls of this handle wait for reads, writes and before_write of other calls:
   each this many milliseconds from its first wait on; UINT64_MAX, as at first: without a limit.
   After that, pins, warm_prefetch, warm_step, warm_write, warm_bytes_mut and warm_mark_dirty are
   refused with WARM_BUSY: call again. A wait for a locked shard has no limit, nor have other calls.
   Write-backs wait for two writes of each page at most, and for syncs; warm_forget_pages and
   warm_replace for what was under way at the call. */
int warm_limit_waits(warm *handle, uint64_t milliseconds);

/* Writes into options, whose size is set, what the replica was opened with: defaults in place of
   zeros, and devices null. With one latch a frame, a slot's has the index
   slot.shard * (frames / shards) + slot.index.
   Refused: WARM_BAD_OPTIONS. */
int warm_settings(warm *handle, warm_options *options);

/* The version; a status's name, a colon, and words. */
const char *warm_version(void);
const char *warm_strerror(int status);

/* ---- pages: but for warm_step, these calls allocate nothing ---- */

/* Pins a page: it is read into a frame, if it is in none, and stays there while any handle has it
   pinned. A pin is no reference: absorb one, too. If the page to evict is skipped, or its write
   fails, another one is evicted, after up to 8 such pages. warm_last_failure has the first of them,
   not the others, also with WARM_OK; or the failed read.
   Refused: WARM_NO_DEVICE, WARM_NO_PAGE; of a page in a frame WARM_PINS_FULL; else
   WARM_ALL_PINNED, WARM_PINS_FULL, WARM_READ_FAULT, WARM_EVICT_FAULT. */
int warm_pin(warm *handle, warm_page page, warm_slot *slot);

/* warm_pin and warm_bytes in one call: the fastest way to read. Refused as warm_pin. */
int warm_pin_bytes(warm *handle, warm_page page, warm_slot *slot, const uint8_t **bytes);

/* Pins a page, fills it with zeros and makes it dirty; it is not read. Refused as warm_pin. */
int warm_pin_zeroed(warm *handle, warm_page page, warm_slot *slot);

/* Takes back one pin.
   Refused: WARM_STALE_SLOT, also if the handle has no pins.
   Caller: unpins as often as it pinned, by the same handle. */
int warm_unpin(warm *handle, warm_slot slot);

/* Copies bytes of the slot's page, from byte at on. Refused: WARM_STALE_SLOT, WARM_OUT_OF_PAGE. */
int warm_read(warm *handle, warm_slot slot, size_t at, void *into, size_t length);

/* Writes bytes into the slot's page, from byte at on, and makes it dirty: its eviction or a
   write-back writes it. Refused: WARM_STALE_SLOT, WARM_OUT_OF_PAGE. */
int warm_write(warm *handle, warm_slot slot, size_t at, const void *bytes, size_t length);

/* Writes a pointer to the page_size bytes of the slot's page. It holds while any handle has the
   page pinned.
   Refused: WARM_STALE_SLOT.
   Caller: reads them only then, while no other thread writes to the page, which a latch of the
   caller sees to: this call orders no memory. */
int warm_bytes(warm *handle, warm_slot slot, const uint8_t **bytes);

/* The same for writing; the page is dirty now.
   Refused: WARM_STALE_SLOT.
   Caller: writes while no warm_read or warm_write of the page runs, and no write-back that may
   write it: before_write keeps that out by a latch. What is written after a write-back is lost
   without warm_mark_dirty. */
int warm_bytes_mut(warm *handle, warm_slot slot, uint8_t **bytes);

/* Makes the slot's page dirty, after writing by a pointer and before its latch is released, also
   if it is called again after WARM_BUSY.
   Refused: WARM_STALE_SLOT. */
int warm_mark_dirty(warm *handle, warm_slot slot);

/* Writes whether a page is in a frame. */
int warm_resident(warm *handle, warm_page page, bool *resident);

/* Writes which pages of a shard would be evicted next, in order, once no frame is free, and how
   many: up to room or 64. One that is being written counts, and is evicted once that is over.
   Changes nothing. It looks at each frame only after many changes.
   Refused: WARM_NO_SHARD; WARM_ALL_PINNED if a page has 2^32 - 1 pins. */
int warm_victims(warm *handle, size_t shard, warm_page *pages, size_t room, size_t *count);

/* A step of a warm-up. Of a shard's hottest pages, as many as it has frames, it loads the hottest
   that is on a device and in no frame. Writes whether there was one, and which; if not, the pool is
   warm. Shards take turns, also after a refusal. After references a step ranks their pages alone,
   after 4,000 of a shard its whole history.
   Refused: WARM_MEMORY, WARM_ALL_PINNED, WARM_PINS_FULL, WARM_READ_FAULT, WARM_EVICT_FAULT. */
int warm_step(warm *handle, bool *found, warm_page *page);

/* Loads a page, if it is in no frame, without a pin. Refused as warm_pin. */
int warm_prefetch(warm *handle, warm_page page);

/* ---- write-back: but for warm_replace, these calls allocate nothing ---- */

/* Writes all dirty pages, and then flushes each device with unflushed writes, once. A page that
   fails keeps back no other, but its device is not flushed. After a failed flush each later one of
   the device fails, as the system may have dropped what was written.
   Refused: WARM_WRITE_FAULT if a write or a flush failed, else WARM_SKIPPED. What is not written
   stays dirty. */
int warm_write_back_all(warm *handle);

/* Writes at most limit dirty pages, flushes nothing, and says how many are left. Each call begins
   with the shard after that of the call before, and in each shard where the last one ended.
   Refused, with left unchanged, though pages may be written: WARM_WRITE_FAULT, WARM_SKIPPED. */
int warm_write_back_some(warm *handle, size_t limit, size_t *left);

/* Writes a page if it is dirty, and says whether it did; flushes nothing.
   Refused: WARM_WRITE_FAULT, WARM_SKIPPED. */
int warm_write_back_page(warm *handle, warm_page page, bool *written);

/* warm_write_back_all for one device. Refused: WARM_NO_DEVICE, WARM_WRITE_FAULT, WARM_SKIPPED. */
int warm_flush_device(warm *handle, uint16_t dev);

/* Drops the pages of a device from this number on, for a file that is cut. Dirty ones are lost; the
   history stays. Refused: WARM_NO_DEVICE, WARM_PINNED. */
int warm_forget_pages(warm *handle, uint16_t dev, uint64_t from);

/* Replaces a device: writes and flushes the old one's dirty pages, and drops all its pages. The
   history stays.
   Refused, and the old device stays: WARM_NO_DEVICE, WARM_BAD_DEVICE, WARM_APPENDS, WARM_SAME_FILE,
   WARM_PINNED, WARM_WRITE_FAULT (also for a skipped page); WARM_MEMORY at any point. Pages may have
   been written and dropped. After WARM_MEMORY some of several shards may have the new device,
   without pages of it: call it again, with either one, before anything but warm_abandon.
   Caller: as warm_open asks of a device. */
int warm_replace(warm *handle, uint16_t dev, const warm_device *device);

/* ---- history ---- */

/* Adds references of any replica, in any order. A repeated one changes nothing, so give each use
   another time.
   Refused: WARM_BAD_REPLICA; WARM_MEMORY, when each shard has added all of its references or none:
   add them again. */
int warm_absorb(warm *handle, const warm_reference *references, size_t count);

/* Raises the horizon, the time before which stamps are forgotten. Writes it: it may be later. */
int warm_raise(warm *handle, uint64_t time, uint64_t *horizon);

/* Writes the hottest pages, hottest first, and how many: up to room. Refused: WARM_MEMORY. */
int warm_list(warm *handle, warm_page *pages, size_t room, size_t *count);

/* Writes how many pages the history knows. */
int warm_history_length(warm *handle, size_t *length);

/* ---- gossip ---- */

/* Writes a message with digests of the history, and its length. A receiver answers it with what
   differs; no answer: both know the same. Refused: WARM_MEMORY, WARM_BUFFER_TOO_SMALL. */
int warm_offer(warm *handle, void *message, size_t room, size_t *length);

/* Takes in a whole message. Its answers wait at this handle, in place of those to the one before:
   take those first.
   Refused: WARM_TRUNCATED to WARM_BAD_ORDER; WARM_LATE_HORIZON, WARM_LATE_STAMP and
   WARM_TOO_MANY_PAGES by the limits; WARM_MEMORY at any point. After WARM_MEMORY all shards may
   have the message's horizon, and some their part: receive it again.
   Caller: detects what a transport changes; a message has no checksum. */
int warm_receive(warm *handle, const void *message, size_t length);

/* Writes the next answer to the message that this handle received last; length 0: no more.
   Refused: WARM_MEMORY, WARM_BUFFER_TOO_SMALL. */
int warm_next_answer(warm *handle, void *message, size_t room, size_t *length);

/* How far warm_send is in a bucket. Begin with bucket, since and zeros. */
typedef struct warm_sending {
    uint64_t since;  /* pages without a stamp from this time on are left out; 0: none */
    warm_page after; /* the last page sent, if has_after */
    uint8_t bucket;
    bool has_after;
    bool more;       /* entries follow */
} warm_sending;

/* Writes a message with the next entries (pages with stamps) of a bucket, and its length. To
   publish a history one way, send each bucket, while more follow.
   Refused: WARM_BAD_BUCKET, WARM_MEMORY, WARM_BUFFER_TOO_SMALL. */
int warm_send(warm *handle, warm_sending *sending, void *message, size_t room, size_t *length);

/* Sets a limit: messages with a later time are refused. If times are a clock's, set the current
   time plus a tolerance before each message. It protects from clocks ahead, not from malice: a
   horizon up to the limit erases older stamps, and entries of pages that no device has take memory
   and ranks. */
int warm_limit(warm *handle, uint64_t time);

/* Sets two more: of horizons (as the current time less a retention) and of pages that the history
   knows. Each entry counts as a new page; what other handles receive meanwhile does not count. At
   first there is no limit; dumps have none. */
int warm_limit_history(warm *handle, uint64_t horizon, size_t pages);

/* ---- dumps ---- */

/* Writes a dump of the history to a file, from byte 0 on, and syncs it.
   Refused, and the file may have a part: WARM_MEMORY, WARM_DUMP_NOT_WRITTEN.
   Caller: the file is empty, open for writing without O_APPEND and O_DIRECT, and no device. */
int warm_save(warm *handle, int fd);

/* Joins the history in a file of this length to the replica's.
   Refused: WARM_BAD_MAGIC to WARM_BAD_ORDER, WARM_CUT_SHORT to WARM_MORE_FOLLOWS;
   WARM_DUMP_NOT_READ; WARM_MEMORY at any point. After WARM_MEMORY all shards may have the dump's
   horizon, and some their part: load it again.
   Caller: the file is open without O_DIRECT, and does not change meanwhile. */
int warm_load(warm *handle, int fd, uint64_t length);

/* warm_save and warm_load with a device for the file: a descriptor, whose before_write may end a
   save early, or functions of the engine. Each function gets the place of the first byte as no, and
   any length; pages is not used. Refused as those two, and WARM_BAD_DEVICE. */
int warm_save_to(warm *handle, const warm_device *file);
int warm_load_from(warm *handle, const warm_device *file, uint64_t length);

/* ---- figures: these calls allocate nothing ---- */

/* What the pool did since warm_open, modulo 2^64, and has now. */
typedef struct warm_counters {
    uint64_t hits, misses; /* pins that were not refused */
    uint64_t evictions;    /* pages that left for another one */
    uint64_t written_back; /* writes that did not fail */
    uint64_t resident;     /* pages in frames */
    uint64_t dirty;        /* of these, those not written back */
    uint64_t reserved[10]; /* 0 */
} warm_counters;

/* Writes them. */
int warm_counts(warm *handle, warm_counters *counters);

/* Calls of a device since it has its number, up to 2^64 - 1. */
typedef struct warm_device_counters {
    uint64_t reads, writes; /* of pages, also failed or skipped ones */
    uint64_t flushes;       /* shards share one */
    uint64_t failures;      /* of all these, and skips */
    uint64_t reserved[4];   /* 0 */
} warm_device_counters;

/* Writes them. Refused: WARM_NO_DEVICE. */
int warm_device_counts(warm *handle, uint16_t dev, warm_device_counters *counters);

enum { WARM_FAILED_READ = 1, WARM_FAILED_WRITE = 2, WARM_FAILED_FLUSH = 3 };

/* A failed device call. */
typedef struct warm_failure {
    uint16_t dev;
    uint16_t what;        /* see above */
    int32_t error;        /* errno; EAGAIN: skipped */
    uint64_t no;          /* of the page; 0 of a flush */
    uint64_t count;       /* of failures and skips in the same call */
    uint64_t reserved[1]; /* 0 */
} warm_failure;

/* Writes whether a device's call ever failed or was skipped in a call of this handle, and which
   last: of a call that went on, its first failure, else skip (but see warm_pin). If none has,
   failure is unchanged. */
int warm_last_failure(warm *handle, bool *found, warm_failure *failure);

#ifdef __cplusplus
}
#endif

#endif

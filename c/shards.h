/*
 * shards.h: what is behind a handle of include/warm.h, for c/opening.c (handles), c/shards.c
 * (pages), c/whole_calls.c and c/write_back.c (all else). Not installed.
 *
 * A replica has one node of the proved part for each shard, and a lock for each. Whoever is in a
 * shard, between enter and leave, has its node to itself: by its lock, or since no other handle is
 * open. No call is in two shards at once but those that are in all, which enter them in their
 * order. A pin of a page that has a record, its unpin, and warm_bytes while it is held are in no
 * shard (holds.h); nor is, meanwhile, who reads a page (reads.h) or writes one (writes.h).
 *
 * Who takes several locks takes them in this order:
 *  1. a shard's, or those of all shards;
 *  2. that of one descriptor's sync, which is held during the sync (sync_once.c);
 *  3. one of three that are held while nothing is waited for: that of what is counted of
 *     descriptors (sync_once.c), of the devices that have calls of their own (devices.c), and of
 *     the heap (heap.c).
 * A call of the engine is made with none of the third kind. A read and a write are made with none
 * at all, and a sync with the second. But warm_replace writes and syncs with those of all shards;
 * and a node writes with its shard's if somebody waits to forget pages (writes.h), or if a page
 * was written TRIES times in vain (shards.c), or has as many pins as it can have.
 */
#ifndef SHARDS_H
#define SHARDS_H

#include "devices.h"
#include "holds.h"
#include "proved.h"
#include "reads.h"
#include "waits.h"
#include "writes.h"

#include <pthread.h>
#include <stdatomic.h>

typedef struct shard {
    _Alignas(LINE) pthread_mutex_t lock;
    node node;
    reading *reads; /* pages that are being read */
    _Alignas(LINE) pthread_cond_t call_over; /* a read, a write, its copying; a frame may be had */
    bool may_be_dirty; /* if not, no page is, and the node need not look at each frame */
    unsigned leaving;  /* how many wait for writes, to forget pages or replace a device */
    writing *writes;   /* pages that are being written */
    size_t hand;       /* the frame with which the next portion of a write-back begins */
    _Alignas(LINE) table table;
} shard;

/* What is known of a device beside its number. Reads and failures are counted beside those of the
 * nodes: they are made outside. So are writes that failed or were skipped; the nodes count the
 * others. All flushes are counted here: no node asks for one, but to be replaced or closed. */
typedef struct known_device {
    int synced_as; /* see devices.h; who is in a shard reads it, who is in all changes it */
    unsigned replaced; /* how often the device was; read and changed as synced_as is */
    _Atomic uint64_t reads, writes, flushes, failures;
} known_device;

typedef struct replica {
    uint16_t number;
    size_t count; /* of shards */
    size_t frames, page_size;
    node_device *devices; /* their numbers */
    known_device *known;
    size_t device_count; /* how many were numbered */
    size_t synced_count; /* how many of these are counted by sync_once.h */
    uint64_t steps;      /* that made reads stale; who is in all shards counts one */
    atomic_size_t handles;   /* how many are open */
    _Atomic uint64_t limit, horizon_limit; /* of times in frames */
    atomic_size_t page_limit;              /* of pages known */
    atomic_size_t hand; /* the shard with which the next warm_write_back_some begins */
    void *block;
    _Atomic(holds *) holds;     /* of all handles that are open or were */
    atomic_size_t holds_count; /* how many these are, and are about to be */
    shard shards[];
} replica;

/* What a handle alone knows of a hold: the slot of its page, index and shard in one, and how often
 * it has pinned the page so. */
typedef struct own_hold {
    uint64_t generation, place, pins;
} own_hold;

/* How many of its pins in nodes a handle knows: these are taken back when it is abandoned. A node
 * does not know whose a pin is, and a pin allocates nothing. So for any number of pins a handle
 * would need room from the start for each frame: a count, and the generation of the page, without
 * which a node takes no pin back. These are 12 bytes: with pages of 4 KiB each handle would have
 * 0.3% of what the frames have. That is not worth it: few handles ever have more than 64 such pins
 * at once, beside their holds, and fewer are abandoned so. */
enum { KNOWN_PINS = 64 };

/* What an open handle points to. */
typedef struct opened {
    _Alignas(LINE) replica *of;
    shard *shards; /* those of the replica, and how many they are: a pin finds them sooner here */
    size_t count;
    uint64_t pins; /* in nodes */
    holds *holds;
    uint8_t *buffer; /* of a page: one that is read is here first */
    uint8_t *copy;   /* of one that is written */
    uint32_t used; /* bit i: hold i names a record */
    own_hold own[HOLDS];
    unsigned known_count;
    warm_slot known[KNOWN_PINS]; /* of the pins in nodes those that found a place here */
    size_t turn; /* the shard with which the next warm_step begins */
    uint64_t longest_wait; /* of a call, in milliseconds (waits.h); UINT64_MAX: no limit */
    bool is_first; /* whether it opened the replica */
    bool has_failed;
    node_failure failure; /* of a device, in a call of the handle, the last one; if has_failed */
    uint64_t failed;      /* how many were in that call, or were skipped */
    visit calls; /* of the whole, one after the other; idle between two */
    /* What waits of the answers to the message that was received last: which buckets are to be
     * sent, and the next answer. Nothing answers entries, but their copies are here, too. All is
     * kept until warm_next_answer finds no answer, another message is received, or the close. */
    visit answers;
    void *block;
    /* bit i: a portion has passed the page in frame i of its shard, which another call was writing;
     * 0 between portions. It is behind the devices' bits */
    uint8_t *passed;
    /* bit i: in the call that is made, a write to device i has failed; 0 between calls */
    uint8_t unwritten[];
} opened;

/* Gives up a hold that the handle uses, and wakes who wants a frame (waits.h). */
static inline void give_up_hold(opened *its, unsigned at) {
    shard *in = &its->shards[its->own[at].place >> SLOT_SHARD];
    _Atomic uint64_t *word = &its->holds->words[at];
    its->used &= ~(1u << at);
    atomic_store_explicit(word, 0, memory_order_release);
    HOLDS_PAUSE();
    atomic_signal_fence(memory_order_seq_cst); /* the compiler keeps the two in this order */
    if (atomic_load_explicit(&in->table.wanting, memory_order_relaxed) != 0)
        enter_and_wake_wanting(in, word);
}

static inline size_t bytes_of_devices(const replica *of) { return (of->device_count + 7) / 8; }

/* Of a shard. */
static inline size_t bytes_of_frames(const replica *of) { return (of->frames / of->count + 7) / 8; }

/* As shard_of of crates/warm_visits has it: the page's bucket, (dev + no) modulo 64, modulo the
 * number of shards, which is a power of two up to 64. The proved part is not asked, so that a hit
 * makes no call. */
static inline size_t number_of(const opened *its, node_page page) {
    return (page.dev + page.no) & (its->count - 1);
}

static inline shard *shard_of(const opened *its, node_page page) {
    return &its->shards[number_of(its, page)];
}

static inline size_t open_handles(replica *of) {
    return atomic_load_explicit(&of->handles, memory_order_acquire);
}

/* Returns whether the shard was locked. Who finds one handle open is in a call of it, and no other
 * thread can be in another: warm_attach is a call of it, too, and the last call of a handle that
 * was closed since has ended before that. */
static inline bool enter(opened *its, shard *in) {
    if (open_handles(its->of) == 1) return false;
    pthread_mutex_lock(&in->lock);
    return true;
}

static inline void leave(shard *in, bool is_locked) {
    if (is_locked) pthread_mutex_unlock(&in->lock);
}

/* Notes which call of a device failed, or was skipped. */
static inline void note_failure(opened *its, node_page page, uint16_t what, int error) {
    its->has_failed = true;
    its->failure = (node_failure){.no = page.no, .dev = page.dev, .what = what, .error = error};
}

/* Counts a failure in a call that is refused with this status so far. */
static inline void count_failure(opened *its, int status) {
    its->failed = status == WARM_OK ? 1 : its->failed + 1;
}

/* Notes which call of a device failed in the shard, which is entered, and returns the status. */
static inline int noted(opened *its, shard *in, int status) {
    if (status == WARM_READ_FAULT || status == WARM_EVICT_FAULT || status == WARM_WRITE_FAULT) {
        node_last_failure(&in->node, &its->has_failed, &its->failure);
    }
    return status;
}

/* Takes back what a handle, which is called no more, has pinned in nodes and knows. */
void let_go_of_pins(opened *its);

/* Whether a device may be one of a replica of this page size: WARM_OK, WARM_BAD_DEVICE or
 * WARM_APPENDS. */
int may_be_device(const warm_device *device, size_t page_size);

/* Returns how many pages of all shards are dirty. */
size_t dirty_pages(opened *its);

/* Syncs each device that is to be synced, with no shard entered, and returns WARM_OK or
 * WARM_WRITE_FAULT. */
int sync_devices(opened *its);

#endif

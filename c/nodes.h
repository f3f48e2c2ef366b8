/*
 * nodes.h: the proved part of the library, for the files of c/ alone. It is not installed.
 *
 * A replica has one node for each shard. Each function below is proved of one node, or of a visit;
 * the locks of shards are in shards.h. What a function of the first list does of a node,
 * include/warm.h says of a replica: node_NAME is warm_NAME there, but node_victim is warm_victims
 * and node_close is warm_abandon. proved.h has how the types here become those there. Statuses have
 * the same numbers, and what the header says of refused calls and of pointers holds for all.
 *
 * One call at a time uses a handle. The shard of a slot that a function writes is 0; that of a slot
 * that is passed is not looked at. A message is called a frame here, as the proved part calls it.
 */
#ifndef NODES_H
#define NODES_H

#include <stdbool.h>
#include <stddef.h>
#include <stdint.h>

typedef struct node_page {
    uint64_t no;
    uint16_t dev;
} node_page;

typedef struct node_reference {
    uint16_t replica, dev;
    uint64_t no, time;
} node_reference;

typedef struct node_slot {
    uint64_t generation;
    uint32_t index, shard;
} node_slot;

/* The number of a device is a descriptor, or a made-up one of devices.h. */
typedef struct node_device {
    uint64_t pages;
    int32_t number;
} node_device;

typedef struct node_counters {
    uint64_t hits, misses, evictions, written_back, resident, dirty;
} node_counters;

typedef struct node_device_counters {
    uint64_t reads, writes, flushes, failures;
} node_device_counters;

typedef struct node_failure {
    uint64_t no;
    uint16_t dev, what;
    int32_t error;
} node_failure;

/* A handle of a node. All zeros is a closed one. It does not move while it is open. */
typedef struct node {
    bool is_open;
    void *at;
} node;

int node_open(node *handle, uint16_t replica, size_t frames, size_t page_size,
    const node_device *devices, size_t device_count);
void node_close(node *handle);
int node_absorb(node *handle, const node_reference *references, size_t count);
int node_pin(node *handle, node_page page, node_slot *slot);
int node_pin_zeroed(node *handle, node_page page, node_slot *slot);
int node_unpin(node *handle, node_slot slot);
int node_read(node *handle, node_slot slot, size_t at, uint8_t *into, size_t length);
int node_write(node *handle, node_slot slot, size_t at, const uint8_t *bytes, size_t length);
int node_bytes(node *handle, node_slot slot, const uint8_t **bytes);
int node_bytes_mut(node *handle, node_slot slot, uint8_t **bytes);
int node_resident(node *handle, node_page page, bool *resident);
int node_victim(node *handle, bool *found, node_page *page);
int node_list(node *handle, node_page *pages, size_t room, size_t *count);
int node_step(node *handle, bool *found, node_page *page);
int node_write_back_page(node *handle, node_page page, bool *written);
int node_flush_device(node *handle, uint16_t dev);
int node_forget_pages(node *handle, uint16_t dev, uint64_t from);
int node_replace(node *handle, uint16_t dev, const node_device *device);
int node_counts(node *handle, node_counters *counters);
int node_device_counts(node *handle, uint16_t dev, node_device_counters *counters);
int node_last_failure(node *handle, bool *found, node_failure *failure);
int node_history_length(node *handle, size_t *length);
int node_save(node *handle, int fd);
int node_load(node *handle, int fd, uint64_t length);

/* What the header does not say of a replica. */

/* Pins a page as node_pin does, and writes where its bytes lie, as node_bytes does.
 * Refused as node_pin is; the slot and the pointer are unchanged then. */
int node_pin_bytes(node *handle, node_page page, node_slot *slot, const uint8_t **bytes);

/* Pins a page as node_pin does, but with these bytes in place of a read, and writes its slot. They
 * are the page as its device has it now, whole: this is not checked. No device is read. If the page
 * is in a frame, the bytes are not looked at.
 * Refused: WARM_BAD_PAGE_SIZE if they are not as many as a page has; then as node_pin is, but for
 * WARM_READ_FAULT. The slot is then as it was. */
int node_pin_filled(
    node *handle, node_page page, const uint8_t *bytes, size_t length, node_slot *slot);

/* Writes whether there is a page that node_step would load, and which. Nothing is loaded. If the
 * page is then pinned by node_pin_filled and unpinned, with no call in between, that was the step.
 * Refused: WARM_MEMORY. */
int node_next(node *handle, bool *found, node_page *page);

/* Writes whether the page is in a frame and dirty. */
int node_dirty(node *handle, node_page page, bool *dirty);

/* Writes whether a frame with the number from or a higher one is dirty, the number of the first
 * such frame, and its page. Frames are numbered from 0. If there is none, as for a number beyond
 * the last frame, frame and page are as they were. */
int node_next_dirty(node *handle, size_t from, bool *found, size_t *frame, node_page *page);

/* Writes the frame of the first 1000 entries of a bucket, of those with a stamp from the time since
 * on and, if has_after, of a page greater than after; its length; how many entries it has; whether
 * more of them follow; and the page of the last one. If there is none, last is as it was.
 * Refused: WARM_BAD_BUCKET; WARM_MEMORY; WARM_BUFFER_TOO_SMALL: length is then the room that it
 * needs. */
int node_send_since(node *handle, uint8_t bucket, uint64_t since, bool has_after, node_page after,
    uint8_t *frame, size_t room, size_t *length, size_t *entries, bool *more, node_page *last);

/* Whether node_forget_pages would forget these pages, or what it would be refused with. Nothing
 * changes. */
int node_may_forget(node *handle, uint16_t dev, uint64_t from);

/* Whether node_replace would be refused for what the new device is: with WARM_NO_DEVICE or
 * WARM_SAME_FILE. Nothing changes.
 * Refused: these; WARM_MEMORY. */
int node_may_replace(node *handle, uint16_t dev, const node_device *device);

/*
 * Visits. A call of a whole history is a visit: it names the shard that it wants next, and is let
 * in there. The shard of a page is its bucket (docs/FORMATS.md), modulo the number of shards.
 * Whoever has the locks makes one loop:
 *
 *     while (visit_next(of, &number)) visit_enter(of, node of this shard);
 *
 * A handle has one visit after the other. Between two of them it is idle.
 *
 * Some calls are no visits. warm_history_length adds up what the nodes say. warm_send is of one
 * bucket, and warm_absorb may be of one reference. If there is one shard, warm_absorb and warm_list
 * are calls of its node, and so are warm_save and warm_load by the only handle.
 */

/* A handle of visits. All zeros is a closed one. It does not move while it is open, but may be used
 * by another thread than before. */
typedef struct visit {
    bool is_open;
    void *at;
} visit;

/* Opens a closed handle of visits of this replica, in this many shards. Only this call and those
 * that say so may be refused with WARM_MEMORY.
 * Refused: WARM_ALREADY_OPEN; WARM_BAD_REPLICA; WARM_BAD_SHARDS; WARM_MEMORY. */
int visit_open(visit *handle, uint16_t replica, size_t shards);
void visit_close(visit *handle);

/* Begin a visit, in place of the one before: to absorb references; to raise the horizon of each
 * shard; to offer; to copy the histories of all shards and join the copies.
 * Refused, and the visit before is kept: visit_absorb with WARM_BAD_REPLICA and WARM_MEMORY;
 * visit_offer and visit_copy with WARM_MEMORY. */
int visit_absorb(visit *handle, const node_reference *references, size_t count);
int visit_raise(visit *handle, uint64_t time);
int visit_offer(visit *handle);
int visit_copy(visit *handle);

/* What a message is refused by: times later than time, a horizon later than horizon, and entries
 * with which a history that knows this many pages (known) could know more than pages. */
typedef struct node_limits {
    uint64_t time, horizon;
    size_t pages, known;
} node_limits;

/* Begins to receive the message of a frame. All shards take its horizon, and each the entries of
 * its pages; its answers are to be handed out.
 * Refused, and the visit before is kept: WARM_TRUNCATED to WARM_BAD_ORDER; WARM_LATE_HORIZON;
 * WARM_LATE_STAMP; WARM_TOO_MANY_PAGES; WARM_MEMORY at any point. */
int visit_receive(visit *handle, const node_limits *limits, const uint8_t *frame, size_t length);

/* Reads a dump, and begins to join what each shard has of it. Refused, and the visit before is
 * kept, as warm_load is. */
int visit_load(visit *handle, int fd, uint64_t length);

/* Returns whether the visit wants to be let into a shard, and writes which. It wants none if its
 * errands are done, if a shard has refused one, or while a message waits to be handed out. */
bool visit_next(visit *handle, size_t *number);

/* Lets it into the node of that shard. */
void visit_enter(visit *handle, node *in);

/* Returns WARM_OK; or WARM_MEMORY if a shard has refused an errand. That is taken away: the visit
 * goes on where it stopped, if it is let in again. */
int visit_status(visit *handle);

/* Writes the earliest horizon that a shard has, of a visit that visit_raise began. Of any other it
 * is as it was. */
int visit_kept(visit *handle, uint64_t *horizon);

/* Hands out what was offered, or the next message of the answers: writes its frame, and its length;
 * length 0 if there is none. If it is refused, the message waits.
 * Refused: WARM_MEMORY; WARM_BUFFER_TOO_SMALL: length is then the room that it needs. */
int visit_message(visit *handle, uint8_t *frame, size_t room, size_t *length);

/* List and save the copy, as warm_list and warm_save do.
 * Refused: WARM_CLOSED, if the visit copies nothing; what these are refused with. */
int visit_list(visit *handle, node_page *pages, size_t room, size_t *count);
int visit_save(visit *handle, int fd);

/* Exchanges the visits of two handles. */
void visit_swap(visit *handle, visit *other);

/* Leaves the handle idle: what the visit had is freed. */
void visit_end(visit *handle);

#endif

/*
 * fake_nodes.h: the functions of nodes.h in a few lines of C each, for tests, which have no proved
 * part. A fake node has frames, each with one byte in place of a page, or with more if a test says
 * so, and in place of a history how many references it took in. It writes pages and asks for syncs
 * as the proved part does in the end, by devices.h and sync_once.h. When it reads a page,
 * which it does for a handle that is alone, it takes the byte that the file keeps (fake_system.h),
 * or that the device's own call reads. Each call looks whether another call is in the node.
 */
#ifndef FAKE_NODES_H
#define FAKE_NODES_H

#include "devices.h"
#include "nodes.h"
#include "sync_once.h"

#include <errno.h>
#include <stdatomic.h>
#include <stdlib.h>
#include <string.h>

enum { FAKE_DEVICES = 4, FAKE_FRAMES = 32, FAKE_PAGES = 512, FAKE_EMPTY = 23, FAKE_FULL = 44 };

/* The most that a page has. */
enum { FAKE_BYTES = 64 };

typedef struct fake_frame {
    bool is_in, is_dirty;
    node_page page;
    uint64_t generation;
    unsigned pins;
    uint8_t bytes[FAKE_BYTES];
} fake_frame;

typedef struct fake {
    atomic_int inside;                         /* how many calls are in it */
    uint64_t calls;                            /* how many were */
    size_t page_size;
    size_t frames, device_count, known, named; /* named: the page that is said to be loaded next */
    node_device devices[FAKE_DEVICES];
    bool waits[FAKE_DEVICES], has_failed[FAKE_DEVICES];
    uint64_t horizon, hits, misses, evictions, writes;
    node_failure failed;
    fake_frame at[FAKE_FRAMES];
} fake;

/* The count orders nothing between threads, so that a thread sanitizer sees what no lock does. */
static fake *fake_in(node *of) {
    fake *its = of->at;
    MUST(of->is_open && atomic_fetch_add_explicit(&its->inside, 1, memory_order_relaxed) == 0);
    its->calls++;
    return its;
}

static int fake_out(node *of, int status) {
    MUST(atomic_fetch_sub_explicit(&((fake *)of->at)->inside, 1, memory_order_relaxed) == 1);
    return status;
}

/* Whether there is memory: each fake call that may have to allocate asks so. */
static bool fake_memory(void) {
    void *block = malloc(1);
    free(block);
    return block != NULL;
}

int node_open(node *of, uint16_t replica, size_t frames, size_t page_size,
    const node_device *devices, size_t device_count) {
    MUST(!of->is_open && (remembered == 0 || remembered == device_count));
    MUST(replica > 0 && replica <= 64 && page_size > 0 && frames > 0);
    if (device_count > FAKE_DEVICES) return WARM_SAME_FILE; /* what a node alone knows */
    if (frames > FAKE_FRAMES) return WARM_MEMORY;
    fake *made = malloc(sizeof(fake));
    if (made == NULL) return WARM_MEMORY;
    memset(made, 0, sizeof(fake));
    made->frames = frames;
    made->page_size = page_size;
    made->device_count = device_count;
    memcpy(made->devices, devices, device_count * sizeof(node_device));
    *of = (node){.is_open = true, .at = made};
    return WARM_OK;
}

static bool fake_flush(fake *its, uint16_t dev) {
    if (its->waits[dev] &&
        (its->has_failed[dev] || sync_once(device_synced_as(its->devices[dev].number)) != 0)) {
        its->has_failed[dev] = true;
        its->failed = (node_failure){.dev = dev, .what = WARM_FAILED_FLUSH, .error = errno};
        return false;
    }
    its->waits[dev] = false;
    return true;
}

void node_close(node *of) {
    if (!of->is_open) return;
    fake *its = fake_in(of);
    for (uint16_t dev = 0; dev < its->device_count; dev++) fake_flush(its, dev);
    free(its);
    *of = (node){0};
}

/* The device is to be flushed afterwards, even if the write fails. */
static bool fake_write(fake *its, fake_frame *frame) {
    node_page page = frame->page;
    off_t at = (off_t)(page.no * its->page_size);
    int32_t number = its->devices[page.dev].number;
    its->waits[page.dev] = true;
    if (device_write(number, frame->bytes, its->page_size, at) != (ssize_t)its->page_size) {
        its->failed = (node_failure){
            .no = page.no, .dev = page.dev, .what = WARM_FAILED_WRITE, .error = errno};
        return false;
    }
    its->writes++;
    frame->is_dirty = false;
    return true;
}

/* The frame of a page, or else one for it: an empty one, or one that no page is pinned in. */
static fake_frame *fake_frame_for(fake *its, node_page page) {
    fake_frame *other = NULL;
    for (size_t at = 0; at < its->frames; at++) {
        fake_frame *frame = &its->at[at];
        if (frame->is_in && frame->page.no == page.no && frame->page.dev == page.dev) return frame;
        if (frame->is_in ? other == NULL && frame->pins == 0 : other == NULL || other->is_in)
            other = frame;
    }
    return other;
}

static int fake_unread(fake *its, node_page page) {
    its->failed =
        (node_failure){.no = page.no, .dev = page.dev, .what = WARM_FAILED_READ, .error = EIO};
    return WARM_READ_FAULT;
}

/* How often a node has read a page, or tried to. */
static int read_by_nodes;

/* Whether the page, of one byte, can be read: what a file keeps, or what a device's own call
 * reads. */
static bool fake_read(const fake *its, node_page page, uint8_t *byte) {
    int32_t number = its->devices[page.dev].number;
    MUST(its->page_size == 1);
    read_by_nodes++;
    if (device_of(number).ops.read != NULL)
        return device_read(number, byte, 1, (off_t)page.no) == 1;
    *byte = files_keep && number >= 0 ? in_files[number][page.no] : 0;
    return (off_t)page.no < unreadable;
}

/* Whether each page in a frame has as many pins as it can have: if a test says so. */
static bool pins_are_full;

/* If no bytes are given, the page is read. */
static int fake_pin(fake *its, node_page page, const uint8_t *given, node_slot *slot) {
    if (page.dev >= its->device_count) return WARM_NO_DEVICE;
    if (page.no >= FAKE_PAGES) return WARM_NO_PAGE;
    fake_frame *frame = fake_frame_for(its, page);
    MUST(its->page_size <= FAKE_BYTES);
    if (frame == NULL) return WARM_ALL_PINNED;
    bool is_there =
        frame->is_in && frame->page.no == page.no && frame->page.dev == page.dev;
    if (is_there && pins_are_full) return WARM_PINS_FULL;
    if (is_there) its->hits++;
    if (!is_there) {
        uint8_t byte = 0;
        if (given == NULL && !fake_read(its, page, &byte)) return fake_unread(its, page);
        if (frame->is_in && frame->is_dirty && !fake_write(its, frame)) return WARM_EVICT_FAULT;
        its->misses++;
        its->evictions += frame->is_in;
        *frame = (fake_frame){.is_in = true, .page = page, .generation = frame->generation + 1};
        memcpy(frame->bytes, given != NULL ? given : &byte, its->page_size);
    }
    frame->pins++;
    *slot = (node_slot){.generation = frame->generation, .index = (uint32_t)(frame - its->at)};
    return WARM_OK;
}

static fake_frame *fake_pinned(fake *its, node_slot slot) {
    if (slot.index >= its->frames) return NULL;
    fake_frame *frame = &its->at[slot.index];
    return frame->pins > 0 && frame->generation == slot.generation ? frame : NULL;
}

int node_pin(node *of, node_page page, node_slot *slot) {
    fake *its = fake_in(of);
    return fake_out(of, fake_pin(its, page, NULL, slot));
}

int node_pin_filled(
    node *of, node_page page, const uint8_t *bytes, size_t length, node_slot *slot) {
    fake *its = fake_in(of);
    int status = length != its->page_size ? WARM_BAD_PAGE_SIZE : fake_pin(its, page, bytes, slot);
    if (status == WARM_OK && its->named != 0 && page.no == its->named) its->known--;
    its->named = 0;
    return fake_out(of, status);
}

int node_pin_zeroed(node *of, node_page page, node_slot *slot) {
    fake *its = fake_in(of);
    int status = fake_pin(its, page, (const uint8_t[FAKE_BYTES]){0}, slot);
    if (status != WARM_OK) return fake_out(of, status);
    memset(its->at[slot->index].bytes, 0, its->page_size);
    its->at[slot->index].is_dirty = true;
    return fake_out(of, WARM_OK);
}

int node_bytes(node *of, node_slot slot, const uint8_t **bytes) {
    fake_frame *frame = fake_pinned(fake_in(of), slot);
    if (frame != NULL) *bytes = frame->bytes;
    return fake_out(of, frame != NULL ? WARM_OK : WARM_STALE_SLOT);
}

int node_bytes_mut(node *of, node_slot slot, uint8_t **bytes) {
    fake_frame *frame = fake_pinned(fake_in(of), slot);
    if (frame != NULL) *bytes = frame->bytes;
    if (frame != NULL) frame->is_dirty = true;
    return fake_out(of, frame != NULL ? WARM_OK : WARM_STALE_SLOT);
}

int node_pin_bytes(node *of, node_page page, node_slot *slot, const uint8_t **bytes) {
    int status = node_pin(of, page, slot);
    return status == WARM_OK ? node_bytes(of, *slot, bytes) : status;
}

int node_unpin(node *of, node_slot slot) {
    fake_frame *frame = fake_pinned(fake_in(of), slot);
    if (frame != NULL) frame->pins--;
    return fake_out(of, frame != NULL ? WARM_OK : WARM_STALE_SLOT);
}

/* Whether these bytes are in the page of a slot, or why not. */
static int fake_reach(const fake *its, const fake_frame *frame, size_t at, size_t length) {
    size_t size = its->page_size;
    if (frame == NULL) return WARM_STALE_SLOT;
    return at > size || length > size - at ? WARM_OUT_OF_PAGE : WARM_OK;
}

int node_read(node *of, node_slot slot, size_t at, uint8_t *into, size_t length) {
    fake *its = fake_in(of);
    fake_frame *frame = fake_pinned(its, slot);
    int status = fake_reach(its, frame, at, length);
    if (status == WARM_OK) memcpy(into, frame->bytes + at, length);
    return fake_out(of, status);
}

/* What a test does while a node has written half of what a call writes: other threads may do
 * that. */
static void (*at_half)(void);

int node_write(node *of, node_slot slot, size_t at, const uint8_t *bytes, size_t length) {
    fake *its = fake_in(of);
    fake_frame *frame = fake_pinned(its, slot);
    int status = fake_reach(its, frame, at, length);
    if (status == WARM_OK) {
        memcpy(frame->bytes + at, bytes, length / 2);
        if (at_half != NULL) at_half();
        memcpy(frame->bytes + at + length / 2, bytes + length / 2, length - length / 2);
        frame->is_dirty = true;
    }
    return fake_out(of, status);
}

/* What a test does while a node says whether a page is in a frame: other threads may do that. */
static void (*at_resident)(void);

int node_resident(node *of, node_page page, bool *resident) {
    if (at_resident != NULL) at_resident();
    fake_frame *frame = fake_frame_for(fake_in(of), page);
    *resident =
        frame != NULL && frame->is_in && frame->page.no == page.no && frame->page.dev == page.dev;
    return fake_out(of, WARM_OK);
}

int node_dirty(node *of, node_page page, bool *dirty) {
    fake_frame *frame = fake_frame_for(fake_in(of), page);
    *dirty = frame != NULL && frame->is_in && frame->is_dirty && frame->page.no == page.no &&
             frame->page.dev == page.dev;
    return fake_out(of, WARM_OK);
}

/* How many frames nodes have looked at, one after another, for a dirty one. */
static atomic_int frames_seen;

int node_next_dirty(node *of, size_t from, bool *found, size_t *frame, node_page *page) {
    fake *its = fake_in(of);
    *found = false;
    for (size_t at = from; at < its->frames && !*found; at++) {
        atomic_fetch_add_explicit(&frames_seen, 1, memory_order_relaxed);
        *found = its->at[at].is_in && its->at[at].is_dirty;
        if (!*found) continue;
        *frame = at;
        *page = its->at[at].page;
    }
    return fake_out(of, WARM_OK);
}

/* What a test does while a node says which page would leave: other threads may do that. */
static void (*at_victim)(void);

int node_victim(node *of, bool *found, node_page *page) {
    fake *its = fake_in(of);
    *found = false;
    if (at_victim != NULL) at_victim();
    for (size_t at = 0; at < its->frames && !*found; at++) {
        *found = its->at[at].is_in && its->at[at].pins == 0;
        if (*found) *page = its->at[at].page;
    }
    return fake_out(of, WARM_OK);
}

/* One page for each reference that it knows. It is loaded when it is pinned next. */
int node_next(node *of, bool *found, node_page *page) {
    fake *its = fake_in(of);
    if (!fake_memory()) return fake_out(of, WARM_MEMORY);
    *found = its->known > 0;
    if (*found) page->no = its->named = 1 + (its->known - 1) % (FAKE_PAGES - 1);
    return fake_out(of, WARM_OK);
}

int node_write_back_page(node *of, node_page page, bool *written) {
    fake *its = fake_in(of);
    fake_frame *frame = fake_frame_for(its, page);
    bool is_dirty = frame != NULL && frame->is_dirty && frame->page.no == page.no &&
                    frame->page.dev == page.dev;
    if (is_dirty && !fake_write(its, frame)) return fake_out(of, WARM_WRITE_FAULT);
    *written = is_dirty;
    return fake_out(of, WARM_OK);
}

int node_flush_device(node *of, uint16_t dev) {
    fake *its = fake_in(of);
    if (dev >= its->device_count) return fake_out(of, WARM_NO_DEVICE);
    for (size_t at = 0; at < its->frames; at++)
        if (its->at[at].is_dirty && its->at[at].page.dev == dev && !fake_write(its, &its->at[at]))
            return fake_out(of, WARM_WRITE_FAULT);
    return fake_out(of, fake_flush(its, dev) ? WARM_OK : WARM_WRITE_FAULT);
}

static bool fake_has_pins(const fake *its, uint16_t dev, uint64_t from) {
    for (size_t at = 0; at < its->frames; at++)
        if (its->at[at].pins > 0 && its->at[at].page.dev == dev && its->at[at].page.no >= from)
            return true;
    return false;
}

static void fake_forget(fake *its, uint16_t dev, uint64_t from) {
    for (size_t at = 0; at < its->frames; at++)
        if (its->at[at].page.dev == dev && its->at[at].page.no >= from)
            its->at[at].is_in = its->at[at].is_dirty = false;
}

int node_forget_pages(node *of, uint16_t dev, uint64_t from) {
    fake *its = fake_in(of);
    if (dev >= its->device_count) return fake_out(of, WARM_NO_DEVICE);
    if (fake_has_pins(its, dev, from)) return fake_out(of, WARM_PINNED);
    fake_forget(its, dev, from);
    return fake_out(of, WARM_OK);
}

int node_may_forget(node *of, uint16_t dev, uint64_t from) {
    fake *its = fake_in(of);
    if (dev >= its->device_count) return fake_out(of, WARM_NO_DEVICE);
    return fake_out(of, fake_has_pins(its, dev, from) ? WARM_PINNED : WARM_OK);
}

int node_may_replace(node *of, uint16_t dev, const node_device *device) {
    (void)dev, (void)device;
    fake_in(of);
    return fake_out(of, fake_memory() ? WARM_OK : WARM_MEMORY);
}

int node_replace(node *of, uint16_t dev, const node_device *device) {
    MUST(remembered == ((fake *)of->at)->device_count);
    fake *its = fake_in(of);
    bool has_memory = fake_memory(), is_pinned = fake_has_pins(its, dev, 0);
    fake_out(of, WARM_OK);
    if (!has_memory) return WARM_MEMORY;
    if (is_pinned) return WARM_PINNED;
    int status = node_flush_device(of, dev);
    if (status != WARM_OK) return status;
    fake_forget(its, dev, 0);
    its->devices[dev] = *device;
    return WARM_OK;
}

int node_counts(node *of, node_counters *counters) {
    fake *its = fake_in(of);
    *counters = (node_counters){.hits = its->hits,
        .misses = its->misses,
        .evictions = its->evictions,
        .written_back = its->writes};
    for (size_t at = 0; at < its->frames; at++) {
        counters->resident += its->at[at].is_in;
        counters->dirty += its->at[at].is_dirty;
    }
    return fake_out(of, WARM_OK);
}

/* The last device has counted as far as it goes. */
int node_device_counts(node *of, uint16_t dev, node_device_counters *counters) {
    fake *its = fake_in(of);
    if (dev >= its->device_count) return fake_out(of, WARM_NO_DEVICE);
    uint64_t many = dev == FAKE_DEVICES - 1 ? UINT64_MAX - 1 : 1;
    *counters = (node_device_counters){.reads = many, .writes = 2, .flushes = 3, .failures = many};
    return fake_out(of, WARM_OK);
}

int node_last_failure(node *of, bool *found, node_failure *failure) {
    fake *its = fake_in(of);
    *found = its->failed.what != 0;
    if (*found) *failure = its->failed;
    return fake_out(of, WARM_OK);
}

/* ---- histories and frames ---- */

/* One of the caller's, which is of another type (layouts.h): it is copied, since the fake is in one
 * unit with it. */
static node_reference fake_reference(const node_reference *references, size_t at) {
    node_reference copied;
    memcpy(&copied, &references[at], sizeof copied);
    return copied;
}

static bool fake_replicas(const node_reference *references, size_t count) {
    for (size_t at = 0; at < count; at++) {
        uint16_t replica = fake_reference(references, at).replica;
        if (replica == 0 || replica > 64) return false;
    }
    return true;
}

int node_absorb(node *of, const node_reference *references, size_t count) {
    fake *its = fake_in(of);
    if (!fake_replicas(references, count)) return fake_out(of, WARM_BAD_REPLICA);
    if (!fake_memory()) return fake_out(of, WARM_MEMORY);
    its->known += count;
    return fake_out(of, WARM_OK);
}

int node_history_length(node *of, size_t *length) {
    *length = fake_in(of)->known;
    return fake_out(of, WARM_OK);
}

static int fake_list(size_t known, node_page *pages, size_t room, size_t *count) {
    if (!fake_memory()) return WARM_MEMORY;
    *count = known < room ? known : room;
    for (size_t at = 0; at < *count; at++) {
        const node_page page = {.no = at + 1, .dev = (uint16_t)(at + 7)};
        memcpy(&pages[at], &page, sizeof page); /* so is a page of the caller's */
    }
    return WARM_OK;
}

int node_list(node *of, node_page *pages, size_t room, size_t *count) {
    return fake_out(of, fake_list(fake_in(of)->known, pages, room, count));
}

/* A dump is two bytes for each reference that is known, in two pieces. It goes to a descriptor of 0
 * or more. */
static bool fake_put_dump(int number, size_t known) {
    const uint8_t piece[2] = {'d', 'u'};
    if (number < 0 && !is_made_up(number)) return false;
    for (off_t at = 0; at < 2 * (off_t)known; at += 2) {
        if (device_write(number, piece, 2, at) != 2) return false;
    }
    return sync_once(device_synced_as(number)) == 0;
}

static int fake_save(size_t known, int number) {
    MUST(held == 0); /* nobody waits for a file */
    if (!fake_memory()) return WARM_MEMORY;
    return fake_put_dump(number, known) ? WARM_OK : WARM_DUMP_NOT_WRITTEN;
}

int node_save(node *of, int number) { return fake_out(of, fake_save(fake_in(of)->known, number)); }

/* The horizon of a dump. */
enum { FAKE_DUMPED = 2 };

/* A dump has as many references as its length says; of a device with its own calls its last byte is
 * read. */
static bool fake_get_dump(int number, uint64_t length) {
    uint8_t byte;
    if (number < 0 && !is_made_up(number)) return false;
    return !is_made_up(number) || device_read(number, &byte, 1, (off_t)length - 1) == 1;
}

static int fake_load(size_t *known, int number, uint64_t length) {
    MUST(held == 0);
    if (!fake_memory()) return WARM_MEMORY;
    if (!fake_get_dump(number, length)) return WARM_DUMP_NOT_READ;
    *known += length;
    return WARM_OK;
}

int node_load(node *of, int number, uint64_t length) {
    fake *its = fake_in(of);
    int status = fake_load(&its->known, number, length);
    if (status == WARM_OK && its->horizon < FAKE_DUMPED) its->horizon = FAKE_DUMPED;
    return fake_out(of, status);
}

static int fake_put(
    uint8_t first, uint64_t second, size_t needed, uint8_t *frame, size_t room, size_t *length) {
    if (!fake_memory()) return WARM_MEMORY;
    *length = needed;
    if (room < needed) return WARM_BUFFER_TOO_SMALL;
    memset(frame, 0, needed);
    frame[0] = first;
    frame[1] = (uint8_t)second;
    return WARM_OK;
}

/* A frame is its kind, its horizon, and of digests one byte for each bucket, of a request one byte
 * for each of buckets 0 to 7, of entries the bucket, how many there are, high byte first, and the
 * latest of their stamps. */
enum { FAKE_ENTRIES = 1, FAKE_DIGESTS = 2, FAKE_REQUEST = 3 };

/* Two frames of a bucket of which something is known, of page 1 and of page 2; an empty one of any
 * other. */
static int fake_send(
    const fake *its, uint8_t bucket, uint8_t *frame, size_t room, size_t *length) {
    bool is_empty = its->known == 0;
    int status = fake_put(
        FAKE_ENTRIES, its->horizon, is_empty ? FAKE_EMPTY : FAKE_FULL, frame, room, length);
    if (status != WARM_OK) return status;
    frame[2] = bucket;
    frame[4] = !is_empty;
    return WARM_OK;
}

int node_send_since(node *of, uint8_t bucket, uint64_t since, bool has_after, node_page after,
    uint8_t *frame, size_t room, size_t *length, size_t *entries, bool *more, node_page *last) {
    fake *its = fake_in(of);
    bool is_empty = its->known == 0;
    if (bucket > 63) return fake_out(of, WARM_BAD_BUCKET);
    MUST(since == 0 && (!has_after || after.no == 1));
    int status = fake_send(its, bucket, frame, room, length);
    if (status != WARM_OK) return fake_out(of, status);
    *entries = !is_empty;
    *more = !is_empty && !has_after;
    if (!is_empty) last->no = has_after ? 2 : 1;
    return fake_out(of, WARM_OK);
}

/* ---- visits ---- */

/* What a visit does in each shard, once it has raised all that it raises. */
typedef enum { FAKE_NOTHING, FAKE_GIVING, FAKE_OFFERING, FAKE_COPYING, FAKE_SENDING } fake_work;

typedef struct fake_visit {
    uint16_t replica;
    size_t shards;
    fake_work work;
    size_t rising, at; /* the shards that are raised and worked in next */
    uint64_t time, kept, latest;
    size_t each[64]; /* how many references the shards are given */
    size_t copied;
    uint8_t digests[64], others[64];
    uint64_t buckets; /* of which entries are to be sent; second: their second message */
    bool is_stopped, compares, requests, second;
    uint8_t message[66]; /* that waits */
    size_t length;       /* 0: none does */
    void *block;
} fake_visit;

static fake_visit *fake_visit_of(const visit *of) {
    MUST(of->is_open);
    return of->at;
}

int visit_open(visit *of, uint16_t replica, size_t shards) {
    MUST(!of->is_open && replica > 0 && replica <= 64 && shards > 0 && shards <= 64);
    fake_visit *made = malloc(sizeof(fake_visit));
    if (made == NULL) return WARM_MEMORY;
    *made = (fake_visit){.replica = replica, .shards = shards, .rising = shards};
    *of = (visit){.is_open = true, .at = made};
    return WARM_OK;
}

/* What it allocates is freed by the next one. */
static fake_visit *fake_begin(visit *of, fake_work work, void *block) {
    fake_visit *its = fake_visit_of(of);
    free(its->block);
    *its = (fake_visit){.replica = its->replica,
        .shards = its->shards,
        .rising = its->shards,
        .work = work,
        .kept = UINT64_MAX,
        .block = block};
    return its;
}

void visit_end(visit *of) { fake_begin(of, FAKE_NOTHING, NULL); }

void visit_close(visit *of) {
    if (!of->is_open) return;
    visit_end(of);
    free(of->at);
    *of = (visit){0};
}

void visit_swap(visit *of, visit *other) {
    visit its = *of;
    *of = *other;
    *other = its;
}

int visit_absorb(visit *of, const node_reference *references, size_t count) {
    if (!fake_replicas(references, count)) return WARM_BAD_REPLICA;
    void *block = malloc(1);
    if (block == NULL) return WARM_MEMORY;
    fake_visit *its = fake_begin(of, FAKE_GIVING, block);
    for (size_t at = 0; at < count; at++) {
        node_reference one = fake_reference(references, at);
        its->each[(one.dev + one.no) % its->shards]++;
    }
    return WARM_OK;
}

int visit_raise(visit *of, uint64_t time) {
    fake_visit *its = fake_begin(of, FAKE_NOTHING, NULL);
    its->rising = 0;
    its->time = time;
    return WARM_OK;
}

int visit_offer(visit *of) {
    void *block = malloc(1);
    if (block == NULL) return WARM_MEMORY;
    fake_begin(of, FAKE_OFFERING, block);
    return WARM_OK;
}

int visit_copy(visit *of) {
    void *block = malloc(1);
    if (block == NULL) return WARM_MEMORY;
    fake_begin(of, FAKE_COPYING, block);
    return WARM_OK;
}

/* Each shard has as many of its references as any other. */
int visit_load(visit *of, int number, uint64_t length) {
    size_t read = 0;
    int status = fake_load(&read, number, length);
    if (status != WARM_OK) return status;
    void *block = malloc(1);
    if (block == NULL) return WARM_MEMORY;
    fake_visit *its = fake_begin(of, FAKE_GIVING, block);
    its->rising = 0;
    its->time = FAKE_DUMPED;
    for (size_t number_of = 0; number_of < its->shards; number_of++)
        its->each[number_of] = read / its->shards;
    return WARM_OK;
}

/* Entries are one of shard 0 and, if there are two, one of shard 2, if there is that shard. */
int visit_receive(visit *of, const node_limits *limits, const uint8_t *frame, size_t length) {
    static const fake_work works[] = {FAKE_NOTHING, FAKE_GIVING, FAKE_OFFERING, FAKE_SENDING};
    if (length < 10) return WARM_TRUNCATED;
    MUST(frame[0] >= FAKE_ENTRIES && frame[0] <= FAKE_REQUEST);
    MUST(frame[0] != FAKE_DIGESTS || length >= 66);
    size_t entries = frame[0] == FAKE_ENTRIES ? (size_t)frame[3] << 8 | frame[4] : 0;
    if (frame[1] > limits->time || frame[1] > limits->horizon) return WARM_LATE_HORIZON;
    if (entries > 0 && frame[5] > limits->time) return WARM_LATE_STAMP;
    if (entries > 0 && (limits->known > limits->pages || entries > limits->pages - limits->known))
        return WARM_TOO_MANY_PAGES;
    void *block = malloc(1);
    if (block == NULL) return WARM_MEMORY;
    fake_visit *its = fake_begin(of, works[frame[0]], block);
    its->rising = 0;
    its->time = frame[1];
    its->each[0] = entries > 0;
    if (its->shards > 2) its->each[2] = entries > 1;
    its->compares = frame[0] == FAKE_DIGESTS;
    if (its->compares) memcpy(its->others, frame + 2, 64);
    for (int bucket = 0; frame[0] == FAKE_REQUEST && bucket < 8; bucket++)
        its->buckets |= (uint64_t)frame[2 + bucket] << bucket;
    return WARM_OK;
}

bool visit_next(visit *of, size_t *number) {
    fake_visit *its = fake_visit_of(of);
    if (its->is_stopped || its->length > 0) return false;
    while (its->work == FAKE_GIVING && its->at < its->shards && its->each[its->at] == 0) its->at++;
    bool is_left = its->work == FAKE_SENDING ? its->buckets != 0
                                             : its->work != FAKE_NOTHING && its->at < its->shards;
    if (its->rising < its->shards)
        *number = its->rising;
    else if (is_left)
        *number = its->work == FAKE_SENDING ? __builtin_ctzll(its->buckets) % its->shards : its->at;
    return its->rising < its->shards || is_left;
}

static void fake_raise(fake_visit *its, fake *in) {
    if (in->horizon < its->time) in->horizon = its->time;
    if (in->horizon < its->kept) its->kept = in->horizon;
    its->rising++;
}

static void fake_offer(fake_visit *its, const fake *in) {
    for (size_t bucket = its->at; bucket < 64; bucket += its->shards)
        its->digests[bucket] = in->known > 0;
    if (in->horizon > its->latest) its->latest = in->horizon;
    if (++its->at < its->shards || !its->compares) return;
    for (int bucket = 0; bucket < 64; bucket++)
        its->buckets |= (uint64_t)(its->digests[bucket] != its->others[bucket]) << bucket;
    its->requests = its->buckets != 0;
    for (int bucket = 0; bucket < 8; bucket++) its->others[bucket] = its->buckets >> bucket & 1;
    its->work = FAKE_SENDING;
}

static void fake_send_next(fake_visit *its, const fake *in) {
    uint8_t bucket = (uint8_t)__builtin_ctzll(its->buckets);
    if (in->known > 0) {
        its->is_stopped =
            fake_send(in, bucket, its->message, sizeof its->message, &its->length) != WARM_OK;
        if (its->is_stopped) return;
        its->second = !its->second;
    }
    if (!its->second) its->buckets &= its->buckets - 1;
}

/* The copy has a block from the first shard on. */
static void fake_copy(fake_visit *its, const fake *in) {
    if (its->block == NULL) its->block = malloc(1);
    its->is_stopped = its->block == NULL;
    if (its->is_stopped) return;
    its->at++;
    its->copied += in->known;
}

static void fake_work_in(fake_visit *its, fake *in) {
    if (its->work == FAKE_GIVING) in->known += its->each[its->at++];
    if (its->work == FAKE_COPYING) fake_copy(its, in);
    if (its->work == FAKE_SENDING)
        fake_send_next(its, in);
    else if (its->work == FAKE_OFFERING)
        fake_offer(its, in);
}

void visit_enter(visit *of, node *into) {
    fake_visit *its = fake_visit_of(of);
    fake *in = fake_in(into);
    if (its->rising < its->shards)
        fake_raise(its, in);
    else if (fake_memory())
        fake_work_in(its, in);
    else
        its->is_stopped = true;
    fake_out(into, WARM_OK);
}

int visit_status(visit *of) {
    fake_visit *its = fake_visit_of(of);
    bool was_stopped = its->is_stopped;
    its->is_stopped = false;
    return was_stopped ? WARM_MEMORY : WARM_OK;
}

int visit_kept(visit *of, uint64_t *horizon) {
    *horizon = fake_visit_of(of)->kept;
    return WARM_OK;
}

/* What waits; of a visit that only offers, the offer; or the request, once. */
int visit_message(visit *of, uint8_t *frame, size_t room, size_t *length) {
    fake_visit *its = fake_visit_of(of);
    int status = WARM_OK;
    if (its->work == FAKE_OFFERING) {
        status = fake_put(FAKE_DIGESTS, its->latest, 66, frame, room, length);
        if (status == WARM_OK) memcpy(frame + 2, its->digests, 64);
    } else if (its->length > 0) {
        status = fake_put(FAKE_ENTRIES, 0, its->length, frame, room, length);
        if (status == WARM_OK) memcpy(frame, its->message, its->length);
        if (status == WARM_OK) its->length = 0;
    } else if (its->requests) {
        status = fake_put(FAKE_REQUEST, its->latest, 10, frame, room, length);
        if (status == WARM_OK) memcpy(frame + 2, its->others, 8);
        its->requests = status != WARM_OK;
    } else {
        *length = 0;
    }
    return status;
}

int visit_list(visit *of, node_page *pages, size_t room, size_t *count) {
    const fake_visit *its = fake_visit_of(of);
    return its->work == FAKE_COPYING ? fake_list(its->copied, pages, room, count) : WARM_CLOSED;
}

int visit_save(visit *of, int number) {
    const fake_visit *its = fake_visit_of(of);
    return its->work == FAKE_COPYING ? fake_save(its->copied, number) : WARM_CLOSED;
}

#endif

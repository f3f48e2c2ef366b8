/*
 * write_back.c: the calls of include/warm.h that write pages back, flush and replace devices, and
 * make pages leave. Each makes calls of the proved part (nodes.h), in one shard at a time, or in
 * all. Nothing here is proved; c/check tests it.
 */
#define _POSIX_C_SOURCE 200809L /* pthread_mutex_t */
#include "fd_calls.h"
#include "shards.h"
#include "sync_once.h"

#include <errno.h>
#include <string.h>

/* ---- dirty pages of a shard ---- */

/* Which pages are to be written: of this device, or of all if it is ALL; how many at most; and how
 * many were, and what the call is refused with. A walk may pass pages that another call writes, for
 * which it would wait; another one means the frames alone that had these. */
enum { ALL = -1 };

typedef struct walk {
    int dev;
    size_t limit, written;
    enum { MEANS_ALL, PASSES, MEANS_PASSED } means;
    bool has_passed;
    int status;
} walk;

static void set_bit(uint8_t *bits, size_t at) { bits[at / 8] |= (uint8_t)(1 << at % 8); }

/* The call is refused with its first failure; with a page that was skipped, only if nothing has
 * failed. If a write has failed, its device is not synced by this call: the descriptor may be
 * another file's by now, or none, and a sync that fails is remembered. A page that was skipped says
 * nothing of the descriptor. */
static void add_unwritten(opened *its, node_page page, int error, int *all) {
    bool is_skip = error == EAGAIN;
    count_failure(its, *all);
    if (!is_skip) set_bit(its->unwritten, page.dev);
    if (*all == WARM_WRITE_FAULT || (is_skip && *all == WARM_SKIPPED)) return;
    note_failure(its, page, WARM_FAILED_WRITE, error);
    *all = is_skip ? WARM_SKIPPED : WARM_WRITE_FAULT;
}

static bool has_bit(const uint8_t *bits, size_t at) { return (bits[at / 8] >> at % 8 & 1) != 0; }

/* What a call is refused with, at its end. */
static int status_of(opened *its, const walk *of) {
    if (of->status != WARM_OK) memset(its->unwritten, 0, bytes_of_devices(its->of));
    return of->status;
}

/* Returns 0 or an errno. */
static int write_by_node(shard *in, node_page page) {
    node_failure failed = {0};
    bool is_so;
    if (node_write_back_page(&in->node, page, &is_so) == WARM_OK) return 0;
    node_last_failure(&in->node, &is_so, &failed);
    return failed.error != 0 ? failed.error : EIO;
}

/* Writes a page that is dirty, and that others may change and write meanwhile, as often as they
 * like. What is owed is a write that has copied the page since the call began:
 *  - A write that is under way may have copied it before. If the page is dirty after that write, as
 *    it failed, or the page was changed, it is written here.
 *  - Unless another call was first: that write has begun since, so what comes of it is what comes
 *    of this call, and the page may be dirty after it. No third one is waited for.
 * A page that has left its frame meanwhile was written to leave. */
static void write_page(opened *its, shard *in, node_page page, bool is_locked, walk *of) {
    bool is_dirty = true;
    int error = 0;
    if (wait_for_write(in, page, &error)) node_dirty(&in->node, page, &is_dirty);
    if (!is_dirty) return;
    bool is_by_other = wait_for_write(in, page, &error);
    if (!is_by_other && (!is_locked || !write_outside(its, in, page, &error)))
        error = write_by_node(in, page);
    if (error != 0) add_unwritten(its, page, error, &of->status);
    else if (!is_by_other) of->written++;
}

/* The first dirty page in this frame or behind it, and its frame. */
static bool next_dirty(shard *in, size_t *frame, node_page *page) {
    bool found = false;
    node_next_dirty(&in->node, *frame, &found, frame, page);
    return found;
}

/* Whether the page in a frame is to be written, or to be waited for. */
static bool is_meant_by(opened *its, walk *of, const shard *in, size_t frame, node_page page) {
    if (of->dev != ALL && of->dev != page.dev) return false;
    if (of->means == MEANS_PASSED) return has_bit(its->passed, frame);
    if (of->means == MEANS_ALL || write_of_page(in, page) == NULL) return true;
    set_bit(its->passed, frame);
    of->has_passed = true;
    return false;
}

/* Looks at one frame after another, from this one until the end, and leaves the shard while a page
 * is written: so a page that is dirty at the call is written, by this call or another one, as it
 * keeps its frame until then. One that cannot be written keeps back no other. Returns the frame to
 * go on with. */
static size_t write_between(
    opened *its, shard *in, bool is_locked, walk *of, size_t frame, size_t end) {
    node_page page;
    while (of->written < of->limit && next_dirty(in, &frame, &page) && frame < end) {
        if (is_meant_by(its, of, in, frame, page)) write_page(its, in, page, is_locked, of);
        frame++;
    }
    return frame;
}

/* Returns how many pages of a shard are dirty. The node has counted them. */
static size_t dirty_in(shard *in) {
    node_counters counted = {0};
    node_counts(&in->node, &counted);
    return counted.dirty;
}

/* ---- portions, and one page ---- */

/* The pages that were passed, which another call may still write, or have written before they were
 * changed. A page that has left its frame meanwhile was written to leave. */
static void write_passed(opened *its, shard *in, bool is_locked, walk *of) {
    of->means = MEANS_PASSED;
    write_between(its, in, is_locked, of, 0, SIZE_MAX);
    memset(its->passed, 0, bytes_of_frames(its->of));
}

/* Begins behind where the last portion of the shard ended, and goes on from the first frame: so no
 * page waits for ever behind those that are changed again, or cannot be written. Pages that another
 * call writes are waited for in the end, if there are not enough others: else a portion would wait
 * for each page of a write-back of all. No page that has failed is tried again. */
static void write_from_hand(opened *its, shard *in, bool is_locked, walk *of) {
    size_t first = in->hand;
    of->means = PASSES;
    of->has_passed = false;
    in->hand = write_between(its, in, is_locked, of, first, SIZE_MAX);
    if (of->written < of->limit) in->hand = write_between(its, in, is_locked, of, 0, first);
    if (of->has_passed) write_passed(its, in, is_locked, of);
}

/* Writes a portion of what waits in a shard, and returns how many pages are left. */
static size_t write_portion(opened *its, shard *in, walk *of) {
    size_t left = 0;
    bool is_locked = enter(its, in);
    if (in->may_be_dirty) {
        write_from_hand(its, in, is_locked, of);
        left = dirty_in(in);
        in->may_be_dirty = left > 0;
    }
    leave(in, is_locked);
    return left;
}

/* Each shard behind that of the last portion has its turn, even if one before it is refused. */
int warm_write_back_some(warm *handle, size_t limit, size_t *left) {
    opened *its = handle->at;
    size_t all = 0;
    walk of = {.dev = ALL, .limit = limit};
    if (its == NULL) return WARM_CLOSED;
    size_t first = atomic_load(&its->of->hand), hand = first;
    for (size_t asked = 0; asked < its->count; asked++) {
        size_t number = (first + asked) % its->count;
        if (of.written < limit) hand = number + 1;
        all += write_portion(its, &its->shards[number], &of);
    }
    atomic_store(&its->of->hand, hand % its->count);
    if (of.status == WARM_OK) *left = all;
    return status_of(its, &of);
}

int warm_write_back_page(warm *handle, warm_page page, bool *written) {
    opened *its = handle->at;
    node_page its_page = page_in(page);
    bool is_dirty = false;
    walk of = {0};
    if (its == NULL) return WARM_CLOSED;
    shard *in = shard_of(its, its_page);
    bool is_locked = enter(its, in);
    node_dirty(&in->node, its_page, &is_dirty);
    if (is_dirty) write_page(its, in, its_page, is_locked, &of);
    leave(in, is_locked);
    if (of.status == WARM_OK) *written = of.written > 0;
    return status_of(its, &of);
}

/* All nodes are asked: what was not known to be dirty would be lost. */
size_t dirty_pages(opened *its) {
    size_t all = 0;
    for (size_t number = 0; number < its->count; number++) {
        shard *in = &its->shards[number];
        bool is_locked = enter(its, in);
        all += dirty_in(in);
        leave(in, is_locked);
    }
    return all;
}

/* ---- all pages, or those of a device ---- */

/* Writes what waits in a shard. A page may have become dirty behind the walk's back. */
static void write_shard(opened *its, shard *in, walk *of) {
    bool is_locked = enter(its, in);
    if (in->may_be_dirty) write_between(its, in, is_locked, of, 0, SIZE_MAX);
    if (in->may_be_dirty && of->dev == ALL) in->may_be_dirty = dirty_in(in) > 0;
    leave(in, is_locked);
}

/* Syncs what was taken, if it was, and counts that, even if it is refused because a sync failed
 * before. A failure is noted: in place of a page that was skipped, too. */
static void sync_and_count(opened *its, uint16_t dev, sync_use *taken, int *all) {
    known_device *known = &its->of->known[dev];
    bool is_made;
    if (taken == NULL) return;
    int error = sync_taken(taken, &is_made) == 0 ? 0 : errno;
    if (is_made || error != 0) atomic_fetch_add(&known->flushes, 1);
    if (error == 0) return;
    atomic_fetch_add(&known->failures, 1);
    count_failure(its, *all);
    if (*all == WARM_WRITE_FAULT) return;
    *all = WARM_WRITE_FAULT;
    note_failure(its, (node_page){.dev = dev}, WARM_FAILED_FLUSH, error);
}

/* Syncs a device that is to be synced, with no shard entered. A thread that replaces the device
 * meanwhile has synced it before. */
static void sync_device(opened *its, uint16_t dev, int *all) {
    shard *in = &its->shards[0];
    if (has_bit(its->unwritten, dev)) return;
    bool is_locked = enter(its, in);
    sync_use *taken = sync_take(its->of->known[dev].synced_as);
    leave(in, is_locked);
    sync_and_count(its, dev, taken, all);
}

int sync_devices(opened *its) {
    int status = WARM_OK;
    for (size_t dev = 0; dev < its->of->device_count; dev++)
        sync_device(its, (uint16_t)dev, &status);
    return status;
}

/* All pages are written before the first sync, so that a file that all shards have written to is
 * synced once. */
int warm_write_back_all(warm *handle) {
    opened *its = handle->at;
    walk of = {.dev = ALL, .limit = SIZE_MAX};
    if (its == NULL) return WARM_CLOSED;
    for (size_t number = 0; number < its->count; number++)
        write_shard(its, &its->shards[number], &of);
    for (size_t dev = 0; dev < its->of->device_count; dev++)
        sync_device(its, (uint16_t)dev, &of.status);
    return status_of(its, &of);
}

int warm_flush_device(warm *handle, uint16_t dev) {
    opened *its = handle->at;
    walk of = {.dev = dev, .limit = SIZE_MAX};
    if (its == NULL) return WARM_CLOSED;
    if (dev >= its->of->device_count) return WARM_NO_DEVICE;
    for (size_t number = 0; number < its->count; number++)
        write_shard(its, &its->shards[number], &of);
    sync_device(its, dev, &of.status);
    return status_of(its, &of);
}

/* ---- pages of a device that leave ---- */

/* Returns whether the shards were locked, which is decided once for all of them. */
static bool enter_all(opened *its) {
    if (open_handles(its->of) == 1) return false;
    for (size_t number = 0; number < its->count; number++)
        pthread_mutex_lock(&its->shards[number].lock);
    return true;
}

static void leave_all(opened *its, bool are_locked) {
    for (size_t number = its->count; number-- > 0;) leave(&its->shards[number], are_locked);
}

/* The same, if no page of a device is being written, with this number and above: else waits for
 * that, with the shards left. Meanwhile none begins to be. */
static bool enter_all_unwritten(opened *its, uint16_t dev, uint64_t from) {
    bool are_locked = enter_all(its), is_any = false;
    for (size_t number = 0; number < its->count; number++)
        is_any = is_any || are_written(&its->shards[number], dev, from);
    if (!is_any) return are_locked;
    for (size_t number = 0; number < its->count; number++) its->shards[number].leaving++;
    leave_all(its, are_locked);
    for (size_t number = 0; number < its->count; number++) {
        shard *in = &its->shards[number];
        bool is_locked = enter(its, in);
        wait_for_writes(in, dev, from);
        leave(in, is_locked);
    }
    are_locked = enter_all(its);
    for (size_t number = 0; number < its->count; number++) its->shards[number].leaving--;
    return are_locked;
}

/* Whether no shard would be refused to forget these pages, or why one is. All shards are entered.
 */
static int may_all_forget(opened *its, uint16_t dev, uint64_t from) {
    int status = WARM_OK;
    for (size_t number = 0; number < its->count && status == WARM_OK; number++) {
        status = node_may_forget(&its->shards[number].node, dev, from);
    }
    for (size_t number = 0; number < its->count && status == WARM_OK; number++) {
        if (!may_leave(its, &its->shards[number], dev, from)) status = WARM_PINNED;
    }
    return status;
}

/* All shards are asked before the first one forgets: after that none is refused. */
int warm_forget_pages(warm *handle, uint16_t dev, uint64_t from) {
    opened *its = handle->at;
    if (its == NULL) return WARM_CLOSED;
    bool are_locked = enter_all_unwritten(its, dev, from);
    int status = may_all_forget(its, dev, from);
    uint64_t step = ++its->of->steps;
    for (size_t number = 0; number < its->count && status == WARM_OK; number++) {
        shard *in = &its->shards[number];
        status = node_forget_pages(&in->node, dev, from);
        make_stale(in, dev, from, step);
        note_left(in);
    }
    leave_all(its, are_locked);
    if (status == WARM_OK) wait_for_stale(its, dev, step);
    return status;
}

/* ---- a device in place of another ---- */

/* What came of a call of the node's. A flush of its that failed is counted here as others are:
 * if it did not, the device is replaced, and its counts begin again. */
static int noted_and_counted(opened *its, shard *in, uint16_t dev, int status) {
    noted(its, in, status);
    if (status == WARM_WRITE_FAULT) count_failure(its, WARM_OK);
    bool is_flush = status == WARM_WRITE_FAULT && its->failure.what == WARM_FAILED_FLUSH;
    if (is_flush) atomic_fetch_add(&its->of->known[dev].flushes, 1);
    return status;
}

/* What may refuse a shard to replace a device, and is not memory, is met before the first one does:
 * a file that another device has, a pinned page, a write or a flush that fails, also one that
 * failed before or that a call has left for later. All shards are entered. */
static int settle_in_all(opened *its, uint16_t dev, const node_device *device) {
    int status = node_may_replace(&its->shards[0].node, dev, device);
    if (status == WARM_OK) status = may_all_forget(its, dev, 0);
    bool before = sync_later(true); /* one sync for all shards */
    for (size_t number = 0; number < its->count && status == WARM_OK; number++) {
        shard *in = &its->shards[number];
        status = noted_and_counted(its, in, dev, node_flush_device(&in->node, dev));
    }
    sync_later(before);
    if (status == WARM_OK)
        sync_and_count(its, dev, sync_take(its->of->known[dev].synced_as), &status);
    return status;
}

/* Gives the first shards the device again that the replica has. */
static void put_back(opened *its, uint16_t dev, size_t count) {
    for (size_t number = 0; number < count; number++) {
        node_replace(&its->shards[number].node, dev, &its->of->devices[dev]);
    }
}

/* Whether a node alone answers as all of them do that are settled first: there is one, which knows
 * all that may refuse it. */
static bool is_for_node(opened *its, uint16_t dev) {
    return its->count == 1 && sync_is_settled(its->of->known[dev].synced_as) &&
           may_leave(its, its->shards, dev, 0);
}

/* Replaces the device in each shard, or goes back. All shards are entered. */
static int replace_in_all(opened *its, uint16_t dev, const node_device *device) {
    int status = is_for_node(its, dev) ? WARM_OK : settle_in_all(its, dev, device);
    for (size_t number = 0; number < its->count && status == WARM_OK; number++) {
        shard *in = &its->shards[number];
        status = noted_and_counted(its, in, dev, node_replace(&in->node, dev, device));
        if (status != WARM_OK) put_back(its, dev, number);
    }
    return status;
}

static void begin_counts(known_device *known) {
    known->replaced++;
    atomic_store(&known->reads, 0);
    atomic_store(&known->writes, 0);
    atomic_store(&known->flushes, 0);
    atomic_store(&known->failures, 0);
}

/* Replaces a device that is numbered and whose syncs are counted; writes what is let go. */
static int replace_entered(
    opened *its, uint16_t dev, node_device *device, int *synced_as, uint64_t step) {
    node_device *place = &its->of->devices[dev], before = *place;
    known_device *known = &its->of->known[dev];
    int status = replace_in_all(its, dev, device);
    for (size_t number = 0; number < its->count; number++) {
        if (status == WARM_OK) make_stale(&its->shards[number], dev, 0, step);
        note_left(&its->shards[number]);
    }
    if (status != WARM_OK) return status;
    int was_synced_as = known->synced_as;
    *place = *device;
    known->synced_as = *synced_as;
    begin_counts(known);
    *device = before;
    *synced_as = was_synced_as;
    return WARM_OK;
}

static int replace_numbered(opened *its, uint16_t dev, node_device *device) {
    int synced_as = device_synced_as(device->number);
    if (!sync_add(synced_as)) return WARM_MEMORY;
    bool are_locked = enter_all_unwritten(its, dev, 0);
    fd_calls_remember(its->of->device_count);
    uint64_t step = ++its->of->steps;
    int status = replace_entered(its, dev, device, &synced_as, step);
    fd_calls_forget();
    leave_all(its, are_locked);
    if (status == WARM_OK) wait_for_stale(its, dev, step); /* reads of what is let go */
    sync_drop(synced_as);
    return status;
}

int warm_replace(warm *handle, uint16_t dev, const warm_device *device) {
    opened *its = handle->at;
    node_device let_go = {.pages = device->pages};
    if (its == NULL) return WARM_CLOSED;
    if (dev >= its->of->device_count) return WARM_NO_DEVICE;
    int status = may_be_device(device, its->of->page_size);
    if (status != WARM_OK) return status;
    if (!device_add(device, its->of->page_size, &let_go.number)) return WARM_MEMORY;
    status = replace_numbered(its, dev, &let_go);
    device_drop(let_go.number);
    return status;
}

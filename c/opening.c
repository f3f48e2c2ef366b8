/*
 * opening.c: handles of include/warm.h: what opens, attaches, closes and abandons them. Nothing
 * here is proved; c/check tests it.
 */
#define _POSIX_C_SOURCE 200809L /* pthread_mutex_t */
#include "fd_calls.h"
#include "heap.h"
#include "layouts.h"
#include "sync_once.h"

#include <stdlib.h>

/* ---- options ---- */

/* What the options mean: the defaults stand in place of zeros. */
enum { DEFAULT_FRAMES = 1024, DEFAULT_PAGE_SIZE = 4096 };

static warm_options with_defaults(const warm_options *options) {
    warm_options its = *options;
    if (its.shards == 0) its.shards = 1;
    if (its.frames == 0) its.frames = its.device_count == 0 ? its.shards : DEFAULT_FRAMES;
    if (its.page_size == 0) its.page_size = DEFAULT_PAGE_SIZE;
    return its;
}

static bool are_options(const warm_options *options) {
    return options->size == sizeof(warm_options) && options->flags == 0;
}

static int are_numbers(const warm_options *its) {
    if (its->shards > WARM_MAX_SHARDS || (its->shards & (its->shards - 1)) != 0)
        return WARM_BAD_SHARDS;
    if (its->frames % its->shards != 0) return WARM_UNEVEN_FRAMES;
    if (its->replica < 1 || its->replica > WARM_REPLICAS) return WARM_BAD_REPLICA;
    if (its->frames / its->shards > WARM_MAX_FRAMES) return WARM_BAD_FRAMES;
    return its->page_size > WARM_MAX_PAGE_SIZE ? WARM_BAD_PAGE_SIZE : WARM_OK;
}

static bool fits(const warm_device *device, size_t page_size) {
    return device->pages <= INT64_MAX / page_size && device_is_good(device);
}

int may_be_device(const warm_device *device, size_t page_size) {
    if (!fits(device, page_size)) return WARM_BAD_DEVICE;
    return device_appends(device) ? WARM_APPENDS : WARM_OK;
}

/* What is refused of any device comes before what costs a call of the system for each. */
static int are_devices(const warm_options *its) {
    if (its->device_count > WARM_MAX_DEVICES) return WARM_BAD_DEVICE;
    for (size_t dev = 0; dev < its->device_count; dev++) {
        if (!fits(&its->devices[dev], its->page_size)) return WARM_BAD_DEVICE;
    }
    for (size_t dev = 0; dev < its->device_count; dev++) {
        if (device_appends(&its->devices[dev])) return WARM_APPENDS;
    }
    return WARM_OK;
}

/* ---- replicas ---- */

static void destroy_locks(replica *of, size_t count) {
    for (size_t number = 0; number < count; number++) {
        pthread_cond_destroy(&of->shards[number].call_over);
        pthread_mutex_destroy(&of->shards[number].lock);
    }
}

/* By a clock that nobody sets. */
static bool make_condition(pthread_cond_t *made) {
    pthread_condattr_t kind;
    if (pthread_condattr_init(&kind) != 0) return false;
    bool is_made = pthread_condattr_setclock(&kind, CLOCK_MONOTONIC) == 0 &&
                   pthread_cond_init(made, &kind) == 0;
    pthread_condattr_destroy(&kind);
    return is_made;
}

static bool make_lock(shard *of) {
    if (pthread_mutex_init(&of->lock, NULL) != 0) return false;
    if (make_condition(&of->call_over)) return true;
    pthread_mutex_destroy(&of->lock);
    return false;
}

/* Whether all locks were made; if one was not, none is left. */
static bool make_locks(replica *of) {
    for (size_t number = 0; number < of->count; number++) {
        if (make_lock(&of->shards[number])) continue;
        destroy_locks(of, number);
        return false;
    }
    return true;
}

/* A replica whose nodes are closed, or NULL. */
static replica *new_replica(const warm_options *its) {
    void *block;
    replica *made = in_lines(sizeof(replica) + its->shards * sizeof(shard), &block);
    if (made == NULL) return NULL;
    made->number = (uint16_t)its->replica;
    made->count = its->shards;
    made->frames = its->frames;
    made->page_size = its->page_size;
    made->block = block;
    atomic_init(&made->handles, 1);
    atomic_init(&made->limit, UINT64_MAX);
    atomic_init(&made->horizon_limit, UINT64_MAX);
    atomic_init(&made->page_limit, SIZE_MAX);
    uint32_t wanting = nobody_wants();
    for (size_t number = 0; number < made->count; number++)
        atomic_init(&made->shards[number].table.wanting, wanting);
    if (make_locks(made)) return made;
    free(block);
    return NULL;
}

/* Also one that was opened in part. A node that is closed flushes what waits for it, and what a
 * call has left for later is synced: the devices are let go after that. */
static void end_replica(replica *of) {
    for (size_t number = 0; number < of->count; number++) node_close(&of->shards[number].node);
    for (size_t dev = 0; dev < of->synced_count; dev++) {
        sync_once(of->known[dev].synced_as);
        sync_drop(of->known[dev].synced_as);
    }
    for (size_t dev = 0; dev < of->device_count; dev++) device_drop(of->devices[dev].number);
    for (size_t number = 0; number < of->count; number++) close_table(&of->shards[number].table);
    free_holds(of);
    destroy_locks(of, of->count);
    free(of->devices);
    free(of->block);
}

/* Gives the devices numbers. */
static int number_devices(replica *of, const warm_options *its) {
    size_t count = its->device_count;
    if (count == 0) return WARM_OK;
    of->devices = malloc(count * (sizeof(node_device) + sizeof(known_device)));
    if (of->devices == NULL) return WARM_MEMORY;
    of->known = memset(of->devices + count, 0, count * sizeof(known_device));
    for (size_t dev = 0; dev < count; dev++) {
        node_device *to = &of->devices[dev];
        to->pages = its->devices[dev].pages;
        if (!device_add(&its->devices[dev], its->page_size, &to->number)) return WARM_MEMORY;
        of->device_count++;
        of->known[dev].synced_as = device_synced_as(to->number);
    }
    return WARM_OK;
}

/* Counts the syncs of devices, which the nodes have accepted. */
static int count_syncs(replica *of) {
    for (; of->synced_count < of->device_count; of->synced_count++) {
        if (!sync_add(of->known[of->synced_count].synced_as)) return WARM_MEMORY;
    }
    return WARM_OK;
}

static int open_nodes(replica *of) {
    const node_device none = {0}, *devices = of->device_count > 0 ? of->devices : &none;
    size_t frames = of->frames / of->count;
    int status = WARM_OK;
    for (size_t number = 0; status == WARM_OK && number < of->count; number++) {
        shard *in = &of->shards[number];
        status = node_open(&in->node, of->number, frames, of->page_size, devices, of->device_count);
        if (status == WARM_OK && !open_table(&in->table, frames)) status = WARM_MEMORY;
    }
    return status;
}

static int open_replica(replica *of, const warm_options *its) {
    int status = number_devices(of, its);
    if (status != WARM_OK) return status;
    if (of->count > 1) fd_calls_remember(of->device_count);
    status = open_nodes(of);
    fd_calls_forget();
    return status == WARM_OK ? count_syncs(of) : status;
}

/* ---- handles ---- */

/* A page is read into a buffer, or written from one, also with O_DIRECT. */
static bool take_buffer(const opened *its, uint8_t **buffer) {
    tried taken = rattle_alloc(its->of->page_size, 1);
    if (taken.ok) *buffer = taken.p;
    return taken.ok;
}

static bool take_buffers(opened *its) {
    return take_buffer(its, &its->buffer) && take_buffer(its, &its->copy);
}

/* Of the replica's shards: for the calls of the whole, and for answers that wait. */
static bool open_visits(opened *its) {
    return visit_open(&its->calls, its->of->number, its->count) == WARM_OK &&
           visit_open(&its->answers, its->of->number, its->count) == WARM_OK;
}

static void free_opened(opened *its) {
    visit_close(&its->calls);
    visit_close(&its->answers);
    if (its->buffer != NULL) rattle_dealloc(its->buffer);
    if (its->copy != NULL) rattle_dealloc(its->copy);
    free(its->block);
}

/* A handle of the replica, or NULL. */
static opened *new_opened(replica *of) {
    void *block;
    size_t bits = bytes_of_devices(of) + bytes_of_frames(of);
    opened *made = in_lines(sizeof(opened) + bits, &block);
    if (made == NULL) return NULL;
    made->of = of;
    made->shards = of->shards;
    made->count = of->count;
    made->longest_wait = UINT64_MAX;
    made->block = block;
    made->passed = made->unwritten + bytes_of_devices(of);
    if (take_buffers(made) && open_visits(made) && take_holds(made)) return made;
    free_opened(made);
    return NULL;
}

int warm_open(warm *handle, const warm_options *options) {
    if (handle->at != NULL) return WARM_ALREADY_OPEN;
    if (!are_options(options)) return WARM_BAD_OPTIONS;
    warm_options its = with_defaults(options);
    int status = are_numbers(&its);
    if (status == WARM_OK) status = are_devices(&its);
    if (status != WARM_OK) return status;
    replica *made = new_replica(&its);
    if (made == NULL) return WARM_MEMORY;
    status = open_replica(made, &its);
    opened *first = status == WARM_OK ? new_opened(made) : NULL;
    if (first == NULL) {
        end_replica(made);
        return status != WARM_OK ? status : WARM_MEMORY;
    }
    first->is_first = true;
    handle->at = first;
    return WARM_OK;
}

int warm_attach(warm *handle, warm *attached) {
    opened *its = handle->at;
    if (its == NULL) return WARM_CLOSED;
    if (attached->at != NULL) return WARM_ALREADY_OPEN;
    attached->at = new_opened(its->of);
    if (attached->at == NULL) return WARM_MEMORY;
    atomic_fetch_add_explicit(&its->of->handles, 1, memory_order_acq_rel);
    return WARM_OK;
}

int warm_limit_waits(warm *handle, uint64_t milliseconds) {
    opened *its = handle->at;
    if (its == NULL) return WARM_CLOSED;
    its->longest_wait = milliseconds;
    return WARM_OK;
}

int warm_settings(warm *handle, warm_options *options) {
    opened *its = handle->at;
    if (its == NULL) return WARM_CLOSED;
    if (options->size != sizeof(warm_options)) return WARM_BAD_OPTIONS;
    const replica *of = its->of;
    *options = (warm_options){.size = sizeof(warm_options),
        .replica = of->number,
        .shards = of->count,
        .frames = of->frames,
        .page_size = of->page_size,
        .device_count = of->device_count};
    return WARM_OK;
}

/* The last touch of an attached handle's replica is that it counts itself out. */
static void end_handle(warm *handle) {
    opened *its = handle->at;
    if (its->is_first) {
        end_replica(its->of);
    } else {
        give_holds(its);
        atomic_fetch_sub_explicit(&its->of->handles, 1, memory_order_acq_rel);
    }
    free_opened(its);
    handle->at = NULL;
}

static bool is_attached_to(const opened *its) { return its->is_first && open_handles(its->of) > 1; }

/* Whether nothing is lost with the handle, or what would be. */
static int may_close(opened *its) {
    if (is_attached_to(its)) return WARM_ATTACHED;
    if (its->pins > 0 || its->used != 0) return WARM_PINS_LEFT;
    if (!its->is_first) return WARM_OK;
    return dirty_pages(its) > 0 ? WARM_DIRTY : sync_devices(its);
}

int warm_close(warm *handle) {
    opened *its = handle->at;
    if (its == NULL) return WARM_OK;
    int status = may_close(its);
    if (status == WARM_OK) end_handle(handle);
    return status;
}

int warm_abandon(warm *handle) {
    opened *its = handle->at;
    if (its == NULL) return WARM_OK;
    if (is_attached_to(its)) return WARM_ATTACHED;
    let_go_of_holds(its);
    let_go_of_pins(its);
    end_handle(handle);
    return WARM_OK;
}

/*
 * whole_calls.c: the calls of include/warm.h on a whole replica: its history, its messages, its
 * devices and what it has counted. A call of the whole history is a visit, but for those that
 * nodes.h names, which are calls of nodes. A visit, which is proved, decides what is done in which
 * shard: here it is let into one shard after the other. What is counted is added up here. Nothing
 * here is proved; c/check tests it.
 */
#define _POSIX_C_SOURCE 200809L /* pthread_mutex_t */
#include "shards.h"

/* Lets a visit into the shards that it wants, one after the other, and returns what came of it. */
static int go_through(opened *its, visit *of) {
    size_t number;
    while (visit_next(of, &number)) {
        shard *in = &its->shards[number];
        bool is_locked = enter(its, in);
        visit_enter(of, &in->node);
        leave(in, is_locked);
    }
    return visit_status(of);
}

/* Makes the call whose visit was begun, unless that was refused. */
static int visit_shards(opened *its, int begun) {
    return begun == WARM_OK ? go_through(its, &its->calls) : begun;
}

/* Ends it. */
static int end_visit(opened *its, int status) {
    visit_end(&its->calls);
    return status;
}

/* ---- history ---- */

/* A reference of the caller's is one of the proved part (layouts.h), which alone reads it as that:
 * a compiler may take what is written as one type and read as another for two objects. */
static const node_reference *references_in(const warm_reference *references) {
    return (const node_reference *)references;
}

/* References of one shard, that of the first of them, are a call of its node, as a pin is. */
static int absorb_in_one(opened *its, const warm_reference *references, size_t count) {
    shard *in = shard_of(its, (node_page){.no = references->no, .dev = references->dev});
    bool is_locked = enter(its, in);
    int status = node_absorb(&in->node, references_in(references), count);
    leave(in, is_locked);
    return status;
}

static int absorb_in_all(opened *its, const warm_reference *references, size_t count) {
    int begun = visit_absorb(&its->calls, references_in(references), count);
    return end_visit(its, visit_shards(its, begun));
}

/* An empty batch needs no memory. */
int warm_absorb(warm *handle, const warm_reference *references, size_t count) {
    opened *its = handle->at;
    if (its == NULL) return WARM_CLOSED;
    if (count == 0) return WARM_OK;
    return count == 1 || its->count == 1 ? absorb_in_one(its, references, count)
                                         : absorb_in_all(its, references, count);
}

int warm_raise(warm *handle, uint64_t time, uint64_t *horizon) {
    opened *its = handle->at;
    if (its == NULL) return WARM_CLOSED;
    int status = visit_shards(its, visit_raise(&its->calls, time));
    if (status == WARM_OK) status = visit_kept(&its->calls, horizon);
    return end_visit(its, status);
}

int warm_history_length(warm *handle, size_t *length) {
    opened *its = handle->at;
    size_t all = 0;
    if (its == NULL) return WARM_CLOSED;
    for (size_t number = 0; number < its->count; number++) {
        size_t part = 0;
        shard *in = &its->shards[number];
        bool is_locked = enter(its, in);
        node_history_length(&in->node, &part);
        leave(in, is_locked);
        all += part;
    }
    *length = all;
    return WARM_OK;
}

static int list_one(opened *its, shard *in, node_page *pages, size_t room, size_t *count) {
    bool is_locked = enter(its, in);
    int status = node_list(&in->node, pages, room, count);
    leave(in, is_locked);
    return status;
}

static int list_all(opened *its, node_page *pages, size_t room, size_t *count) {
    int status = visit_shards(its, visit_copy(&its->calls));
    if (status == WARM_OK) status = visit_list(&its->calls, pages, room, count);
    return end_visit(its, status);
}

/* A page of the caller's is as large as one of the proved part, which writes into its place. */
int warm_list(warm *handle, warm_page *pages, size_t room, size_t *count) {
    opened *its = handle->at;
    node_page *into = (node_page *)pages;
    if (its == NULL) return WARM_CLOSED;
    int status = its->count == 1 ? list_one(its, &its->shards[0], into, room, count)
                                 : list_all(its, into, room, count);
    if (status == WARM_OK) pages_out(pages, *count);
    return status;
}

/* Whether the one shard of a replica is the handle's alone, so that nobody waits while it reads or
 * writes a file. */
static bool has_one_alone(const opened *its) {
    return its->count == 1 && open_handles(its->of) == 1;
}

/* Writes a dump to a descriptor, or to a device that has a number. */
static int save_to(opened *its, int number) {
    if (has_one_alone(its)) return node_save(&its->shards[0].node, number);
    int status = visit_shards(its, visit_copy(&its->calls));
    if (status == WARM_OK) status = visit_save(&its->calls, number);
    return end_visit(its, status);
}

int warm_save(warm *handle, int fd) {
    if (handle->at == NULL) return WARM_CLOSED;
    return is_made_up(fd) ? WARM_DUMP_NOT_WRITTEN : save_to(handle->at, fd);
}

/* Of a device for a dump the pages have one byte: so their numbers are places. */
int warm_save_to(warm *handle, const warm_device *file) {
    int32_t number;
    if (handle->at == NULL) return WARM_CLOSED;
    if (!device_is_good(file)) return WARM_BAD_DEVICE;
    if (!device_add(file, 1, &number)) return WARM_MEMORY;
    int status = save_to(handle->at, number);
    device_drop(number);
    return status;
}

static int load_from(opened *its, int number, uint64_t length) {
    if (has_one_alone(its)) return node_load(&its->shards[0].node, number, length);
    return end_visit(its, visit_shards(its, visit_load(&its->calls, number, length)));
}

int warm_load(warm *handle, int fd, uint64_t length) {
    if (handle->at == NULL) return WARM_CLOSED;
    return is_made_up(fd) ? WARM_DUMP_NOT_READ : load_from(handle->at, fd, length);
}

int warm_load_from(warm *handle, const warm_device *file, uint64_t length) {
    int32_t number;
    if (handle->at == NULL) return WARM_CLOSED;
    if (!device_is_good(file)) return WARM_BAD_DEVICE;
    if (!device_add(file, 1, &number)) return WARM_MEMORY;
    int status = load_from(handle->at, number, length);
    device_drop(number);
    return status;
}

/* ---- messages ---- */

int warm_offer(warm *handle, void *message, size_t room, size_t *length) {
    opened *its = handle->at;
    if (its == NULL) return WARM_CLOSED;
    int status = visit_shards(its, visit_offer(&its->calls));
    if (status == WARM_OK) status = visit_message(&its->calls, message, room, length);
    return end_visit(its, status);
}

/* A message without entries leaves the place as it was: the page of the last entry is then as it
 * was, too. */
int warm_send(warm *handle, warm_sending *sending, void *message, size_t room, size_t *length) {
    opened *its = handle->at;
    size_t entries = 0;
    bool more = false;
    node_page after = page_in(sending->after), last = after;
    if (its == NULL) return WARM_CLOSED;
    shard *in = &its->shards[sending->bucket % its->count];
    bool is_locked = enter(its, in);
    int status = node_send_since(&in->node, sending->bucket, sending->since, sending->has_after,
        after, message, room, length, &entries, &more, &last);
    leave(in, is_locked);
    if (status != WARM_OK) return status;
    if (entries > 0) sending->has_after = true;
    sending->after = page_out(last);
    sending->more = more;
    return WARM_OK;
}

int warm_limit(warm *handle, uint64_t time) {
    opened *its = handle->at;
    if (its == NULL) return WARM_CLOSED;
    atomic_store(&its->of->limit, time);
    return WARM_OK;
}

int warm_limit_history(warm *handle, uint64_t horizon, size_t pages) {
    opened *its = handle->at;
    if (its == NULL) return WARM_CLOSED;
    atomic_store(&its->of->horizon_limit, horizon);
    atomic_store(&its->of->page_limit, pages);
    return WARM_OK;
}

/* The limits of a message. If there is one of pages, what the history knows is counted first: then
 * any bytes, also those of no message, make a call of each shard. */
static node_limits limits_of(warm *handle) {
    const replica *of = ((opened *)handle->at)->of;
    node_limits limits = {.time = atomic_load(&of->limit),
        .horizon = atomic_load(&of->horizon_limit),
        .pages = atomic_load(&of->page_limit)};
    if (limits.pages < SIZE_MAX) warm_history_length(handle, &limits.known);
    return limits;
}

int warm_receive(warm *handle, const void *message, size_t length) {
    opened *its = handle->at;
    if (its == NULL) return WARM_CLOSED;
    node_limits limits = limits_of(handle);
    int status = visit_shards(its, visit_receive(&its->calls, &limits, message, length));
    if (status == WARM_OK) visit_swap(&its->calls, &its->answers);
    return end_visit(its, status);
}

/* Once no answer is left, the handle keeps nothing of the message. */
int warm_next_answer(warm *handle, void *message, size_t room, size_t *length) {
    opened *its = handle->at;
    if (its == NULL) return WARM_CLOSED;
    int status = go_through(its, &its->answers);
    if (status == WARM_OK) status = visit_message(&its->answers, message, room, length);
    if (status == WARM_OK && *length == 0) visit_end(&its->answers);
    return status;
}

/* ---- counts ---- */

int warm_counts(warm *handle, warm_counters *counters) {
    opened *its = handle->at;
    warm_counters all = {0};
    if (its == NULL) return WARM_CLOSED;
    all.hits = hits_of_holds(its->of);
    for (size_t number = 0; number < its->count; number++) {
        node_counters part = {0};
        shard *in = &its->shards[number];
        bool is_locked = enter(its, in);
        node_counts(&in->node, &part);
        all.hits += part.hits - in->table.pins;
        all.misses += part.misses - in->table.loads;
        leave(in, is_locked);
        all.evictions += part.evictions;
        all.written_back += part.written_back;
        all.resident += part.resident;
        all.dirty += part.dirty;
    }
    *counters = all;
    return WARM_OK;
}

/* A count that reaches the greatest number stays there. */
static void add_to(uint64_t *count, uint64_t more) {
    *count = more > UINT64_MAX - *count ? UINT64_MAX : *count + more;
}

/* What was counted beside the nodes. */
static void add_known(const known_device *known, warm_device_counters *all) {
    add_to(&all->reads, atomic_load(&known->reads));
    add_to(&all->writes, atomic_load(&known->writes));
    add_to(&all->flushes, atomic_load(&known->flushes));
    add_to(&all->failures, atomic_load(&known->failures));
}

int warm_device_counts(warm *handle, uint16_t dev, warm_device_counters *counters) {
    opened *its = handle->at;
    warm_device_counters all = {0};
    if (its == NULL) return WARM_CLOSED;
    for (size_t number = 0; number < its->count; number++) {
        node_device_counters part = {0};
        shard *in = &its->shards[number];
        bool is_locked = enter(its, in);
        int status = node_device_counts(&in->node, dev, &part);
        leave(in, is_locked);
        if (status != WARM_OK) return status;
        add_to(&all.reads, part.reads);
        add_to(&all.writes, part.writes);
        add_to(&all.failures, part.failures);
    }
    add_known(&its->of->known[dev], &all);
    *counters = all;
    return WARM_OK;
}

int warm_last_failure(warm *handle, bool *found, warm_failure *failure) {
    opened *its = handle->at;
    if (its == NULL) return WARM_CLOSED;
    const node_failure *last = &its->failure;
    *found = its->has_failed;
    if (!its->has_failed) return WARM_OK;
    *failure = (warm_failure){.dev = last->dev,
        .what = last->what,
        .error = last->error,
        .no = last->no,
        .count = its->failed};
    return WARM_OK;
}

/*
 * writes.c: writes with no shard locked, as writes.h says. Nothing here is proved; c/check tests
 * it.
 */
#define _FILE_OFFSET_BITS 64
#define _POSIX_C_SOURCE 200809L /* pthread_mutex_t */
#include "writes.h"
#include "shards.h"

#include <string.h>

/* ---- the list ---- */

static void begin_write(shard *in, writing *it) {
    it->next = in->writes;
    in->writes = it;
}

static void end_write(shard *in, writing *it, int error) {
    writing **place = &in->writes;
    while (*place != it) place = &(*place)->next;
    *place = it->next;
    for (write_waiter *at = it->waiters; at != NULL; at = at->next) {
        at->is_over = true;
        at->error = error;
    }
    if (it->is_awaited) pthread_cond_broadcast(&in->call_over);
    else wake_wanting(in);
}

writing *write_of_page(const shard *in, node_page page) {
    writing *at = in->writes;
    while (at != NULL && (at->page.no != page.no || at->page.dev != page.dev)) at = at->next;
    return at;
}

writing *write_of_slot(const shard *in, node_slot slot) {
    writing *at = in->writes;
    while (at != NULL &&
           (at->slot.index != slot.index || at->slot.generation != slot.generation))
        at = at->next;
    return at;
}

static writing *write_of_device(const shard *in, uint16_t dev, uint64_t from) {
    writing *at = in->writes;
    while (at != NULL && (at->page.dev != dev || at->page.no < from)) at = at->next;
    return at;
}

bool are_written(const shard *in, uint16_t dev, uint64_t from) {
    return write_of_device(in, dev, from) != NULL;
}

/* ---- who waits ---- */

static void await_write(shard *in, writing *it) {
    it->is_awaited = true;
    pthread_cond_wait(&in->call_over, &in->lock);
}

int may_change(const opened *its, shard *in, writing *at, patience *left) {
    if (at == NULL || !at->is_asked) return WARM_OK;
    at->is_awaited = true;
    return await_call(its, in, left);
}

void note_change(writing *at) {
    if (at != NULL) at->is_changed = true;
}

bool wait_for_write(shard *in, node_page page, int *error) {
    writing *at = write_of_page(in, page);
    if (at == NULL) return false;
    write_waiter own = {.next = at->waiters};
    at->waiters = &own;
    while (!own.is_over) await_write(in, at);
    *error = own.error;
    return true;
}

void wait_for_writes(shard *in, uint16_t dev, uint64_t from) {
    for (writing *at; (at = write_of_device(in, dev, from)) != NULL;) await_write(in, at);
}

/* ---- writes ---- */

static off_t place_of_page(const opened *its, node_page page) {
    return (off_t)(page.no * its->of->page_size);
}

/* Asks before_write, if there is one, with the shard left, and copies the page. Returns 0 or an
 * errno. */
static int copy_page(opened *its, shard *in, writing *it, int32_t number) {
    const uint8_t *bytes;
    size_t size = its->of->page_size;
    int error = 0;
    node_bytes(&in->node, it->slot, &bytes);
    if (device_asks(number)) {
        it->is_asked = true;
        pthread_mutex_unlock(&in->lock);
        error = device_ask(number, bytes, size, place_of_page(its, it->page));
        pthread_mutex_lock(&in->lock);
        it->is_asked = false;
        if (it->is_awaited) pthread_cond_broadcast(&in->call_over);
    }
    if (error == 0) memcpy(its->copy, bytes, size);
    return error;
}

static int put_copy(opened *its, shard *in, const writing *it, int32_t number) {
    pthread_mutex_unlock(&in->lock);
    int error = device_put(number, its->copy, its->of->page_size, place_of_page(its, it->page));
    pthread_mutex_lock(&in->lock);
    return error;
}

/* The node counts the write, and takes the page for clean: it asks for a write, which was made. */
static void tell_node(const opened *its, shard *in, const writing *it, int32_t number) {
    made_write made = {.number = number, .at = place_of_page(its, it->page)};
    uint8_t *bytes;
    bool written;
    devices_answer(&made);
    node_write_back_page(&in->node, it->page, &written);
    devices_answer(NULL);
    if (it->is_changed) node_bytes_mut(&in->node, it->slot, &bytes); /* it is dirty again */
}

static void count_failed_write(opened *its, uint16_t dev) {
    known_device *known = &its->of->known[dev];
    atomic_fetch_add(&known->writes, 1);
    atomic_fetch_add(&known->failures, 1);
}

bool write_outside(opened *its, shard *in, node_page page, int *error) {
    writing it = {.page = page};
    int32_t number = its->of->devices[page.dev].number;
    if (in->leaving > 0 || !pin_in_node(in, page, &it.slot)) return false;
    begin_write(in, &it);
    *error = copy_page(its, in, &it, number);
    if (*error == 0) *error = put_copy(its, in, &it, number);
    end_write(in, &it, *error);
    if (*error == 0) tell_node(its, in, &it, number);
    else count_failed_write(its, page.dev);
    node_unpin(&in->node, it.slot);
    return true;
}

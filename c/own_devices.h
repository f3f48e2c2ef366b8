/*
 * own_devices.h: for devices_test.c and skips_test.c, over fake_library.h: a device with calls of
 * its own, which can fail and skip pages, and notes what it was asked.
 */
#ifndef OWN_DEVICES_H
#define OWN_DEVICES_H

#include "fake_library.h"

enum { PAGES = 64, NOT_ASKED = -1 };

/* What a device does, and what it was asked. skips has bit i set if page i is skipped. */
typedef struct own {
    uint8_t bytes[PAGES];
    uint64_t skips, asked, told; /* asked and told: bit i, before and after a write of page i */
    int reads, writes, syncs, befores, afters;
    int read_error, write_error, sync_error, before_error, last_after;
    atomic_int inside; /* a write that is between its two calls */
    void (*at_before)(struct own *);
} own;

static int read_own(void *context, uint64_t no, void *into, size_t length) {
    own *its = context;
    its->reads++;
    errno = ENOTRECOVERABLE; /* it means nothing */
    if (its->read_error == 0) memcpy(into, &its->bytes[no], length);
    return its->read_error;
}

static int write_own(void *context, uint64_t no, const void *bytes, size_t length) {
    own *its = context;
    its->writes++;
    MUST(its->befores == 0 || atomic_load(&its->inside) == 1);
    errno = ENOTRECOVERABLE;
    if (its->write_error == 0) memcpy(&its->bytes[no], bytes, length);
    return its->write_error;
}

static int sync_own(void *context) {
    own *its = context;
    its->syncs++;
    return its->sync_error;
}

static int before_own(void *context, uint64_t no, const void *bytes, size_t length) {
    own *its = context;
    (void)bytes;
    MUST(length == 1 && no < PAGES);
    its->befores++;
    its->asked |= UINT64_C(1) << no;
    if (its->at_before != NULL) its->at_before(its);
    if ((its->skips >> no & 1) != 0) return EAGAIN;
    if (its->before_error != 0) return its->before_error;
    atomic_fetch_add(&its->inside, 1);
    return 0;
}

static void after_own(void *context, uint64_t no, int error) {
    own *its = context;
    its->afters++;
    its->told |= UINT64_C(1) << no;
    its->last_after = error;
    MUST(atomic_fetch_sub(&its->inside, 1) == 1);
}

static const warm_device_ops all_calls = {.size = sizeof all_calls,
    .read = read_own,
    .write = write_own,
    .sync = sync_own,
    .before_write = before_own,
    .after_write = after_own};
static const warm_device_ops hooks = {
    .size = sizeof hooks, .before_write = before_own, .after_write = after_own};
static const warm_device_ops plain = {
    .size = sizeof plain, .read = read_own, .write = write_own, .sync = sync_own};

static inline warm_device own_device_of(own *its, const warm_device_ops *ops, int fd) {
    return (warm_device){.pages = PAGES, .fd = fd, .ops = ops, .context = its};
}

#endif

/*
 * fd_calls.c: what the proved part, crates/warm_c, asks of devices, as fd_calls.h says
 * (crates/warm_c_base/src/descriptor.rt). devices.c and sync_once.c do it. Nothing here is proved;
 * c/check tests it.
 */
#define _FILE_OFFSET_BITS 64
#include "fd_calls.h"
#include "devices.h"
#include "sync_once.h"

#include <errno.h>
#include <stdlib.h>
#include <string.h>

_Static_assert(sizeof(off_t) == 8, "a place in a file has 64 bits");
_Static_assert(
    (int)DEVICE_IDENTITY == (int)FD_CALLS_IDENTITY_LENGTH, "an identity is read as it is");

typedef struct request {
    uint8_t kind; /* 0: there is none */
    int fd;
    off_t at;
} request;

/* The request of this thread that waits for its read or write. */
static _Thread_local request waiting;

/* errno of the last call of this thread that failed; 0: none has. */
static _Thread_local int last_failure;

static ssize_t invalid(void) {
    errno = EINVAL;
    return -1;
}

/* The request that waits, which waits no more. */
static request take_request(void) {
    request taken = waiting;
    waiting = (request){0};
    return taken;
}

/* ---- requests ---- */

static ssize_t flush_device(int fd) {
    return sync_once(device_synced_as(fd)) == 0 ? FD_CALLS_REQUEST : -1;
}

/* ---- identities ---- */

typedef struct identity {
    bool is_known;
    int fd;
    uint8_t bytes[FD_CALLS_IDENTITY_LENGTH];
} identity;

/* No replica has more devices: who opens one with more is refused, after this. */
enum { MOST_REMEMBERED = 65536 };

/* What this thread remembers, and the place of the one that is asked for next. */
static _Thread_local struct {
    identity *at;
    size_t count, next;
} remembered;

void fd_calls_forget(void) {
    free(remembered.at);
    remembered.at = NULL;
    remembered.count = remembered.next = 0;
}

void fd_calls_remember(size_t count) {
    fd_calls_forget();
    if (count == 0 || count > MOST_REMEMBERED) return;
    remembered.at = malloc(count * sizeof(identity));
    if (remembered.at == NULL) return;
    for (size_t at = 0; at < count; at++) remembered.at[at].is_known = false;
    remembered.count = count;
}

/* The place of this one, or NULL. */
static identity *next_remembered(void) {
    if (remembered.count == 0) return NULL;
    identity *its = &remembered.at[remembered.next];
    remembered.next = (remembered.next + 1) % remembered.count;
    return its;
}

static ssize_t read_identity(int fd, uint8_t *into, size_t length) {
    if (length != FD_CALLS_IDENTITY_LENGTH) return invalid();
    identity *its = next_remembered();
    if (its != NULL && its->is_known && its->fd == fd) {
        memcpy(into, its->bytes, sizeof its->bytes);
        return FD_CALLS_IDENTITY_LENGTH;
    }
    if (!device_identity(fd, into)) return -1;
    if (its != NULL) {
        *its = (identity){.is_known = true, .fd = fd};
        memcpy(its->bytes, into, sizeof its->bytes);
    }
    return FD_CALLS_IDENTITY_LENGTH;
}

/* The highest byte first. */
static void put_error(uint8_t into[FD_CALLS_FAILURE_LENGTH], uint32_t number) {
    for (int at = FD_CALLS_FAILURE_LENGTH - 1; at >= 0; at--, number >>= 8)
        into[at] = (uint8_t)number;
}

static ssize_t read_failure(uint8_t *into, size_t length) {
    if (length != FD_CALLS_FAILURE_LENGTH) return invalid();
    put_error(into, (uint32_t)last_failure);
    return FD_CALLS_FAILURE_LENGTH;
}

/* Whether a request of this kind is followed by a read or a write, and may have this place. */
static bool waits(uint8_t kind, uint64_t at) {
    if (kind == FD_CALLS_READ || kind == FD_CALLS_WRITE) return true;
    return (kind == FD_CALLS_IDENTITY || kind == FD_CALLS_FAILURE) && at == 0;
}

static ssize_t start_request(int fd, const uint8_t *bytes, size_t length) {
    uint64_t at = 0;
    if (length != FD_CALLS_REQUEST) return invalid();
    for (int i = 1; i < FD_CALLS_REQUEST; i++) at = at << 8 | bytes[i];
    if (at > INT64_MAX) return invalid();
    if (bytes[0] == FD_CALLS_FLUSH && at == 0) return flush_device(fd);
    if (!waits(bytes[0], at)) return invalid();
    waiting = (request){.kind = bytes[0], .fd = fd, .at = (off_t)at};
    return FD_CALLS_REQUEST;
}

static ssize_t make_read(request asked, int fd, void *into, size_t length) {
    if (asked.fd != fd) return invalid();
    switch (asked.kind) {
        case FD_CALLS_READ: return device_read(fd, into, length, asked.at);
        case FD_CALLS_IDENTITY: return read_identity(fd, into, length);
        case FD_CALLS_FAILURE: return read_failure(into, length);
        default: return invalid();
    }
}

static ssize_t make_write(request asked, int fd, const void *from, size_t length) {
    if (asked.kind == 0) return start_request(fd, from, length);
    if (asked.kind != FD_CALLS_WRITE || asked.fd != fd) return invalid();
    return device_write(fd, from, length, asked.at);
}

/* What a call returns, noted if it failed. */
static ssize_t noted(ssize_t result) {
    if (result < 0) last_failure = errno;
    return result;
}

ssize_t fd_calls_read(int fd, void *into, size_t length) {
    return noted(make_read(take_request(), fd, into, length));
}

ssize_t fd_calls_write(int fd, const void *from, size_t length) {
    return noted(make_write(take_request(), fd, from, length));
}

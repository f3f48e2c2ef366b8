/*
 * devices.c: reads, writes and syncs of devices, as devices.h says: by the system's calls on a
 * descriptor (pread, pwrite, fsync, fstat, fcntl), or by those of the engine. Nothing here is
 * proved; c/check tests it.
 */
#define _FILE_OFFSET_BITS 64
#define _POSIX_C_SOURCE 200809L /* pread, pwrite, fsync */
#include "devices.h"
#include "sync_once.h"

#include <errno.h>
#include <fcntl.h>
#include <pthread.h>
#include <stdlib.h>
#include <string.h>
#include <sys/stat.h>
#include <unistd.h>

_Static_assert(sizeof(off_t) == 8, "a place in a file has 64 bits");

/* A device with calls of its own. */
typedef struct own_device {
    bool is_there;
    int fd;
    size_t page_size;
    warm_device_ops ops;
    void *context;
} own_device;

/* These devices: entry i has the number INT32_MIN + i, and none below lowest_free is free. Who
 * reads or changes the table has the lock, and calls nothing of the engine's then. */
static pthread_mutex_t table_lock = PTHREAD_MUTEX_INITIALIZER;
static own_device *own_devices;
static size_t own_count, own_room, lowest_free;

/* ---- the table ---- */

static bool has_own_calls(const warm_device *device) {
    return device->ops != NULL && device->ops->read != NULL;
}

bool device_is_good(const warm_device *device) {
    const warm_device_ops *ops = device->ops;
    if (ops == NULL) return !is_made_up(device->fd);
    if (ops->size != sizeof(warm_device_ops)) return false;
    bool has_one = ops->read != NULL || ops->write != NULL || ops->sync != NULL;
    bool has_all = ops->read != NULL && ops->write != NULL && ops->sync != NULL;
    return has_one ? has_all : !is_made_up(device->fd);
}

bool device_appends(const warm_device *device) {
    if (has_own_calls(device)) return false;
    int flags = fcntl(device->fd, F_GETFL);
    return flags >= 0 && (flags & O_APPEND) != 0;
}

static bool makes_room(void) {
    if (own_count < own_room) return true;
    size_t room = own_room != 0 ? 2 * own_room : 4;
    if (room > MADE_UP) return false;
    own_device *larger = realloc(own_devices, room * sizeof(own_device));
    if (larger == NULL) return false;
    memset(larger + own_room, 0, (room - own_room) * sizeof(own_device));
    own_devices = larger;
    own_room = room;
    return true;
}

static bool put_own(own_device put, int32_t *number) {
    if (!makes_room()) return false;
    size_t place = lowest_free;
    while (own_devices[place].is_there) place++;
    own_devices[place] = put;
    own_count++;
    lowest_free = place + 1;
    *number = INT32_MIN + (int32_t)place;
    return true;
}

bool device_add(const warm_device *device, size_t page_size, int32_t *number) {
    *number = device->fd;
    if (device->ops == NULL) return true;
    own_device its = {.is_there = true,
        .fd = device->fd,
        .page_size = page_size,
        .ops = *device->ops,
        .context = device->context};
    pthread_mutex_lock(&table_lock);
    bool is_put = put_own(its, number);
    pthread_mutex_unlock(&table_lock);
    return is_put;
}

/* The last one takes the table with it, so that nothing is left at the end of a program. */
static void drop_own(size_t place) {
    own_devices[place].is_there = false;
    if (place < lowest_free) lowest_free = place;
    if (--own_count > 0) return;
    free(own_devices);
    own_devices = NULL;
    own_room = lowest_free = 0;
}

static size_t place_of_number(int number) { return (size_t)(number - INT32_MIN); }

void device_drop(int32_t number) {
    if (!is_made_up(number)) return;
    pthread_mutex_lock(&table_lock);
    drop_own(place_of_number(number));
    pthread_mutex_unlock(&table_lock);
}

/* A copy of a device with calls of its own, whose calls are made without the lock; else a device
 * with none, whose descriptor is the number. */
static own_device device_of(int number) {
    own_device found = {.fd = number};
    if (!is_made_up(number)) return found;
    pthread_mutex_lock(&table_lock);
    size_t place = place_of_number(number);
    if (place < own_room && own_devices[place].is_there) found = own_devices[place];
    pthread_mutex_unlock(&table_lock);
    return found;
}

int device_synced_as(int number) {
    own_device its = device_of(number);
    return its.ops.sync != NULL ? number : its.fd;
}

/* ---- files ---- */

static bool is_end(int fd, off_t at) {
    struct stat file;
    return fstat(fd, &file) == 0 && S_ISREG(file.st_mode) && at >= file.st_size;
}

/* Past the end of the file are zeros. With O_DIRECT a system may refuse the rest of a read that
 * ended there, since it is not aligned. */
static ssize_t read_file(int fd, uint8_t *into, size_t length, off_t at) {
    size_t done = 0;
    while (done < length) {
        ssize_t got = pread(fd, into + done, length - done, at + (off_t)done);
        if (got < 0 && errno == EINTR) continue;
        if (got < 0 && errno == EINVAL && done > 0) {
            if (is_end(fd, at + (off_t)done)) got = 0;
            errno = EINVAL; /* that of pread, even if fstat failed */
        }
        if (got < 0) return -1;
        if (got == 0) {
            memset(into + done, 0, length - done);
            break;
        }
        done += (size_t)got;
    }
    return (ssize_t)length;
}

/* Returns 0 or an errno. */
static int write_file(int fd, const uint8_t *from, size_t length, off_t at) {
    size_t done = 0;
    while (done < length) {
        ssize_t put = pwrite(fd, from + done, length - done, at + (off_t)done);
        if (put < 0 && errno == EINTR) continue;
        if (put < 0) return errno;
        if (put == 0) return EIO;
        done += (size_t)put;
    }
    return 0;
}

/* fsync fails if a descriptor cannot be synced, as a pipe: then nothing written to it is on a
 * device. */
static int sync_file(int fd) {
    int status;
    do status = fsync(fd);
    while (status != 0 && errno == EINTR);
    return status;
}

/* ---- calls of the engine ---- */

/* What a call of the engine answers, with which a call of the library may fail: the proved part
 * would make a call again that was interrupted, and EAGAIN is a page that was skipped. */
static int own_error(int error) { return error == EINTR || error == EAGAIN ? EIO : error; }

static int failed_with(int error) {
    errno = error;
    return -1;
}

/* The engine's call may use other replicas, and what it asks of them leaves no sync for later:
 * whoever asked for that does not know of them. */
static int own_read(const own_device *its, uint64_t no, uint8_t *into, size_t length) {
    bool before = sync_later(false);
    int error = its->ops.read(its->context, no, into, length);
    sync_later(before);
    return own_error(error);
}

static int own_write(const own_device *its, uint64_t no, const uint8_t *from, size_t length) {
    bool before = sync_later(false);
    int error = its->ops.write(its->context, no, from, length);
    sync_later(before);
    return own_error(error);
}

static int ask_before(const own_device *its, uint64_t no, const uint8_t *from, size_t length) {
    if (its->ops.before_write == NULL) return 0;
    bool before = sync_later(false);
    int error = its->ops.before_write(its->context, no, from, length);
    sync_later(before);
    return error == EINTR ? EIO : error;
}

static void tell_after(const own_device *its, uint64_t no, int error) {
    if (its->ops.after_write == NULL) return;
    bool before = sync_later(false);
    its->ops.after_write(its->context, no, error);
    sync_later(before);
}

static int own_sync(const own_device *its) {
    bool before = sync_later(false);
    int error = its->ops.sync(its->context);
    sync_later(before);
    return own_error(error);
}

/* ---- writes that were made ---- */

static _Thread_local const made_write *made_before;

void devices_answer(const made_write *it) { made_before = it; }

static bool is_made(int number, off_t at) {
    const made_write *it = made_before;
    return it != NULL && it->number == number && it->at == at;
}

/* ---- devices ---- */

ssize_t device_read(int number, uint8_t *into, size_t length, off_t at) {
    own_device its = device_of(number);
    if (its.ops.read == NULL) return read_file(its.fd, into, length, at);
    int error = own_read(&its, (uint64_t)at / its.page_size, into, length);
    return error == 0 ? (ssize_t)length : failed_with(error);
}

/* A part may have been written, even if a write failed. Without a file nothing was: a sync could
 * only fail, and be remembered for all devices that have no file yet. */
static int write_to_device(
    const own_device *its, int number, uint64_t no, const uint8_t *from, size_t length, off_t at) {
    bool is_own = its->ops.write != NULL;
    int error = is_own ? own_write(its, no, from, length) : write_file(its->fd, from, length, at);
    if (is_own || its->fd >= 0) sync_wrote(is_own ? number : its->fd);
    return own_error(error);
}

/* A descriptor has bytes, and no pages. */
static uint64_t number_at(const own_device *its, off_t at) {
    return its->page_size != 0 ? (uint64_t)at / its->page_size : 0;
}

static int put_page(
    const own_device *its, int number, const uint8_t *from, size_t length, off_t at) {
    uint64_t no = number_at(its, at);
    int error = write_to_device(its, number, no, from, length, at);
    tell_after(its, no, error);
    return error;
}

bool device_asks(int number) {
    return is_made_up(number) && device_of(number).ops.before_write != NULL;
}

int device_ask(int number, const uint8_t *from, size_t length, off_t at) {
    own_device its = device_of(number);
    return ask_before(&its, number_at(&its, at), from, length);
}

int device_put(int number, const uint8_t *from, size_t length, off_t at) {
    own_device its = device_of(number);
    return put_page(&its, number, from, length, at);
}

ssize_t device_write(int number, const uint8_t *from, size_t length, off_t at) {
    if (is_made(number, at)) return (ssize_t)length;
    own_device its = device_of(number);
    int error = ask_before(&its, number_at(&its, at), from, length);
    if (error == 0) error = put_page(&its, number, from, length, at);
    return error == 0 ? (ssize_t)length : failed_with(error);
}

int device_sync(int number) {
    own_device its = device_of(number);
    if (its.ops.sync == NULL) return sync_file(its.fd);
    int error = own_sync(&its);
    return error == 0 ? 0 : failed_with(error);
}

static void put_number(uint8_t *into, uint64_t number) {
    for (int at = 7; at >= 0; at--, number >>= 8) into[at] = (uint8_t)number;
}

/* No file is on a device of the system with the greatest number. */
bool device_identity(int number, uint8_t into[DEVICE_IDENTITY]) {
    struct stat file;
    own_device its = device_of(number);
    if (its.ops.read != NULL) {
        put_number(into, UINT64_MAX);
        put_number(into + 8, (uintptr_t)its.context);
        return true;
    }
    if (fstat(its.fd, &file) != 0) return false;
    put_number(into, file.st_dev);
    put_number(into + 8, file.st_ino);
    return true;
}

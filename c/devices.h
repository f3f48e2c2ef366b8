/*
 * devices.h: what is done to the devices of replicas: reads, writes and syncs. Not installed.
 *
 * The proved part knows a device by a number. That of a device without calls of its own is its
 * descriptor; each other one has a number that is made up, below those of descriptors, and is in a
 * table of the process. fd_calls.c and sync_once.c do by these functions what is asked of a number.
 * No lock is held while a call of the engine runs.
 */
#ifndef DEVICES_H
#define DEVICES_H

#include "warm.h"

#include <sys/types.h>

enum { DEVICE_IDENTITY = 16, MADE_UP = 1 << 20 };

/* Whether a number is none of a descriptor. */
static inline bool is_made_up(int number) { return number < INT32_MIN + MADE_UP; }

/* Whether the library can work with a device: its calls are all there, or none; and its descriptor,
 * if it is used, is no made-up number. */
bool device_is_good(const warm_device *device);

/* Whether a write to the descriptor goes to the end of its file, wherever it is to go (O_APPEND).
 * One that is not open, or not used, does not. */
bool device_appends(const warm_device *device);

/* Writes a number for a good device; false if there is no memory for it, or no number. The device
 * is let go by its number, when nothing is asked of it any more. */
bool device_add(const warm_device *device, size_t page_size, int32_t *number);
void device_drop(int32_t number);

/* The number by which syncs of the device are counted: its descriptor if that is synced. */
int device_synced_as(int number);

/* Reads length bytes from the place at on, with zeros past the end of a file; writes them there;
 * and syncs. Each returns what the system's call does, and -1 with errno if it fails. EAGAIN of a
 * write means that before_write has skipped the page; a call that is made has no such errno. */
ssize_t device_read(int number, uint8_t *into, size_t length, off_t at);
ssize_t device_write(int number, const uint8_t *from, size_t length, off_t at);
int device_sync(int number);

/* A write in two halves, each of which returns 0 or an errno: what before_write says, and, if that
 * is 0, the write, whose errno after_write gets. */
bool device_asks(int number); /* whether there is a before_write */
int device_ask(int number, const uint8_t *from, size_t length, off_t at);
int device_put(int number, const uint8_t *from, size_t length, off_t at);

/* Writes what no two files have in common; false if there is no file. */
bool device_identity(int number, uint8_t into[DEVICE_IDENTITY]);

/* A write that was made by the two halves. */
typedef struct made_write {
    int32_t number;
    off_t at;
} made_write;

/* From here on device_write answers a write of this thread to this place as made, and asks no
 * device; or, with NULL, none. */
void devices_answer(const made_write *it);

#endif

/*
 * fd_calls.h: what the proved part of the library calls in place of read and write.
 * scripts/c-library renames these two symbols in the archive that rt makes of crates/warm_c, so
 * that a device of the engine is reached here alone. A descriptor here is one, or the number of a
 * device with calls of its own (devices.h), of which a file is what these calls keep.
 *
 * A request is nine bytes that are written to a descriptor: one for its kind, eight for the place
 * in the file, highest byte first.
 *  - FD_CALLS_READ: the next call is a read of the same descriptor. It fills its buffer from that
 *    place on, with zeros past the end of the file.
 *  - FD_CALLS_WRITE: the next call is a write to the same descriptor. It puts its bytes at that
 *    place.
 *  - FD_CALLS_FLUSH: the file is synced while the request is written, as sync_once.h says. Its
 *    place is 0.
 *  - FD_CALLS_IDENTITY: the next call is a read of the same descriptor, of FD_CALLS_IDENTITY_LENGTH
 *    bytes: st_dev and st_ino of fstat, eight bytes each, highest byte first. All descriptors of
 *    one file give the same. Two device nodes of one block device do not. Its place is 0.
 *  - FD_CALLS_FAILURE: the next call is a read of the same descriptor, of FD_CALLS_FAILURE_LENGTH
 *    bytes: errno of the last call of this thread that failed, of whatever descriptor, highest byte
 *    first, and 0 if none has. No system is asked. Its place is 0.
 *
 * A device's own calls are made by this thread, and without a lock of the library but a shard's.
 * They may use handles of other replicas, and so make requests of their own: the request of the
 * call that they are in is taken by then.
 *
 * A call does all that is asked of it and returns its length, or returns -1 with errno. A call that
 * is no request, and that does not belong to the one before it, fails with EINVAL. Each call ends
 * the request before it, also a call that fails. Each thread has requests of its own.
 *
 * The proof assumes less, and what C says of read and write: a call returns -1 or at most its
 * length, and touches nothing but its buffer.
 */
#ifndef FD_CALLS_H
#define FD_CALLS_H

#include <stdbool.h>
#include <stddef.h>
#include <sys/types.h>

enum {
    FD_CALLS_READ = 1,
    FD_CALLS_WRITE = 2,
    FD_CALLS_FLUSH = 3,
    FD_CALLS_IDENTITY = 4,
    FD_CALLS_FAILURE = 5
};
enum { FD_CALLS_REQUEST = 9, FD_CALLS_IDENTITY_LENGTH = 16, FD_CALLS_FAILURE_LENGTH = 4 };

/* From here on, until fd_calls_forget, this thread asks the system once for the identity of each of
 * this many descriptors, which are asked for in one order, again and again: so does a replica's
 * call, shard by shard. If there is no memory for that, each is asked for each time. */
void fd_calls_remember(size_t count);
void fd_calls_forget(void);

ssize_t fd_calls_read(int fd, void *into, size_t length);
ssize_t fd_calls_write(int fd, const void *from, size_t length);

#endif

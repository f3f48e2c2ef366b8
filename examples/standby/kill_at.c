/*
 * Ends a program that is started with it as LD_PRELOAD by kill -9, just before the call number KILL_AT of those that KILL_CALLS names, as
 * "rename fsync": of rename, unlink, fsync, ftruncate, sendfile and pwrite. renameat2 counts as rename, fdatasync as fsync, and ftruncate64 and
 * pwrite64, which SQLite calls, as what they are without the number.
 *
 * Where INTERRUPTED is set, every other fsync fails as one that a signal interrupts, until
 * renameat2 is called. A standby puts DB in its place so, and SQLite opens it then, which tries no
 * sync again.
 */
#define _GNU_SOURCE
#include <dlfcn.h>
#include <errno.h>
#include <signal.h>
#include <stdbool.h>
#include <stdio.h>
#include <stdlib.h>
#include <string.h>
#include <sys/sendfile.h>
#include <sys/types.h>
#include <unistd.h>

static void count(const char *name) {
    static long calls;
    const char *at = getenv("KILL_AT"), *names = getenv("KILL_CALLS");
    if (at == NULL || names == NULL || strstr(names, name) == NULL) return;
    if (++calls == atol(at)) kill(getpid(), SIGKILL);
}

static bool is_in_place;

static bool is_interrupted(void) {
    static bool was;
    was = !was && !is_in_place && getenv("INTERRUPTED") != NULL;
    if (was) errno = EINTR;
    return was;
}

#define NEXT(name) ((__typeof__(&name))dlsym(RTLD_NEXT, #name))

int rename(const char *from, const char *to) {
    count("rename");
    return NEXT(rename)(from, to);
}

int renameat2(int from_folder, const char *from, int to_folder, const char *to, unsigned flags) {
    count("rename");
    is_in_place = true;
    return NEXT(renameat2)(from_folder, from, to_folder, to, flags);
}

int unlink(const char *path) {
    count("unlink");
    return NEXT(unlink)(path);
}

int fsync(int fd) {
    count("fsync");
    return is_interrupted() ? -1 : NEXT(fsync)(fd);
}

int fdatasync(int fd) {
    count("fsync");
    return NEXT(fdatasync)(fd);
}

int ftruncate(int fd, off_t size) {
    count("ftruncate");
    return NEXT(ftruncate)(fd, size);
}

int ftruncate64(int fd, off64_t size) {
    count("ftruncate");
    return NEXT(ftruncate64)(fd, size);
}

ssize_t sendfile(int to, int from, off_t *at, size_t length) {
    count("sendfile");
    return NEXT(sendfile)(to, from, at, length);
}

ssize_t pwrite(int fd, const void *bytes, size_t length, off_t at) {
    count("pwrite");
    return NEXT(pwrite)(fd, bytes, length, at);
}

ssize_t pwrite64(int fd, const void *bytes, size_t length, off64_t at) {
    count("pwrite");
    return NEXT(pwrite64)(fd, bytes, length, at);
}

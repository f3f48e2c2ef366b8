/*
 * postgres/test/slow.c: for tests, preloaded into a server (LD_PRELOAD).  The file SLOW has numbers
 * of eight bytes: how many pages the server asked the system for before it read them; for how many
 * microseconds each write of the draft of a save waits; for how many each read of a page waits that
 * is 1 MB or more into its file, as those of catalogs are not; and the errno with which each pwrite
 * into a draft fails, 0 where none does.
 */
#define _GNU_SOURCE
#include <dlfcn.h>
#include <errno.h>
#include <fcntl.h>
#include <stdint.h>
#include <stdio.h>
#include <stdlib.h>
#include <string.h>
#include <sys/mman.h>
#include <unistd.h>

#define DRAFT "/standby_prewarm.tmp"

static volatile uint64_t *numbers;

__attribute__((constructor)) static void
open_numbers(void)
{
	const char *path = getenv("SLOW");
	int			fd = path != NULL ? open(path, O_RDWR) : -1;

	if (fd >= 0)
		numbers = mmap(NULL, 4096, PROT_READ | PROT_WRITE, MAP_SHARED, fd, 0);
	if (numbers == MAP_FAILED)
		numbers = NULL;
}

int
posix_fadvise(int fd, off_t at, off_t length, int advice)
{
	int			(*real) (int, off_t, off_t, int) = dlsym(RTLD_NEXT, "posix_fadvise");

	if (numbers != NULL && advice == POSIX_FADV_WILLNEED)
		__atomic_fetch_add(&numbers[0], 1, __ATOMIC_RELAXED);
	return real(fd, at, length, advice);
}

/* A number, or 0 where the file's path has not this part. */
static uint64_t
number_for(int fd, int number, const char *part)
{
	char		link[64], path[512] = "";

	if (numbers == NULL || numbers[number] == 0)
		return 0;
	snprintf(link, sizeof link, "/proc/self/fd/%d", fd);
	if (readlink(link, path, sizeof path - 1) <= 0 || strstr(path, part) == NULL)
		return 0;
	return numbers[number];
}

static void
wait_for(int fd, int number, const char *part)
{
	uint64_t	time = number_for(fd, number, part);

	if (time > 0)
		usleep((useconds_t) time);
}

ssize_t
pread64(int fd, void *bytes, size_t length, off64_t at)
{
	ssize_t		(*real) (int, void *, size_t, off64_t) = dlsym(RTLD_NEXT, "pread64");

	if (at >= 1 << 20)
		wait_for(fd, 2, "/base/");
	return real(fd, bytes, length, at);
}

ssize_t
pread(int fd, void *bytes, size_t length, off_t at)
{
	return pread64(fd, bytes, length, at);
}

ssize_t
pwrite64(int fd, const void *bytes, size_t length, off64_t at)
{
	ssize_t		(*real) (int, const void *, size_t, off64_t) = dlsym(RTLD_NEXT, "pwrite64");
	uint64_t	error = number_for(fd, 3, DRAFT);

	wait_for(fd, 1, DRAFT);
	if (error == 0)
		return real(fd, bytes, length, at);
	errno = (int) error;
	return -1;
}

ssize_t
pwrite(int fd, const void *bytes, size_t length, off_t at)
{
	return pwrite64(fd, bytes, length, at);
}

ssize_t
write(int fd, const void *bytes, size_t length)
{
	ssize_t		(*real) (int, const void *, size_t) = dlsym(RTLD_NEXT, "write");

	wait_for(fd, 1, DRAFT);
	return real(fd, bytes, length);
}

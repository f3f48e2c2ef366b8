/* Nanoseconds of a clock of the system. */
#ifndef CLOCK_H
#define CLOCK_H

#include <stdint.h>
#include <time.h>

static inline uint64_t nanoseconds(clockid_t which) {
    struct timespec now = {0};
    clock_gettime(which, &now);
    return (uint64_t)now.tv_sec * 1000000000u + (uint64_t)now.tv_nsec;
}

/* Since some moment: never set back. */
static inline uint64_t milliseconds_now(void) { return nanoseconds(CLOCK_MONOTONIC) / 1000000; }

#endif

/* What programs share that expect statuses: PROGRAM is the name of the one that has this. Each refused call is printed with what its status
 * means. */
#include <stdio.h>
#include <stdlib.h>
#include <string.h>
#include <unistd.h>

#include "warm.h"

static int expected_count;

static inline void expect(int wanted, int status, const char *call) {
    if (status != wanted) {
        fprintf(stderr, PROGRAM ": %s answered %s, and not %s\n", call, warm_strerror(status), warm_strerror(wanted));
        exit(1);
    }
    if (status != WARM_OK) printf("%.90s\n    %s\n", call, warm_strerror(status));
    expected_count++;
}
#define EXPECT(wanted, call) expect(wanted, call, #call)
#define OK(call) expect(WARM_OK, call, #call)

static inline void must(bool is_so, const char *what) {
    if (is_so) return;
    fprintf(stderr, PROGRAM ": %s\n", what);
    exit(1);
}
#define MUST(what) must(what, "not so: " #what)

static inline int open_with(warm *handle, uint32_t replica, size_t shard_count, size_t frames, size_t page_size, const warm_device *devices,
    size_t device_count) {
    const warm_options options = {.size = sizeof options, .replica = replica, .shards = shard_count, .frames = frames, .page_size = page_size,
        .devices = devices, .device_count = device_count};
    return warm_open(handle, &options);
}

/* The page that would leave next, where there is one; page is as it was where there is none. */
static inline int next_victim(warm *handle, size_t shard, bool *found, warm_page *page) {
    size_t count;
    int status = warm_victims(handle, shard, page, 1, &count);
    if (status == WARM_OK) *found = count == 1;
    return status;
}

/* The message with the entries of a bucket that are behind a page. */
static inline int send_behind(warm *handle, uint8_t bucket, bool has_after, warm_page after, uint8_t *message, size_t room, size_t *length) {
    warm_sending sending = {.bucket = bucket, .has_after = has_after, .after = after};
    return warm_send(handle, &sending, message, room, length);
}

static inline int temporary_in(const char *folder) {
    char path[512];
    snprintf(path, sizeof path, "%s/warm-" PROGRAM "-XXXXXX", folder);
    int fd = mkstemp(path);
    MUST(fd >= 0 && unlink(path) == 0);
    return fd;
}

static inline int temporary(void) { return temporary_in("/tmp"); }

/* The status of the program, which has ended well. */
static inline int end_as_expected(void) {
    printf(PROGRAM ": %d calls answered as expected\n", expected_count);
    return 0;
}

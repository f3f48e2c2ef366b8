/* A device whose descriptor has O_DIRECT: pages of multiples of 4,096 bytes go to the file past the system's cache, and come back.
 * direct [FOLDER] makes its file there, or in /tmp. direct memory prints how much memory a pool of 10,000 frames takes, and opens it where
 * the process may have less. */
#define _GNU_SOURCE /* O_DIRECT, mkstemp */
#include <errno.h>
#include <fcntl.h>
#include <sys/resource.h>

#define PROGRAM "direct"
#include "expect.h"

enum { FRAMES = 5, PAGES = 20, UNIT = 4096, LARGE = 65536, MANY = 10000 };

/* Bytes that begin at a multiple of a unit; how the file was opened; and whether its system asks for that alignment. */
static uint8_t *bytes;
static int plain, direct;
static bool is_strict;

static void fill(uint8_t with, size_t length) {
    for (size_t at = 0; at < length; at++) bytes[at] = (uint8_t)(with + at % 249);
}

/* Whether the file has such bytes from a place on, by its other descriptor. */
static bool holds(off_t from, uint8_t with, size_t length) {
    static uint8_t held[LARGE];
    fill(with, length);
    return pread(plain, held, length, from) == (ssize_t)length && memcmp(held, bytes, length) == 0;
}

static void put(warm *handle, uint64_t no, uint8_t with, size_t length) {
    warm_slot slot;
    OK(warm_pin(handle, (warm_page){.no = no}, &slot));
    fill(with, length);
    OK(warm_write(handle, slot, 0, bytes, length));
    OK(warm_unpin(handle, slot));
}

/* The page has such bytes up to a length, and zeros behind them. */
static void must_have(warm *handle, uint64_t no, uint8_t with, size_t length, size_t page_size) {
    static uint8_t held[LARGE];
    warm_slot slot;
    OK(warm_pin(handle, (warm_page){.no = no}, &slot));
    OK(warm_read(handle, slot, 0, held, page_size));
    OK(warm_unpin(handle, slot));
    fill(with, length);
    memset(bytes + length, 0, page_size - length);
    MUST(memcmp(held, bytes, page_size) == 0);
}

/* More pages than frames, so that each is written when it leaves its frame, and read again into another; beside another handle it is read
 * into a buffer first. */
static void pages_of(size_t page_size, bool is_beside) {
    const warm_device device = {.pages = PAGES, .fd = direct};
    const off_t cut = (off_t)(9 * page_size + 1000);
    warm handle = {0}, other = {0};
    OK(open_with(&handle, 1, 1, FRAMES, page_size, &device, 1));
    if (is_beside) OK(warm_attach(&handle, &other));
    for (uint8_t no = 0; no < PAGES - 1; no++) put(&handle, no, no, page_size);
    for (uint8_t no = PAGES - 1; no-- > 0;) must_have(&handle, no, no, page_size, page_size);
    must_have(&handle, PAGES - 1, 0, 0, page_size); /* past the end of the file */
    OK(warm_write_back_all(&handle));
    for (uint8_t no = 0; no < PAGES - 1; no++) MUST(holds((off_t)(no * page_size), no, page_size));
    OK(warm_close(&other));
    OK(warm_abandon(&handle));
    /* a file that ends within a page, at no place that O_DIRECT takes */
    MUST(ftruncate(plain, cut) == 0);
    OK(open_with(&handle, 1, 1, FRAMES, page_size, &device, 1));
    if (is_beside) OK(warm_attach(&handle, &other));
    must_have(&handle, 9, 9, 1000, page_size);
    must_have(&handle, 10, 0, 0, page_size);
    must_have(&handle, 8, 8, page_size, page_size);
    put(&handle, 9, 77, page_size);
    OK(warm_write_back_all(&handle));
    MUST(holds((off_t)(9 * page_size), 77, page_size) && lseek(plain, 0, SEEK_END) == (off_t)(10 * page_size));
    OK(warm_close(&other));
    OK(warm_abandon(&handle));
    MUST(ftruncate(plain, 0) == 0);
}

/* Whether there is such a file; and whether one byte off a unit is refused. */
static bool opens_file(const char *folder) {
    char path[512];
    fill(1, UNIT);
    snprintf(path, sizeof path, "%s/warm-direct-XXXXXX", folder);
    plain = mkstemp(path);
    MUST(plain >= 0);
    direct = open(path, O_RDWR | O_DIRECT);
    MUST(unlink(path) == 0 && write(plain, bytes, UNIT) == UNIT && fsync(plain) == 0);
    if (direct < 0) return false;
    is_strict = pread(direct, bytes + 1, UNIT, 0) < 0 && errno == EINVAL;
    return pread(direct, bytes, UNIT, 0) == UNIT;
}

/* The memory that the process has, by the system's count. */
static double resident(void) {
    char line[200];
    unsigned long kilobytes = 0;
    FILE *file = fopen("/proc/self/smaps_rollup", "r");
    MUST(file != NULL);
    while (kilobytes == 0 && fgets(line, sizeof line, file) != NULL) sscanf(line, "Rss: %lu kB", &kilobytes);
    fclose(file);
    return (double)kilobytes * 1024;
}

/* What the process has more with a pool, and what it keeps. All was used once before, so that its code is there. Beside the frames there
 * are the node's tables, and the records of c/holds.h, which take 64 bytes for each frame, as many as a power of two. */
static void memory(void) {
    const warm_device none = {0};
    const double whole = (double)MANY * UNIT;
    warm handle = {0};
    OK(open_with(&handle, 1, 1, 1, UNIT, &none, 0));
    OK(warm_abandon(&handle));
    resident();
    double before = resident();
    OK(open_with(&handle, 1, 1, MANY, UNIT, &none, 0));
    double with = (resident() - before) / whole;
    OK(warm_abandon(&handle));
    double after = (resident() - before) / whole;
    printf("direct: %d frames of %d bytes take %.4f of their bytes; %.4f after the close\n", MANY, UNIT, with, after);
    MUST(with <= 1.08 && after < 0.01);
}

/* A process that may have no more memory than half of the pool: the call is refused, nothing is kept, and with more it succeeds. */
static void little_memory(void) {
    const warm_device none = {0};
    struct rlimit all, half;
    warm handle = {0};
    double before = resident();
    MUST(getrlimit(RLIMIT_AS, &all) == 0);
    half = all;
    half.rlim_cur = (rlim_t)MANY * UNIT / 2;
    MUST(setrlimit(RLIMIT_AS, &half) == 0);
    EXPECT(WARM_MEMORY, open_with(&handle, 1, 1, MANY, UNIT, &none, 0));
    MUST(setrlimit(RLIMIT_AS, &all) == 0);
    MUST(handle.at == NULL && resident() - before < 0.05 * MANY * UNIT);
    OK(open_with(&handle, 1, 1, MANY, UNIT, &none, 0));
    OK(warm_abandon(&handle));
}

int main(int count, char **words) {
    const char *folder = count > 1 ? words[1] : "/tmp";
    bytes = aligned_alloc(UNIT, 2 * LARGE);
    MUST(bytes != NULL);
    if (strcmp(folder, "memory") == 0) {
        memory();
        little_memory();
    } else if (!opens_file(folder)) {
        printf("direct: no file of %s has O_DIRECT\n", folder);
    } else {
        if (!is_strict) printf("direct: a file of %s with O_DIRECT takes any memory\n", folder);
        for (int is_beside = 0; is_beside < 2; is_beside++) {
            pages_of(UNIT, is_beside);
            pages_of(2 * UNIT, is_beside);
            pages_of(3 * UNIT, is_beside);
            pages_of(LARGE, is_beside);
        }
        close(direct);
        close(plain);
    }
    free(bytes);
    return end_as_expected();
}

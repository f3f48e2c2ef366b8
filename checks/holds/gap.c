/*
 * gap.c: what another handle does between two steps of a pin that takes no lock (HOLDS_PAUSE, c/holds.h). One thread plays both, so each run is
 * the same. Before the hold is stored, nobody knows of the pin, and the page leaves: the pin has to find it again. Behind it, the page is held,
 * and stays. Each page of the file is full of its number.
 */
#define _GNU_SOURCE /* mkstemp */
#include <stdio.h>
#include <stdlib.h>
#include <string.h>
#include <unistd.h>

#include "holds.h"
#include "warm.h"

enum { PAGE_SIZE = 64, FRAMES = 2, PAGES = 2 * FRAMES + 2 };

_Noreturn static void fail(const char *what, int line) {
    fprintf(stderr, "gap: line %d: not so: %s\n", line, what);
    exit(1);
}
#define MUST(what) ((what) ? (void)0 : fail(#what, __LINE__))

static warm pinning, other;
static int gaps_before; /* how many gaps pass before the other handle has its turn; below 0, it had it */
static int refused;     /* pins that the other handle was refused */

/* Pins this many pages at once, and unpins them. */
static void pin_at_once(uint64_t first, uint64_t count) {
    warm_slot slots[FRAMES];
    int pinned = 0;
    for (uint64_t no = first; no < first + count; no++) {
        const uint8_t *bytes;
        int status = warm_pin_bytes(&other, (warm_page){.no = no}, &slots[pinned], &bytes);
        MUST(status == WARM_OK || status == WARM_ALL_PINNED);
        if (status == WARM_OK) pinned++;
        else refused++;
    }
    while (pinned > 0) MUST(warm_unpin(&other, slots[--pinned]) == WARM_OK);
}

/* Pages that leave no frame for page 0; and then others, one of which is read to where the bytes of page 0 were, as one place is spare. */
static void push_out(void) {
    pin_at_once(1, FRAMES);
    for (uint64_t no = FRAMES + 1; no < PAGES; no++) pin_at_once(no, 1);
}

void holds_gap(void) {
    if (gaps_before-- == 0) push_out();
}

/* Pins the first page, whose bytes it must have, and unpins it. */
static void pin_first_page(void) {
    warm_slot slot;
    const uint8_t *bytes;
    static const uint8_t first[PAGE_SIZE];
    MUST(warm_pin_bytes(&pinning, (warm_page){.no = 0}, &slot, &bytes) == WARM_OK);
    MUST(memcmp(bytes, first, PAGE_SIZE) == 0);
    MUST(warm_unpin(&pinning, slot) == WARM_OK);
}

static int file_of_pages(void) {
    const char *folder = getenv("TMPDIR");
    char path[512];
    snprintf(path, sizeof path, "%s/warm-gap-XXXXXX", folder == NULL ? "/tmp" : folder);
    int fd = mkstemp(path);
    MUST(fd >= 0 && unlink(path) == 0);
    for (int page = 0; page < PAGES; page++) {
        uint8_t bytes[PAGE_SIZE];
        memset(bytes, page, PAGE_SIZE);
        MUST(pwrite(fd, bytes, PAGE_SIZE, (off_t)page * PAGE_SIZE) == PAGE_SIZE);
    }
    return fd;
}

/* The other handle has its turn in this gap of a pin of a page that was pinned twice, and so has a record: how many of its pins were refused. */
static int refused_in(int gap) {
    gaps_before = -1;
    pin_first_page();
    pin_first_page();
    gaps_before = gap;
    refused = 0;
    pin_first_page();
    MUST(gaps_before < 0);
    return refused;
}

int main(void) {
    const warm_device device = {.pages = PAGES, .fd = file_of_pages()};
    const warm_options options = {.size = sizeof options, .replica = 1, .frames = FRAMES, .page_size = PAGE_SIZE, .devices = &device, .device_count = 1};
    MUST(warm_open(&pinning, &options) == WARM_OK);
    MUST(warm_attach(&pinning, &other) == WARM_OK);
    MUST(refused_in(0) == 0);
    MUST(refused_in(1) == 1);
    MUST(warm_close(&other) == WARM_OK);
    MUST(warm_close(&pinning) == WARM_OK);
    puts("gap: before its hold the page leaves, behind it the page stays");
    return 0;
}

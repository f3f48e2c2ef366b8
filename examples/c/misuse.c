/* What is refused, and by which status: closed handles, stale slots, short buffers, damaged frames and dumps, bad descriptors, full disks. After each
 * refusal what was there before is still there. Prints each refused call with the name of its status. misuse SHARDS [FOLDER]: a replica has
 * this many shards, and its pages are of the last one; FOLDER is one on an empty disk of four blocks of 4,096 bytes. */
#define _GNU_SOURCE
#include <fcntl.h>
#include <signal.h>
#include <stdio.h>
#include <stdlib.h>
#include <string.h>
#include <sys/resource.h>
#include <sys/stat.h>
#include <unistd.h>

#define PROGRAM "misuse"
#include "expect.h"

enum { PAGE_SIZE = 512, DEVICE_PAGES = 8 * 64 };

static size_t shards;

/* The number of a page of the last bucket, of which the device has eight. */
static uint64_t number_of(uint64_t n) { return 64 * n + 63; }

static warm_page page_of(uint64_t n) { return (warm_page){.no = number_of(n)}; }

/* Where such a page is in its file. */
static off_t place_of(uint64_t n) { return (off_t)(number_of(n) * PAGE_SIZE); }

static void open_over(warm *handle, int fd, size_t frames) {
    warm_device device = {.pages = DEVICE_PAGES, .fd = fd};
    OK(open_with(handle, 1, shards, frames * shards, PAGE_SIZE, &device, 1));
}

/* Page 1 gets a byte at its start. */
static void write_one(warm *handle, uint8_t byte) {
    warm_slot slot;
    OK(warm_pin(handle, page_of(1), &slot));
    OK(warm_write(handle, slot, 0, &byte, 1));
    OK(warm_unpin(handle, slot));
}

static uint8_t read_one(warm *handle) {
    warm_slot slot;
    uint8_t byte;
    OK(warm_pin(handle, page_of(1), &slot));
    OK(warm_read(handle, slot, 0, &byte, 1));
    OK(warm_unpin(handle, slot));
    return byte;
}

static void closed_handle(void) {
    warm handle = {0}, attached = {0};
    warm_slot slot = {0};
    warm_page page = {0};
    warm_reference reference = {.time = 1, .replica = 1};
    warm_sending sending = {.bucket = 1};
    warm_options options = {.size = sizeof options};
    uint8_t byte = 0;
    const uint8_t *lent = &byte;
    bool found;
    size_t length;
    uint64_t horizon;
    EXPECT(WARM_CLOSED, warm_absorb(&handle, &reference, 1));
    EXPECT(WARM_CLOSED, warm_pin(&handle, page, &slot));
    EXPECT(WARM_CLOSED, warm_unpin(&handle, slot));
    EXPECT(WARM_CLOSED, warm_read(&handle, slot, 0, &byte, 1));
    EXPECT(WARM_CLOSED, warm_write(&handle, slot, 0, &byte, 1));
    EXPECT(WARM_CLOSED, warm_pin_bytes(&handle, page, &slot, &lent));
    EXPECT(WARM_CLOSED, warm_attach(&handle, &attached));
    EXPECT(WARM_CLOSED, warm_attach(&handle, &handle));
    MUST(attached.at == NULL && lent == &byte);
    EXPECT(WARM_CLOSED, warm_mark_dirty(&handle, slot));
    EXPECT(WARM_CLOSED, warm_settings(&handle, &options));
    EXPECT(WARM_CLOSED, warm_limit_waits(&handle, 1));
    EXPECT(WARM_CLOSED, warm_victims(&handle, 0, &page, 1, &length));
    EXPECT(WARM_CLOSED, warm_list(&handle, &page, 1, &length));
    EXPECT(WARM_CLOSED, warm_step(&handle, &found, &page));
    EXPECT(WARM_CLOSED, warm_prefetch(&handle, page));
    EXPECT(WARM_CLOSED, warm_offer(&handle, &byte, 1, &length));
    EXPECT(WARM_CLOSED, warm_send(&handle, &sending, &byte, 1, &length));
    EXPECT(WARM_CLOSED, warm_limit(&handle, 1));
    EXPECT(WARM_CLOSED, warm_limit_history(&handle, 1, 1));
    EXPECT(WARM_CLOSED, warm_receive(&handle, &byte, 1));
    EXPECT(WARM_CLOSED, warm_next_answer(&handle, &byte, 1, &length));
    EXPECT(WARM_CLOSED, warm_raise(&handle, 1, &horizon));
    EXPECT(WARM_CLOSED, warm_write_back_all(&handle));
    EXPECT(WARM_CLOSED, warm_history_length(&handle, &length));
    EXPECT(WARM_CLOSED, warm_save(&handle, STDOUT_FILENO));
    EXPECT(WARM_CLOSED, warm_load(&handle, STDIN_FILENO, 1));
    OK(warm_close(&handle));
    OK(warm_abandon(&handle));
}

/* A handle with a dirty page is closed when nothing would be lost. */
static void closing(warm *handle) {
    warm_slot slot;
    EXPECT(WARM_DIRTY, warm_close(handle));
    OK(warm_write_back_all(handle));
    OK(warm_pin(handle, page_of(1), &slot));
    EXPECT(WARM_PINS_LEFT, warm_close(handle));
    OK(warm_mark_dirty(handle, slot));
    OK(warm_unpin(handle, slot));
    EXPECT(WARM_DIRTY, warm_close(handle));
    MUST(read_one(handle) == 'a'); /* it stayed open */
    OK(warm_write_back_all(handle));
    OK(warm_close(handle));
    MUST(handle->at == NULL);
}

static void opening(void) {
    int fd = temporary();
    warm_device device = {.pages = DEVICE_PAGES, .fd = fd}, too_large = {.pages = UINT64_MAX / PAGE_SIZE, .fd = fd};
    warm_options options = {.size = sizeof options, .replica = 1, .shards = shards, .frames = shards, .devices = &device, .device_count = 1, .flags = 1};
    warm handle = {0};
    EXPECT(WARM_BAD_OPTIONS, warm_open(&handle, &options));
    options.flags = 0;
    options.size = 0;
    EXPECT(WARM_BAD_OPTIONS, warm_open(&handle, &options));
    EXPECT(WARM_BAD_SHARDS, open_with(&handle, 1, 3, 3, PAGE_SIZE, &device, 1));
    EXPECT(WARM_BAD_SHARDS, open_with(&handle, 1, 63, 63, PAGE_SIZE, &device, 1));
    EXPECT(WARM_BAD_SHARDS, open_with(&handle, 1, 128, 128, PAGE_SIZE, &device, 1));
    EXPECT(WARM_BAD_SHARDS, open_with(&handle, 0, SIZE_MAX, 1, 65537, &device, 1)); /* which is checked first */
    EXPECT(WARM_UNEVEN_FRAMES, open_with(&handle, 0, 2, 3, 65537, &device, 1));
    EXPECT(WARM_UNEVEN_FRAMES, open_with(&handle, 1, 64, 63, PAGE_SIZE, &device, 1));
    EXPECT(WARM_BAD_REPLICA, open_with(&handle, 0, shards, shards, PAGE_SIZE, &device, 1));
    EXPECT(WARM_BAD_REPLICA, open_with(&handle, 65, shards, 65537 * shards, PAGE_SIZE, &device, 1));
    EXPECT(WARM_BAD_FRAMES, open_with(&handle, 1, shards, 65537 * shards, 65537, &device, 1));
    EXPECT(WARM_BAD_PAGE_SIZE, open_with(&handle, 1, shards, shards, 65537, &too_large, 1));
    EXPECT(WARM_BAD_DEVICE, open_with(&handle, 1, shards, shards, PAGE_SIZE, &too_large, 1));
    EXPECT(WARM_BAD_DEVICE, open_with(&handle, 1, shards, shards, PAGE_SIZE, &device, WARM_MAX_DEVICES + 1));
    MUST(handle.at == NULL);
    OK(open_with(&handle, 1, shards, 2 * shards, PAGE_SIZE, &device, 1));
    write_one(&handle, 'a');
    EXPECT(WARM_ALREADY_OPEN, open_with(&handle, 1, shards, 2 * shards, PAGE_SIZE, &device, 1));
    MUST(read_one(&handle) == 'a'); /* the second open took nothing from the first */
    EXPECT(WARM_BAD_OPTIONS, warm_settings(&handle, &options));
    options.size = sizeof options;
    OK(warm_settings(&handle, &options));
    MUST(options.replica == 1 && options.shards == shards && options.frames == 2 * shards && options.page_size == PAGE_SIZE);
    MUST(options.device_count == 1 && options.devices == NULL && options.flags == 0);
    closing(&handle);
    OK(open_with(&handle, 1, shards, 0, 0, &device, 1)); /* the defaults */
    OK(warm_settings(&handle, &options));
    MUST(options.frames == 1024 && options.page_size == 4096);
    OK(warm_close(&handle));
    OK(open_with(&handle, 1, shards, shards, PAGE_SIZE, NULL, 0)); /* without a device: a history alone */
    warm_slot slot;
    EXPECT(WARM_NO_DEVICE, warm_pin(&handle, (warm_page){0}, &slot));
    OK(warm_write_back_all(&handle));
    OK(warm_close(&handle));
    close(fd);
}

/* found is a byte that nobody wrote; it is 0 or 1 afterwards, and page is as it was where it is 0. */
static uint8_t found_by(int call(warm *, bool *, warm_page *), warm *handle, warm_page *page) {
    bool found;
    uint8_t byte;
    *page = (warm_page){.no = 77, .dev = 7};
    OK(call(handle, &found, page));
    memcpy(&byte, &found, 1);
    MUST(byte == 1 || (byte == 0 && page->no == 77 && page->dev == 7));
    return byte;
}

static int victim_of_last(warm *handle, bool *found, warm_page *page) { return next_victim(handle, shards - 1, found, page); }

static void found_pages(void) {
    const warm_reference seen[] = {{.time = 20, .no = number_of(5), .replica = 1}, {.time = 10, .no = number_of(3), .replica = 1}};
    int fd = temporary();
    warm handle = {0};
    warm_page page;
    warm_slot slot;
    open_over(&handle, fd, 2);
    MUST(found_by(victim_of_last, &handle, &page) == 0); /* no page is in a frame */
    MUST(found_by(warm_step, &handle, &page) == 0);   /* none is known */
    OK(warm_absorb(&handle, seen, 2));
    MUST(found_by(warm_step, &handle, &page) == 1 && page.no == number_of(5) && page.dev == 0); /* the hottest first */
    MUST(found_by(warm_step, &handle, &page) == 1 && page.no == number_of(3) && page.dev == 0);
    MUST(found_by(warm_step, &handle, &page) == 0);
    MUST(found_by(victim_of_last, &handle, &page) == 1 && page.no == number_of(3) && page.dev == 0); /* of two pages that were referenced once, the older */
    OK(warm_pin(&handle, page_of(3), &slot));
    MUST(found_by(victim_of_last, &handle, &page) == 1 && page.no == number_of(5));
    OK(warm_pin(&handle, page_of(5), &slot));
    MUST(found_by(victim_of_last, &handle, &page) == 0); /* all are pinned */
    bool found = true;
    EXPECT(WARM_NO_SHARD, next_victim(&handle, shards, &found, &page));
    EXPECT(WARM_NO_SHARD, next_victim(&handle, SIZE_MAX, &found, &page));
    MUST(found);
    OK(warm_abandon(&handle));
    close(fd);
}

/* More pages that may leave than a call says: it says 64, each once, and all are there. */
static void many_victims(void) {
    enum { MANY = 100, SAID = 64 };
    int fd = temporary();
    const warm_device device = {.pages = MANY, .fd = fd};
    warm_page said[MANY];
    bool is_said[MANY] = {false}, resident;
    warm handle = {0};
    warm_slot slot;
    size_t count;
    OK(open_with(&handle, 1, 1, MANY, PAGE_SIZE, &device, 1));
    for (uint64_t no = 0; no < MANY; no++) {
        OK(warm_pin(&handle, (warm_page){.no = no}, &slot));
        OK(warm_unpin(&handle, slot));
    }
    OK(warm_victims(&handle, 0, said, MANY, &count));
    MUST(count == SAID);
    for (size_t at = 0; at < count; at++) {
        OK(warm_resident(&handle, said[at], &resident));
        MUST(resident && !is_said[said[at].no]);
        is_said[said[at].no] = true;
    }
    OK(warm_pin(&handle, said[0], &slot));
    OK(warm_victims(&handle, 0, &said[MANY - 1], 1, &count));
    MUST(count == 1 && said[MANY - 1].no == said[1].no);
    OK(warm_unpin(&handle, slot));
    OK(warm_close(&handle));
    close(fd);
}

/* A slot of a handle that was closed since is stale to it once it is open again, until its frame has taken as many pages as it had then: then it is
 * the slot of the page that is there. Slots that no call wrote are stale. */
static void slots_of_before(void) {
    const uint16_t last = (uint16_t)(shards - 1), none = (uint16_t)shards;
    const warm_slot made_up[] = {{0, 0, last, 0}, {1, 0, last, 1}, {UINT64_MAX, 0, last, 0}, {1, 2, last, 0}, {1, UINT32_MAX, last, 1}, {1, 0, none, 0}, {1, 0, UINT16_MAX, 9}};
    int fd = temporary();
    warm handle = {0};
    warm_slot slot;
    uint8_t byte = 0;
    open_over(&handle, fd, 2);
    OK(warm_pin(&handle, page_of(1), &slot));
    OK(warm_abandon(&handle));
    EXPECT(WARM_CLOSED, warm_read(&handle, slot, 0, &byte, 1));
    open_over(&handle, fd, 2);
    EXPECT(WARM_STALE_SLOT, warm_read(&handle, slot, 0, &byte, 1));
    EXPECT(WARM_STALE_SLOT, warm_write(&handle, slot, 0, &byte, 1));
    EXPECT(WARM_STALE_SLOT, warm_unpin(&handle, slot));
    for (size_t at = 0; at < sizeof made_up / sizeof *made_up; at++) {
        EXPECT(WARM_STALE_SLOT, warm_read(&handle, made_up[at], 0, &byte, 1));
        EXPECT(WARM_STALE_SLOT, warm_write(&handle, made_up[at], 0, &byte, 0)); /* also where there is no byte to write */
        EXPECT(WARM_STALE_SLOT, warm_unpin(&handle, made_up[at]));
    }
    warm_slot again;
    uint8_t written = 'o';
    OK(warm_pin(&handle, page_of(2), &again));
    MUST(again.shard == slot.shard && again.index == slot.index && again.generation == slot.generation);
    OK(warm_write(&handle, again, 0, &written, 1));
    OK(warm_read(&handle, slot, 0, &byte, 1));
    MUST(byte == written); /* of page 2, and the slot was given for page 1 */
    OK(warm_unpin(&handle, slot));
    EXPECT(WARM_STALE_SLOT, warm_unpin(&handle, again));
    OK(warm_abandon(&handle));
    close(fd);
}

/* A slot that was given for its own shard means nothing in any other. */
static void other_shards(warm *handle, warm_slot slot) {
    const uint16_t own = slot.shard, others[] = {(uint16_t)(own + 1), (uint16_t)(own - 1), 0, (uint16_t)shards, UINT16_MAX};
    const uint8_t *lent = NULL;
    uint8_t byte = 'u', *lent_mut = NULL;
    for (size_t at = 0; at < sizeof others / sizeof *others; at++) {
        slot.shard = others[at];
        if (slot.shard == own) continue;
        EXPECT(WARM_STALE_SLOT, warm_read(handle, slot, 0, &byte, 1));
        EXPECT(WARM_STALE_SLOT, warm_write(handle, slot, 0, &byte, 1));
        EXPECT(WARM_STALE_SLOT, warm_bytes(handle, slot, &lent));
        EXPECT(WARM_STALE_SLOT, warm_bytes_mut(handle, slot, &lent_mut));
        EXPECT(WARM_STALE_SLOT, warm_unpin(handle, slot));
    }
    MUST(byte == 'u' && lent == NULL && lent_mut == NULL);
}

static void slots(void) {
    int fd = temporary();
    warm handle = {0};
    warm_slot slot, other;
    uint8_t bytes[PAGE_SIZE + 1] = {0};
    open_over(&handle, fd, 1);
    EXPECT(WARM_NO_DEVICE, warm_pin(&handle, (warm_page){.dev = 1}, &slot));
    EXPECT(WARM_NO_PAGE, warm_pin(&handle, page_of(8), &slot));
    OK(warm_pin(&handle, page_of(1), &slot));
    MUST(slot.shard == shards - 1 && slot.index == 0);
    other_shards(&handle, slot);
    EXPECT(WARM_ALL_PINNED, warm_pin(&handle, page_of(2), &other));
    EXPECT(WARM_OUT_OF_PAGE, warm_read(&handle, slot, 0, bytes, PAGE_SIZE + 1));
    EXPECT(WARM_OUT_OF_PAGE, warm_read(&handle, slot, PAGE_SIZE + 1, bytes, 0));
    EXPECT(WARM_OUT_OF_PAGE, warm_write(&handle, slot, PAGE_SIZE, bytes, 1));
    EXPECT(WARM_OUT_OF_PAGE, warm_write(&handle, slot, SIZE_MAX, bytes, 2));
    OK(warm_read(&handle, slot, PAGE_SIZE, bytes, 0)); /* no bytes, at the very end */
    OK(warm_write(&handle, slot, 0, bytes, 0));
    OK(warm_unpin(&handle, slot));
    EXPECT(WARM_STALE_SLOT, warm_unpin(&handle, slot)); /* its page has no fix */
    OK(warm_pin(&handle, page_of(2), &other));
    EXPECT(WARM_STALE_SLOT, warm_read(&handle, slot, 0, bytes, 1)); /* another page is in the frame */
    EXPECT(WARM_STALE_SLOT, warm_write(&handle, slot, 0, bytes, 1));
    EXPECT(WARM_STALE_SLOT, warm_write(&handle, (warm_slot){.index = 1, .generation = 1, .shard = slot.shard}, 0, bytes, 1)); /* no such frame */
    OK(warm_unpin(&handle, other));
    OK(warm_abandon(&handle));
    close(fd);
}

/* A node without references hears by digests what the other one knows: one page. */
static void answers(warm *handle) {
    warm other = {0};
    warm_device none = {0};
    uint8_t frame[4096];
    size_t length, count;
    OK(open_with(&other, 2, shards, shards, PAGE_SIZE, &none, 0));
    OK(warm_offer(&other, frame, sizeof frame, &length));
    OK(warm_receive(handle, frame, length));
    EXPECT(WARM_BUFFER_TOO_SMALL, warm_next_answer(handle, frame, 0, &length));
    MUST(length == 54);
    EXPECT(WARM_BUFFER_TOO_SMALL, warm_next_answer(handle, frame, length - 1, &length));
    MUST(length == 54); /* it stays the next */
    OK(warm_next_answer(handle, frame, length, &length));
    OK(warm_receive(&other, frame, length));
    OK(warm_history_length(&other, &count));
    MUST(count == 1);
    OK(warm_next_answer(&other, frame, 0, &length)); /* no answer needs no room */
    MUST(length == 0);
    OK(warm_abandon(&other));
}

/* A status begins with its constant. Other numbers are said to be none. */
static void worded(void) {
    MUST(strcmp(warm_strerror(WARM_CLOSED), "WARM_CLOSED: the handle is closed") == 0);
    MUST(strncmp(warm_strerror(WARM_DIGESTS_DIFFER), "WARM_DIGESTS_DIFFER: ", 21) == 0);
    MUST(strcmp(warm_strerror(WARM_BUSY + 1), "there is no such status") == 0);
    MUST(warm_strerror(WARM_BAD_ORDER + 1) == warm_strerror(-1)); /* no status, though a decoder of a stream has such a fault */
    MUST(strcmp(warm_version(), WARM_VERSION) == 0);
}

static void buffers(void) {
    int fd = temporary();
    warm handle = {0};
    const warm_reference good[] = {{.time = 20, .no = 7, .replica = 1}, {.time = 10, .no = 7, .replica = 1}};
    const warm_reference bad[] = {{.time = 30, .no = 8, .replica = 1}, {.time = 30, .no = 8, .replica = 65}};
    uint8_t frame[4096];
    warm_page page = {0};
    size_t length = 0, count;
    uint64_t horizon;
    open_over(&handle, fd, 2);
    OK(warm_absorb(&handle, good, 0));
    OK(warm_absorb(&handle, good, 2));
    EXPECT(WARM_BAD_REPLICA, warm_absorb(&handle, bad, 2));
    OK(warm_history_length(&handle, &count));
    MUST(count == 1); /* all or none: the first of the refused references is not there */
    OK(warm_list(&handle, &page, 0, &count));
    MUST(count == 0);
    EXPECT(WARM_BUFFER_TOO_SMALL, warm_offer(&handle, frame, 0, &length));
    MUST(length == 2067);
    EXPECT(WARM_BUFFER_TOO_SMALL, warm_offer(&handle, frame, length - 1, &length));
    OK(warm_offer(&handle, frame, sizeof frame, &length));
    MUST(memcmp(frame + 19 + 7 * 32, "\x57\x8d\x81\xdb\xdf\x5f\xd3\xe0", 8) == 0); /* the digest of bucket 7 begins so, docs/FORMATS.md says */
    EXPECT(WARM_BAD_BUCKET, send_behind(&handle, 64, false, page, frame, sizeof frame, &length));
    EXPECT(WARM_BAD_BUCKET, send_behind(&handle, 255, true, page, frame, 0, &length));
    EXPECT(WARM_BUFFER_TOO_SMALL, send_behind(&handle, 7, false, page, frame, 0, &length));
    MUST(length == 54);
    EXPECT(WARM_BUFFER_TOO_SMALL, send_behind(&handle, 7, false, page, frame, 53, &length));
    MUST(length == 54);
    answers(&handle);
    OK(warm_raise(&handle, 15, &horizon));
    OK(warm_raise(&handle, 3, &horizon));
    MUST(horizon == 15); /* a horizon does not fall */
    OK(warm_abandon(&handle));
    close(fd);
}

/* The frame of page 0:7 with 20@1 and 10@1 from replica 1, with the horizon 12: an example of docs/FORMATS.md. */
static const uint8_t good[54] = {'L', '2', 'G', '2', 1, 0, 1, 0, 0, 0, 0, 0, 0, 0, 12, 0, 0, 0, 0x23, 0, 0, 0, 1, 0, 0,
    0, 0, 0, 0, 0, 0, 0, 7, 2, 0, 0, 0, 0, 0, 0, 0, 20, 0, 1, 0, 0, 0, 0, 0, 0, 0, 10, 0, 1};

/* The frame of page 0:8 with the same stamps in the older format, which has no horizon and four bytes of a page's number. */
static const uint8_t narrow[42] = {'L', '2', 'G', '1', 1, 0, 1, 0, 0, 0, 0x1f, 0, 0, 0, 1, 0, 0, 0, 0, 0, 8, 2,
    0, 0, 0, 0, 0, 0, 0, 20, 0, 1, 0, 0, 0, 0, 0, 0, 0, 10, 0, 1};

/* Each case changes one byte. */
static void damaged_frames(void) {
    static const struct {
        int status;
        uint8_t at, byte;
    } cases[] = {{WARM_BAD_MAGIC, 0, 'M'}, {WARM_BAD_MAGIC, 3, '3'}, {WARM_BAD_KIND, 4, 4}, {WARM_BAD_SENDER, 6, 65}, {WARM_TRUNCATED, 18, 0x24},
        {WARM_BAD_LENGTH, 18, 0x22}, {WARM_BAD_LENGTH, 18, 3}, {WARM_BAD_COUNT, 21, 4}, {WARM_BAD_LENGTH, 22, 0}, {WARM_BAD_LENGTH, 22, 2},
        {WARM_BAD_TAG, 33, 3}, {WARM_BAD_STAMP, 43, 0}, {WARM_BAD_STAMP, 51, 20}};
    uint8_t frame[sizeof good];
    size_t count;
    warm_device none = {0};
    warm handle = {0};
    OK(open_with(&handle, 2, shards, shards, PAGE_SIZE, &none, 0));
    EXPECT(WARM_TRUNCATED, warm_receive(&handle, good, 0));
    EXPECT(WARM_TRUNCATED, warm_receive(&handle, good, sizeof good - 1));
    for (size_t at = 0; at < sizeof cases / sizeof *cases; at++) {
        memcpy(frame, good, sizeof good);
        frame[cases[at].at] = cases[at].byte;
        expect(cases[at].status, warm_receive(&handle, frame, sizeof frame), "warm_receive of a damaged frame");
        OK(warm_history_length(&handle, &count));
        MUST(count == 0);
    }
    OK(warm_receive(&handle, good, sizeof good));
    OK(warm_receive(&handle, narrow, sizeof narrow));
    OK(warm_history_length(&handle, &count));
    MUST(count == 2);
    OK(warm_abandon(&handle));
}

static size_t pages_of(warm *handle) {
    size_t count;
    OK(warm_history_length(handle, &count));
    return count;
}

static void open_alone(warm *handle, uint16_t replica) {
    warm_device none = {0};
    OK(open_with(handle, replica, shards, shards, PAGE_SIZE, &none, 0));
}

/* A frame of one entry with two stamps has 54 bytes, one of digests 2,067: docs/FORMATS.md says so. */
enum { DUMP_ENTRY = 54, DUMP_SIZE = DUMP_ENTRY + 2067 };

/* The dump of page 0:7 with 20@1 and 10@1 from replica 1, in a file of its own. */
static int dump_of_one(void) {
    const warm_reference seen[] = {{.time = 20, .no = 7, .replica = 1}, {.time = 10, .no = 7, .replica = 1}};
    warm handle = {0};
    struct stat file;
    int fd = temporary();
    open_alone(&handle, 1);
    OK(warm_absorb(&handle, seen, 2));
    OK(warm_save(&handle, fd));
    MUST(fstat(fd, &file) == 0 && file.st_size == DUMP_SIZE);
    OK(warm_abandon(&handle));
    return fd;
}

/* Each case changes one byte of the dump, and the other handle still knows its own page alone. */
static void damaged_dumps(void) {
    static const struct {
        int status;
        int at;
        uint8_t byte;
    } cases[] = {{WARM_BAD_MAGIC, 0, 'M'}, {WARM_BAD_KIND, 4, 4}, {WARM_BAD_SENDER, 6, 65}, {WARM_HORIZONS_DIFFER, 14, 1}, {WARM_BAD_LENGTH, 18, 0x22},
        {WARM_BAD_COUNT, 21, 4}, {WARM_DIGESTS_DIFFER, 32, 8}, {WARM_BAD_TAG, 33, 3}, {WARM_DIGESTS_DIFFER, 41, 21}, {WARM_BAD_STAMP, 43, 0},
        {WARM_BAD_MAGIC, DUMP_ENTRY, 'M'}, {WARM_BAD_KIND, DUMP_ENTRY + 4, 0}, {WARM_HORIZONS_DIFFER, DUMP_ENTRY + 14, 1},
        {WARM_DIGESTS_DIFFER, DUMP_ENTRY + 19, 0}, {WARM_DIGESTS_DIFFER, DUMP_SIZE - 1, 0}};
    const warm_reference own = {.time = 5, .no = 3, .replica = 2};
    int fd = dump_of_one();
    warm handle = {0};
    open_alone(&handle, 2);
    OK(warm_absorb(&handle, &own, 1));
    for (size_t at = 0; at < sizeof cases / sizeof *cases; at++) {
        uint8_t was;
        MUST(pread(fd, &was, 1, cases[at].at) == 1 && pwrite(fd, &cases[at].byte, 1, cases[at].at) == 1);
        MUST(was != cases[at].byte);
        expect(cases[at].status, warm_load(&handle, fd, DUMP_SIZE), "warm_load of a damaged dump");
        MUST(pwrite(fd, &was, 1, cases[at].at) == 1 && pages_of(&handle) == 1);
    }
    OK(warm_load(&handle, fd, DUMP_SIZE));
    MUST(pages_of(&handle) == 2);
    OK(warm_abandon(&handle));
    close(fd);
}

/* Lengths that are not the file's, a file that was cut, and one that had more bytes before. */
static void wrong_lengths(void) {
    int fd = dump_of_one();
    warm handle = {0};
    open_alone(&handle, 2);
    for (uint64_t length = 0; length < DUMP_SIZE; length++) MUST(warm_load(&handle, fd, length) == WARM_CUT_SHORT);
    EXPECT(WARM_MORE_FOLLOWS, warm_load(&handle, fd, DUMP_SIZE + 1));
    EXPECT(WARM_MORE_FOLLOWS, warm_load(&handle, fd, UINT64_MAX));
    MUST(pages_of(&handle) == 0);
    MUST(pwrite(fd, "", 1, DUMP_SIZE) == 1);
    OK(warm_save(&handle, fd)); /* a file that was not empty: the dump of no page, and the rest of the old one */
    EXPECT(WARM_MORE_FOLLOWS, warm_load(&handle, fd, DUMP_SIZE));
    MUST(ftruncate(fd, 2067) == 0);
    OK(warm_load(&handle, fd, 2067));
    MUST(ftruncate(fd, 2066) == 0);
    EXPECT(WARM_CUT_SHORT, warm_load(&handle, fd, 2066));
    EXPECT(WARM_DIGESTS_DIFFER, warm_load(&handle, fd, 2067)); /* a zero stands where its last byte was */
    MUST(ftruncate(fd, 0) == 0);
    EXPECT(WARM_CUT_SHORT, warm_load(&handle, fd, 0));
    EXPECT(WARM_BAD_MAGIC, warm_load(&handle, fd, 1 << 20));
    OK(warm_abandon(&handle));
    close(fd);
}

/* A dump is joined: pages of both, at the later horizon of both, and answers that wait still wait. Nothing is joined twice. */
static void joined_dumps(void) {
    static uint8_t frame[4096], again[4096];
    const warm_reference own = {.time = 30, .no = 8, .replica = 2};
    int fd = dump_of_one();
    uint64_t horizon;
    size_t length;
    warm handle = {0}, other = {0};
    open_alone(&handle, 2);
    open_alone(&other, 3);
    OK(warm_absorb(&handle, &own, 1));
    OK(warm_offer(&other, frame, sizeof frame, &length));
    OK(warm_receive(&handle, frame, length));
    OK(warm_raise(&handle, 15, &horizon));
    OK(warm_load(&handle, fd, DUMP_SIZE));
    OK(warm_raise(&handle, 0, &horizon));
    MUST(horizon == 15 && pages_of(&handle) == 2);
    OK(warm_next_answer(&handle, frame, sizeof frame, &length));
    MUST(length == 44); /* page 0:8 with one stamp, as it was before the load */
    OK(send_behind(&handle, 7, false, (warm_page){0}, frame, sizeof frame, &length));
    MUST(length == 44 && frame[33] == 1 && frame[41] == 20); /* of page 0:7 only 20@1 is left */
    OK(warm_load(&handle, fd, DUMP_SIZE));
    OK(send_behind(&handle, 7, false, (warm_page){0}, again, sizeof again, &length));
    MUST(length == 44 && memcmp(frame, again, 44) == 0 && pages_of(&handle) == 2);
    OK(warm_abandon(&handle));
    OK(warm_abandon(&other));
    close(fd);
}

static void knows(warm *handle, size_t pages, uint64_t horizon) {
    uint64_t kept;
    OK(warm_raise(handle, 0, &kept)); /* the horizon is not raised by this */
    MUST(pages_of(handle) == pages && kept == horizon);
}

/* Frames of more pages than there may be, or of a horizon that is too late, change nothing; in both formats. */
static void limited_frames(void) {
    uint8_t frame[4096];
    uint64_t horizon;
    size_t length;
    warm handle = {0}, other = {0};
    open_alone(&handle, 2);
    open_alone(&other, 3);
    OK(warm_limit_history(&handle, 11, SIZE_MAX));
    EXPECT(WARM_LATE_HORIZON, warm_receive(&handle, good, sizeof good)); /* its horizon is 12 */
    OK(warm_raise(&other, 12, &horizon));
    OK(warm_offer(&other, frame, sizeof frame, &length));
    EXPECT(WARM_LATE_HORIZON, warm_receive(&handle, frame, length));
    OK(warm_limit_history(&handle, 12, 0));
    EXPECT(WARM_TOO_MANY_PAGES, warm_receive(&handle, good, sizeof good));
    EXPECT(WARM_TOO_MANY_PAGES, warm_receive(&handle, narrow, sizeof narrow));
    EXPECT(WARM_TRUNCATED, warm_receive(&handle, good, sizeof good - 1));
    knows(&handle, 0, 0);
    OK(warm_receive(&handle, frame, length)); /* it has no entries */
    OK(send_behind(&other, 7, false, (warm_page){0}, frame, sizeof frame, &length));
    MUST(length == 23);
    OK(warm_receive(&handle, frame, length)); /* nor has this one, of entries */
    OK(warm_limit_history(&handle, 12, 1));
    OK(warm_receive(&handle, good, sizeof good));
    EXPECT(WARM_TOO_MANY_PAGES, warm_receive(&handle, good, sizeof good)); /* though its page is known */
    EXPECT(WARM_TOO_MANY_PAGES, warm_receive(&handle, narrow, sizeof narrow));
    knows(&handle, 1, 12);
    OK(warm_limit_history(&handle, 12, 2));
    OK(warm_receive(&handle, narrow, sizeof narrow));
    knows(&handle, 2, 12);
    OK(warm_close(&handle));
    OK(warm_close(&other));
}

/* Frames that speak of times later than the limit of a handle change nothing, and those of the limit itself are taken. */
static void late_frames(void) {
    uint8_t frame[4096];
    int fd = dump_of_one();
    uint64_t horizon;
    size_t length;
    warm handle = {0}, other = {0};
    open_alone(&handle, 2);
    open_alone(&other, 3);
    OK(warm_limit(&handle, 11));
    EXPECT(WARM_LATE_HORIZON, warm_receive(&handle, good, sizeof good)); /* its horizon is 12, and a stamp 20 */
    OK(warm_limit(&handle, 12));
    EXPECT(WARM_LATE_STAMP, warm_receive(&handle, good, sizeof good));
    OK(warm_limit(&handle, 19));
    EXPECT(WARM_LATE_STAMP, warm_receive(&handle, good, sizeof good));
    EXPECT(WARM_LATE_STAMP, warm_receive(&handle, narrow, sizeof narrow));
    OK(warm_limit_history(&handle, 11, SIZE_MAX));
    EXPECT(WARM_LATE_HORIZON, warm_receive(&handle, good, sizeof good)); /* by the other limit, which comes first */
    OK(warm_limit_history(&handle, UINT64_MAX, SIZE_MAX));
    EXPECT(WARM_TRUNCATED, warm_receive(&handle, good, sizeof good - 1)); /* what is no frame is so whatever the limit is */
    knows(&handle, 0, 0);
    OK(warm_offer(&other, frame, sizeof frame, &length)); /* a frame of digests has a horizon alone */
    OK(warm_receive(&handle, frame, length));
    OK(warm_raise(&other, 20, &horizon));
    OK(warm_offer(&other, frame, sizeof frame, &length));
    EXPECT(WARM_LATE_HORIZON, warm_receive(&handle, frame, length));
    knows(&handle, 0, 0);
    OK(warm_limit(&handle, 0));
    OK(warm_load(&handle, fd, DUMP_SIZE)); /* a dump is the caller's own */
    knows(&handle, 1, 0);
    OK(warm_limit(&handle, 20));
    OK(warm_receive(&handle, good, sizeof good));
    OK(warm_receive(&handle, narrow, sizeof narrow));
    knows(&handle, 2, 12);
    OK(warm_limit(&handle, 0));
    OK(warm_abandon(&handle));
    open_alone(&handle, 2);
    OK(warm_receive(&handle, good, sizeof good)); /* a handle that was just opened has no limit */
    knows(&handle, 1, 12);
    memcpy(frame, good, sizeof good);
    memset(frame + 7, 0xff, 8);
    OK(warm_receive(&handle, frame, sizeof good));
    knows(&handle, 0, UINT64_MAX); /* the greatest horizon empties it */
    OK(warm_abandon(&handle));
    OK(warm_abandon(&other));
    close(fd);
}

/* Descriptors from which no dump can be read, or to which none can be written. */
static void dumps_of_wrong_descriptors(void) {
    int fd = dump_of_one(), ends[2], null = open("/dev/null", O_WRONLY);
    char link[64];
    warm handle = {0};
    open_alone(&handle, 2);
    snprintf(link, sizeof link, "/proc/self/fd/%d", fd);
    int reader = open(link, O_RDONLY), writer = open(link, O_WRONLY);
    MUST(reader >= 0 && writer >= 0 && null >= 0 && pipe(ends) == 0);
    EXPECT(WARM_DUMP_NOT_WRITTEN, warm_save(&handle, null)); /* it takes each byte, and cannot be synced */
    EXPECT(WARM_DUMP_NOT_WRITTEN, warm_save(&handle, -1));
    EXPECT(WARM_DUMP_NOT_WRITTEN, warm_save(&handle, INT32_MAX));
    EXPECT(WARM_DUMP_NOT_WRITTEN, warm_save(&handle, reader));
    EXPECT(WARM_DUMP_NOT_WRITTEN, warm_save(&handle, ends[1]));
    EXPECT(WARM_DUMP_NOT_READ, warm_load(&handle, -1, 1));
    EXPECT(WARM_DUMP_NOT_READ, warm_load(&handle, INT32_MIN, UINT64_MAX));
    EXPECT(WARM_DUMP_NOT_READ, warm_load(&handle, writer, DUMP_SIZE));
    EXPECT(WARM_DUMP_NOT_READ, warm_load(&handle, ends[0], DUMP_SIZE));
    EXPECT(WARM_CUT_SHORT, warm_load(&handle, -1, 0)); /* of no byte none is read */
    MUST(pages_of(&handle) == 0);
    OK(warm_load(&handle, reader, DUMP_SIZE));
    OK(warm_save(&handle, writer)); /* the same history: the same length, by another sender */
    OK(warm_load(&handle, reader, DUMP_SIZE));
    MUST(pages_of(&handle) == 1);
    close(null);
    close(writer);
    close(reader);
    close(ends[0]);
    close(ends[1]);
    OK(warm_abandon(&handle));
    close(fd);
}

/* A file that takes no byte: nothing is written, and nothing of the history is lost. */
static void dumps_without_room(const char *folder) {
    enum { MANY = 1000 };
    static warm_reference seen[MANY];
    warm handle = {0}, other = {0};
    int full = open("/dev/full", O_RDWR), fd = folder == NULL ? -1 : temporary_in(folder);
    open_alone(&handle, 1);
    for (uint64_t no = 0; no < MANY; no++) seen[no] = (warm_reference){.time = no, .no = no, .replica = 1};
    OK(warm_absorb(&handle, seen, MANY));
    if (full >= 0) {
        EXPECT(WARM_DUMP_NOT_WRITTEN, warm_save(&handle, full));
        close(full);
    }
    if (fd >= 0) {
        struct stat file;
        EXPECT(WARM_DUMP_NOT_WRITTEN, warm_save(&handle, fd)); /* 16,384 bytes fit, and the dump has more */
        MUST(fstat(fd, &file) == 0);
        open_alone(&other, 2);
        EXPECT(WARM_CUT_SHORT, warm_load(&other, fd, (uint64_t)file.st_size));
        MUST(pages_of(&other) == 0);
        OK(warm_abandon(&other));
        close(fd);
    }
    MUST(pages_of(&handle) == MANY);
    OK(warm_abandon(&handle));
}

/* Descriptors that were never good: none, of a pipe, for reading alone. */
static void wrong_descriptors(void) {
    int fd = temporary(), ends[2];
    char link[64];
    warm handle = {0};
    warm_slot slot;
    open_over(&handle, -1, 1);
    EXPECT(WARM_READ_FAULT, warm_pin(&handle, page_of(1), &slot));
    OK(warm_abandon(&handle));
    MUST(pipe(ends) == 0);
    open_over(&handle, ends[0], 1);
    EXPECT(WARM_READ_FAULT, warm_pin(&handle, page_of(1), &slot));
    OK(warm_abandon(&handle));
    snprintf(link, sizeof link, "/proc/self/fd/%d", fd);
    int reader = open(link, O_RDONLY);
    MUST(reader >= 0);
    open_over(&handle, reader, 1);
    write_one(&handle, 'r');
    EXPECT(WARM_WRITE_FAULT, warm_write_back_all(&handle));
    EXPECT(WARM_EVICT_FAULT, warm_pin(&handle, page_of(2), &slot));
    MUST(read_one(&handle) == 'r');
    OK(warm_abandon(&handle));
    close(reader);
    close(ends[0]);
    close(ends[1]);
    close(fd);
}

/* Descriptors by which each write would go to the end of the file: no replica has one. */
static void appending(void) {
    int fd = temporary(), other = temporary();
    const warm_device device = {.pages = DEVICE_PAGES, .fd = fd}, next = {.pages = DEVICE_PAGES, .fd = other};
    warm handle = {0};
    MUST(fcntl(fd, F_SETFL, O_APPEND) == 0 && fcntl(other, F_SETFL, O_APPEND) == 0);
    EXPECT(WARM_BAD_PAGE_SIZE, open_with(&handle, 1, shards, shards, 65537, &device, 1));
    EXPECT(WARM_APPENDS, open_with(&handle, 1, shards, shards, PAGE_SIZE, &device, 1));
    MUST(handle.at == NULL && fcntl(fd, F_SETFL, 0) == 0);
    open_over(&handle, fd, 1);
    write_one(&handle, 'a');
    EXPECT(WARM_APPENDS, warm_replace(&handle, 0, &next));
    OK(warm_write_back_all(&handle));
    uint8_t byte = 0;
    MUST(pread(fd, &byte, 1, place_of(1)) == 1 && byte == 'a' && lseek(other, 0, SEEK_END) == 0);
    MUST(fcntl(other, F_SETFL, 0) == 0);
    OK(warm_replace(&handle, 0, &next));
    OK(warm_close(&handle));
    close(fd);
    close(other);
}

static void descriptor_closed(void) {
    int fd = temporary(), kept = dup(fd);
    warm handle = {0};
    warm_slot slot;
    uint8_t byte = 0;
    open_over(&handle, fd, 1);
    write_one(&handle, 'b');
    close(fd);
    EXPECT(WARM_READ_FAULT, warm_pin(&handle, page_of(2), &slot));
    EXPECT(WARM_WRITE_FAULT, warm_write_back_all(&handle));
    MUST(read_one(&handle) == 'b'); /* it is still in its frame */
    MUST(dup2(kept, fd) == fd);     /* the same file under the same number */
    OK(warm_write_back_all(&handle));
    MUST(pread(kept, &byte, 1, place_of(1)) == 1 && byte == 'b');
    OK(warm_abandon(&handle));
    close(fd);
    close(kept);
}

/* A device that takes no byte, as a full disk does. */
static void always_full(void) {
    int fd = open("/dev/full", O_RDWR);
    if (fd < 0) {
        puts("misuse: no /dev/full here");
        return;
    }
    warm handle = {0};
    warm_slot slot;
    open_over(&handle, fd, 1);
    write_one(&handle, 'c');
    EXPECT(WARM_EVICT_FAULT, warm_pin(&handle, page_of(2), &slot)); /* page 1 would leave, and cannot be written */
    EXPECT(WARM_WRITE_FAULT, warm_write_back_all(&handle));
    MUST(read_one(&handle) == 'c');
    OK(warm_abandon(&handle));
    close(fd);
}

/* A file that may not grow, and then may: what waited is written. */
static void full_for_a_time(void) {
    int fd = temporary();
    warm handle = {0};
    struct rlimit old, none;
    warm_slot slot;
    uint8_t byte = 0;
    open_over(&handle, fd, 1);
    signal(SIGXFSZ, SIG_IGN);
    write_one(&handle, 'd');
    MUST(getrlimit(RLIMIT_FSIZE, &old) == 0);
    none = (struct rlimit){(rlim_t)place_of(1), old.rlim_max};
    MUST(setrlimit(RLIMIT_FSIZE, &none) == 0);
    int pinned = warm_pin(&handle, page_of(2), &slot), written = warm_write_back_all(&handle);
    MUST(setrlimit(RLIMIT_FSIZE, &old) == 0); /* before a word is printed: that is a file, too */
    expect(WARM_EVICT_FAULT, pinned, "warm_pin while the file may not grow");
    expect(WARM_WRITE_FAULT, written, "warm_write_back_all while the file may not grow");
    MUST(read_one(&handle) == 'd');
    OK(warm_write_back_all(&handle));
    MUST(pread(fd, &byte, 1, place_of(1)) == 1 && byte == 'd');
    OK(warm_abandon(&handle));
    close(fd);
}

static uint8_t read_of(warm *handle, uint64_t no) {
    warm_slot slot;
    uint8_t byte;
    OK(warm_pin(handle, (warm_page){.no = no}, &slot));
    OK(warm_read(handle, slot, 4095, &byte, 1));
    OK(warm_unpin(handle, slot));
    return byte;
}

static void write_all(warm *handle, uint64_t pages) {
    warm_slot slot;
    for (uint64_t no = 0; no < pages; no++) {
        uint8_t byte = (uint8_t)('A' + no);
        OK(warm_pin(handle, (warm_page){.no = no}, &slot));
        OK(warm_write(handle, slot, 4095, &byte, 1));
        OK(warm_unpin(handle, slot));
    }
}

/* A disk of four blocks, of which another file has one, gets eight pages, and then more blocks: first one, by the other file. What does
 * not fit waits in its frame, and no page that fits is lost. */
static void disk_full(const char *folder) {
    enum { PAGES = 8, BLOCK = 4096 };
    static const uint8_t block[BLOCK] = {1};
    int fd = temporary_in(folder), other = temporary_in(folder);
    warm handle = {0};
    warm_slot slot;
    uint8_t byte = 0;
    warm_device device = {.pages = PAGES + 1, .fd = fd};
    MUST(pwrite(other, block, BLOCK, 0) == BLOCK);
    OK(open_with(&handle, 1, shards, PAGES * shards, BLOCK, &device, 1));
    write_all(&handle, PAGES);
    EXPECT(WARM_WRITE_FAULT, warm_write_back_all(&handle));
    EXPECT(WARM_WRITE_FAULT, warm_write_back_all(&handle));
    for (uint64_t no = 0; no < PAGES; no++) MUST(read_of(&handle, no) == 'A' + no);
    MUST(ftruncate(other, 0) == 0);
    EXPECT(WARM_WRITE_FAULT, warm_write_back_all(&handle)); /* four pages fit now */
    for (uint64_t no = 0; no < PAGES; no++) MUST(read_of(&handle, no) == 'A' + no);
    /* The file moves to a disk with room, under the same number. */
    int larger = temporary();
    for (uint64_t no = 0; no < PAGES; no++) {
        uint8_t page[BLOCK] = {0};
        ssize_t length = pread(fd, page, BLOCK, (off_t)(no * BLOCK));
        MUST(length >= 0 && pwrite(larger, page, (size_t)length, (off_t)(no * BLOCK)) == length);
    }
    MUST(dup2(larger, fd) == fd);
    OK(warm_write_back_all(&handle));
    OK(warm_pin(&handle, (warm_page){.no = PAGES}, &slot));
    for (uint64_t no = 0; no < PAGES; no++) MUST(pread(larger, &byte, 1, (off_t)(no * BLOCK + 4095)) == 1 && byte == 'A' + no);
    OK(warm_abandon(&handle));
    close(larger);
    close(other);
    close(fd);
}

int main(int count, char **words) {
    MUST(count > 1);
    shards = strtoul(words[1], NULL, 10);
    const char *folder = count > 2 ? words[2] : NULL;
    closed_handle();
    opening();
    slots();
    slots_of_before();
    found_pages();
    many_victims();
    buffers();
    worded();
    damaged_frames();
    wrong_descriptors();
    appending();
    descriptor_closed();
    always_full();
    full_for_a_time();
    damaged_dumps();
    wrong_lengths();
    joined_dumps();
    late_frames();
    limited_frames();
    dumps_of_wrong_descriptors();
    dumps_without_room(folder);
    if (folder != NULL) disk_full(folder);
    return end_as_expected();
}

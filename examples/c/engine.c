/* What an engine does that holds the pool: it reads and writes pages where they lie, makes new ones, asks which are in memory, writes them back
 * some at a time, cuts and replaces files, sends what is new of its history, and looks at what was counted and what failed. After each refusal what
 * was there before is still there. engine SHARDS: all pages are of the last of this many shards. */
#define _GNU_SOURCE /* mkstemp */
#include <errno.h>
#include <fcntl.h>
#include <signal.h>
#include <sys/resource.h>

#define PROGRAM "engine"
#include "expect.h"

enum { PAGE_SIZE = 512, DEVICE_PAGES = 8 * 64, MANY = 2500 };

static size_t shards;

/* The pages of the last bucket, of which a device has eight. */
static warm_page page_of(uint16_t dev, uint64_t n) { return (warm_page){.no = 64 * n + 63 - dev, .dev = dev}; }

static bool is_page(warm_page page, uint16_t dev, uint64_t n) { return page.dev == dev && page.no == page_of(dev, n).no; }

/* Where such a page is in its file. */
static off_t place_of(uint16_t dev, uint64_t n) { return (off_t)(page_of(dev, n).no * PAGE_SIZE); }

static warm_device device_of(int fd) { return (warm_device){.pages = DEVICE_PAGES, .fd = fd}; }

static void open_two(warm *handle, size_t frames, int first, int second) {
    const warm_device devices[] = {device_of(first), device_of(second)};
    OK(open_with(handle, 1, shards, frames * shards, PAGE_SIZE, devices, 2));
}

static warm_slot pinned(warm *handle, warm_page page) {
    warm_slot slot;
    OK(warm_pin(handle, page, &slot));
    return slot;
}

static void write_to(warm *handle, warm_page page, uint8_t byte) {
    warm_slot slot = pinned(handle, page);
    OK(warm_write(handle, slot, 0, &byte, 1));
    OK(warm_unpin(handle, slot));
}

static uint8_t read_from(warm *handle, warm_page page) {
    uint8_t byte;
    warm_slot slot = pinned(handle, page);
    OK(warm_read(handle, slot, 0, &byte, 1));
    OK(warm_unpin(handle, slot));
    return byte;
}

static uint8_t byte_at(int fd, off_t at) {
    uint8_t byte = 0;
    MUST(pread(fd, &byte, 1, at) == 1);
    return byte;
}

/* Puts /dev/null, opened so, under the number of a descriptor. */
static void put_null_under(int fd, int flags) {
    int null = open("/dev/null", flags);
    MUST(null >= 0 && dup2(null, fd) == fd && close(null) == 0);
}

/* Whether a page is in a frame. resident is a byte that nobody wrote before the call. */
static bool is_resident(warm *handle, warm_page page) {
    bool resident;
    uint8_t byte;
    OK(warm_resident(handle, page, &resident));
    memcpy(&byte, &resident, 1);
    MUST(byte <= 1);
    return resident;
}

static void resident_pages(void) {
    int first = temporary(), second = temporary();
    bool resident = true;
    warm handle = {0};
    EXPECT(WARM_CLOSED, warm_resident(&handle, (warm_page){0}, &resident));
    MUST(resident);
    open_two(&handle, 1, first, second);
    MUST(!is_resident(&handle, page_of(0, 3)));
    MUST(read_from(&handle, page_of(0, 3)) == 0);
    MUST(is_resident(&handle, page_of(0, 3)) && !is_resident(&handle, page_of(1, 3)));
    MUST(read_from(&handle, page_of(0, 4)) == 0);
    MUST(is_resident(&handle, page_of(0, 4)) && !is_resident(&handle, page_of(0, 3)));
    MUST(!is_resident(&handle, (warm_page){.no = UINT64_MAX, .dev = 65535}));
    OK(warm_abandon(&handle));
    close(first);
    close(second);
}

/* Each call by which other pages than 0:2 come, go and are written; device 1 gets another file. */
static void move_other_pages(warm *handle, int file) {
    const warm_reference seen = {.time = 1, .no = page_of(0, 7).no, .replica = 1};
    warm_page page;
    size_t left;
    bool found;
    for (uint64_t no = 0; no < 8; no++) write_to(handle, page_of(1, no), (uint8_t)no);
    OK(warm_write_back_some(handle, 1, &left));
    OK(warm_absorb(handle, &seen, 1));
    OK(warm_step(handle, &found, &page));
    MUST(found && is_page(page, 0, 7));
    OK(warm_write_back_all(handle));
    OK(warm_flush_device(handle, 0));
    OK(warm_forget_pages(handle, 0, page_of(0, 3).no));
    OK(warm_replace(handle, 1, &(warm_device){.pages = DEVICE_PAGES, .fd = file}));
}

/* The bytes of a lent page are those of the file, all of them, and stay where they are while other pages come, go and are written. */
static void lent_pages(void) {
    static uint8_t whole[PAGE_SIZE], copy[PAGE_SIZE];
    int first = temporary(), second = temporary(), third = temporary();
    warm handle = {0};
    const uint8_t *bytes = whole, *again;
    for (int at = 0; at < PAGE_SIZE; at++) whole[at] = (uint8_t)(at * 7 + 1);
    MUST(pwrite(first, whole, PAGE_SIZE, place_of(0, 2)) == PAGE_SIZE);
    EXPECT(WARM_CLOSED, warm_bytes(&handle, (warm_slot){0}, &bytes));
    open_two(&handle, 2, first, second);
    EXPECT(WARM_STALE_SLOT, warm_bytes(&handle, (warm_slot){0}, &bytes));
    EXPECT(WARM_STALE_SLOT, warm_bytes(&handle, (warm_slot){.index = UINT32_MAX, .generation = 1}, &bytes));
    MUST(bytes == whole); /* it is as it was */
    warm_slot slot = pinned(&handle, page_of(0, 2));
    OK(warm_bytes(&handle, slot, &bytes));
    MUST(bytes != whole && memcmp(bytes, whole, PAGE_SIZE) == 0);
    move_other_pages(&handle, third);
    OK(warm_bytes(&handle, slot, &again));
    MUST(again == bytes && memcmp(bytes, whole, PAGE_SIZE) == 0);
    OK(warm_read(&handle, slot, 0, copy, PAGE_SIZE));
    MUST(memcmp(copy, bytes, PAGE_SIZE) == 0);
    OK(warm_write(&handle, slot, PAGE_SIZE - 1, (const uint8_t *)"!", 1));
    MUST(bytes[PAGE_SIZE - 1] == '!'); /* a write is seen */
    warm_slot other = pinned(&handle, page_of(0, 5));
    OK(warm_bytes(&handle, other, &again));
    MUST((uintptr_t)again >= (uintptr_t)bytes + PAGE_SIZE || (uintptr_t)again + PAGE_SIZE <= (uintptr_t)bytes);
    OK(warm_unpin(&handle, slot));
    again = whole;
    EXPECT(WARM_STALE_SLOT, warm_bytes(&handle, slot, &again));
    MUST(again == whole);
    OK(warm_abandon(&handle));
    close(first);
    close(second);
    close(third);
}

/* What is written through the pointer of a lent page reaches the file; once the page was written back, it is lent again first. */
static void pages_written_in_place(void) {
    int first = temporary(), second = temporary();
    uint8_t none = 0, filled[PAGE_SIZE], *bytes = &none, *again;
    const uint8_t *same;
    warm handle = {0};
    EXPECT(WARM_CLOSED, warm_bytes_mut(&handle, (warm_slot){0}, &bytes));
    open_two(&handle, 1, first, second);
    EXPECT(WARM_STALE_SLOT, warm_bytes_mut(&handle, (warm_slot){.generation = 1}, &bytes));
    MUST(bytes == &none);
    warm_slot slot = pinned(&handle, page_of(0, 2));
    OK(warm_bytes_mut(&handle, slot, &bytes));
    OK(warm_bytes(&handle, slot, &same));
    MUST(same == bytes);
    memset(bytes, 'p', PAGE_SIZE);
    memset(filled, 'p', PAGE_SIZE);
    OK(warm_write_back_all(&handle));
    MUST(byte_at(first, place_of(0, 2)) == 'p' && byte_at(first, place_of(0, 2) + PAGE_SIZE - 1) == 'p');
    OK(warm_bytes_mut(&handle, slot, &again));
    MUST(again == bytes && memcmp(bytes, filled, PAGE_SIZE) == 0); /* lending changes no byte */
    bytes[PAGE_SIZE - 1] = 'q';
    OK(warm_unpin(&handle, slot));
    MUST(read_from(&handle, page_of(0, 3)) == 0); /* page 2 leaves, and is written */
    MUST(byte_at(first, place_of(0, 2)) == 'p' && byte_at(first, place_of(0, 2) + PAGE_SIZE - 1) == 'q');
    EXPECT(WARM_STALE_SLOT, warm_bytes_mut(&handle, slot, &bytes));
    OK(warm_abandon(&handle));
    close(first);
    close(second);
}

/* A page with zeros is not read: its file may be one that cannot be. It is written as any page that was written to. */
static void zeroed_pages(void) {
    int first = temporary(), second = open("/dev/null", O_WRONLY);
    warm handle = {0};
    warm_slot slot = {.generation = 9}, other;
    uint8_t bytes[PAGE_SIZE];
    MUST(second >= 0 && pwrite(first, "zzz", 3, place_of(0, 1)) == 3);
    EXPECT(WARM_CLOSED, warm_pin_zeroed(&handle, (warm_page){0}, &slot));
    open_two(&handle, 2, first, second);
    EXPECT(WARM_NO_DEVICE, warm_pin_zeroed(&handle, (warm_page){.dev = 2}, &slot));
    EXPECT(WARM_NO_PAGE, warm_pin_zeroed(&handle, page_of(0, 8), &slot));
    MUST(slot.generation == 9);
    EXPECT(WARM_READ_FAULT, warm_pin(&handle, page_of(1, 1), &other));
    OK(warm_pin_zeroed(&handle, page_of(1, 1), &slot));
    OK(warm_pin_zeroed(&handle, page_of(0, 1), &other));
    OK(warm_read(&handle, other, 0, bytes, PAGE_SIZE));
    for (int at = 0; at < PAGE_SIZE; at++) MUST(bytes[at] == 0);
    EXPECT(WARM_ALL_PINNED, warm_pin_zeroed(&handle, page_of(0, 2), &slot));
    OK(warm_write(&handle, other, 0, (const uint8_t *)"y", 1));
    MUST(byte_at(first, place_of(0, 1)) == 'z');
    OK(warm_flush_device(&handle, 0));
    OK(warm_pin_zeroed(&handle, page_of(0, 1), &other)); /* it is in a frame, and has one pin more */
    OK(warm_read(&handle, other, 0, bytes, 1));
    MUST(bytes[0] == 0 && byte_at(first, place_of(0, 1)) == 'y');
    OK(warm_unpin(&handle, other));
    OK(warm_unpin(&handle, other));
    OK(warm_unpin(&handle, slot));
    OK(warm_flush_device(&handle, 0));
    MUST(byte_at(first, place_of(0, 1)) == 0 && byte_at(first, place_of(0, 1) + 2) == 0);
    OK(warm_abandon(&handle));
    close(first);
    close(second);
}

/* Two devices with three pages each, which are all in frames and not written back. */
static void open_dirty(warm *handle, int first, int second) {
    open_two(handle, 8, first, second);
    for (uint64_t no = 0; no < 3; no++) write_to(handle, page_of(0, no), 'a');
    for (uint64_t no = 0; no < 3; no++) write_to(handle, page_of(1, no), 'b');
}

/* Pages are written back some at a time, those of one device, or not at all. */
static void portions(void) {
    int first = temporary(), second = temporary(), kept = dup(first);
    size_t left = 99;
    bool written = true;
    warm handle = {0};
    EXPECT(WARM_CLOSED, warm_write_back_some(&handle, 1, &left));
    EXPECT(WARM_CLOSED, warm_flush_device(&handle, 0));
    EXPECT(WARM_CLOSED, warm_write_back_page(&handle, page_of(0, 0), &written));
    MUST(left == 99 && written);
    open_dirty(&handle, first, second);
    OK(warm_write_back_some(&handle, 0, &left));
    MUST(left == 6 && lseek(first, 0, SEEK_END) == 0);
    OK(warm_write_back_some(&handle, 2, &left));
    MUST(left == 4 && lseek(first, 0, SEEK_END) == place_of(0, 1) + PAGE_SIZE && lseek(second, 0, SEEK_END) == 0);
    OK(warm_flush_device(&handle, 1));
    EXPECT(WARM_NO_DEVICE, warm_flush_device(&handle, 2));
    MUST(lseek(first, 0, SEEK_END) == place_of(0, 1) + PAGE_SIZE && byte_at(second, place_of(1, 2)) == 'b');
    OK(warm_write_back_some(&handle, SIZE_MAX, &left));
    MUST(left == 0 && byte_at(first, place_of(0, 2)) == 'a');
    OK(warm_write_back_page(&handle, page_of(0, 0), &written));
    MUST(!written);
    write_to(&handle, page_of(0, 0), 'd');
    write_to(&handle, page_of(0, 2), 'e');
    OK(warm_write_back_page(&handle, page_of(0, 2), &written));
    OK(warm_write_back_some(&handle, 0, &left));
    MUST(written && left == 1 && byte_at(first, place_of(0, 2)) == 'e' && byte_at(first, place_of(0, 0)) == 'a');
    put_null_under(first, O_RDONLY); /* the file takes no byte for a time */
    left = 99;
    EXPECT(WARM_WRITE_FAULT, warm_write_back_some(&handle, 1, &left));
    EXPECT(WARM_WRITE_FAULT, warm_write_back_page(&handle, page_of(0, 0), &written));
    EXPECT(WARM_WRITE_FAULT, warm_flush_device(&handle, 0));
    MUST(left == 99 && written && dup2(kept, first) == first);
    OK(warm_flush_device(&handle, 0));
    MUST(byte_at(first, place_of(0, 0)) == 'd');
    OK(warm_abandon(&handle));
    close(kept);
    close(first);
    close(second);
}

/* The last pages of a file leave, and what was not written is lost; or all stay, where one of them is pinned. */
static void forgotten_pages(void) {
    int first = temporary(), second = temporary();
    warm handle = {0};
    EXPECT(WARM_CLOSED, warm_forget_pages(&handle, 0, 0));
    open_dirty(&handle, first, second);
    OK(warm_write_back_all(&handle));
    write_to(&handle, page_of(0, 1), 'c');
    write_to(&handle, page_of(0, 0), 'd');
    EXPECT(WARM_NO_DEVICE, warm_forget_pages(&handle, 2, 0));
    warm_slot slot = pinned(&handle, page_of(0, 2));
    EXPECT(WARM_PINNED, warm_forget_pages(&handle, 0, page_of(0, 1).no));
    MUST(is_resident(&handle, page_of(0, 1)));
    OK(warm_unpin(&handle, slot));
    OK(warm_forget_pages(&handle, 0, page_of(0, 1).no));
    MUST(!is_resident(&handle, page_of(0, 1)) && !is_resident(&handle, page_of(0, 2)));
    MUST(is_resident(&handle, page_of(0, 0)) && is_resident(&handle, page_of(1, 2)));
    MUST(read_from(&handle, page_of(0, 1)) == 'a' && read_from(&handle, page_of(0, 0)) == 'd');
    OK(warm_abandon(&handle));
    close(first);
    close(second);
}

/* A file takes the place of another: what was written to the old one is there and synced, and the history is kept. */
static void replaced_file(void) {
    const warm_reference seen = {.time = 1, .no = page_of(1, 1).no, .dev = 1, .replica = 1};
    int first = temporary(), second = temporary(), third = temporary();
    const warm_device in_place = {.pages = DEVICE_PAGES / 2, .fd = third}, none = {.pages = 0, .fd = -2};
    warm_slot slot;
    warm_page page;
    size_t known;
    bool found;
    warm handle = {0};
    EXPECT(WARM_CLOSED, warm_replace(&handle, 1, &in_place));
    open_two(&handle, 4, first, second);
    MUST(pwrite(third, "t", 1, place_of(1, 1)) == 1);
    OK(warm_absorb(&handle, &seen, 1));
    write_to(&handle, page_of(0, 1), 'f');
    write_to(&handle, page_of(1, 1), 's');
    OK(warm_replace(&handle, 1, &in_place));
    MUST(byte_at(second, place_of(1, 1)) == 's' && lseek(first, 0, SEEK_END) == 0); /* the other device's page still waits */
    MUST(!is_resident(&handle, page_of(1, 1)) && is_resident(&handle, page_of(0, 1)));
    OK(warm_history_length(&handle, &known));
    OK(warm_step(&handle, &found, &page));
    MUST(known == 1 && found && is_page(page, 1, 1)); /* it is warmed up from the new file */
    MUST(read_from(&handle, page_of(1, 1)) == 't' && read_from(&handle, page_of(0, 1)) == 'f');
    EXPECT(WARM_NO_PAGE, warm_pin(&handle, page_of(1, 4), &slot));
    write_to(&handle, page_of(1, 1), 'u');
    OK(warm_replace(&handle, 1, &none)); /* no file for now */
    MUST(byte_at(third, place_of(1, 1)) == 'u');
    EXPECT(WARM_NO_PAGE, warm_pin(&handle, page_of(1, 1), &slot));
    OK(warm_replace(&handle, 1, &(warm_device){.pages = DEVICE_PAGES, .fd = second}));
    MUST(read_from(&handle, page_of(1, 1)) == 's');
    OK(warm_replace(&handle, 1, &(warm_device){.pages = DEVICE_PAGES + 1, .fd = second})); /* the same file, which may have more pages now */
    OK(warm_replace(&handle, 0, &(warm_device){.pages = DEVICE_PAGES, .fd = third}));  /* a file that no device has any more */
    MUST(byte_at(first, place_of(0, 1)) == 'f' && read_from(&handle, (warm_page){.no = page_of(1, 1).no}) == 'u');
    OK(warm_write_back_all(&handle));
    OK(warm_abandon(&handle));
    close(first);
    close(second);
    close(third);
}

/* The device stays, with its pages, where it is not replaced. */
static void not_replaced(void) {
    int first = temporary(), second = temporary(), third = temporary(), copy = dup(first);
    const warm_device in_place = {.pages = DEVICE_PAGES, .fd = third}, large = {.pages = UINT64_MAX / PAGE_SIZE, .fd = first};
    warm handle = {0};
    open_two(&handle, 2, first, second);
    write_to(&handle, page_of(1, 1), 'a');
    EXPECT(WARM_NO_DEVICE, warm_replace(&handle, 2, &(warm_device){.pages = DEVICE_PAGES, .fd = first}));
    EXPECT(WARM_NO_DEVICE, warm_replace(&handle, 65535, &in_place));
    warm_slot slot = pinned(&handle, page_of(1, 1));
    EXPECT(WARM_BAD_DEVICE, warm_replace(&handle, 1, &large)); /* it is too large, of the other's file, and a page is pinned */
    EXPECT(WARM_SAME_FILE, warm_replace(&handle, 1, &(warm_device){.pages = DEVICE_PAGES, .fd = first}));
    EXPECT(WARM_SAME_FILE, warm_replace(&handle, 1, &(warm_device){.pages = DEVICE_PAGES, .fd = copy}));
    EXPECT(WARM_PINNED, warm_replace(&handle, 1, &in_place));
    OK(warm_replace(&handle, 0, &(warm_device){.pages = DEVICE_PAGES, .fd = copy})); /* no page of this one is pinned */
    OK(warm_unpin(&handle, slot));
    int kept = dup(second);
    put_null_under(second, O_RDONLY); /* the file takes no byte for a time */
    EXPECT(WARM_WRITE_FAULT, warm_replace(&handle, 1, &in_place));
    MUST(read_from(&handle, page_of(1, 1)) == 'a');
    MUST(dup2(kept, second) == second);
    OK(warm_replace(&handle, 1, &in_place));
    MUST(byte_at(kept, place_of(1, 1)) == 'a' && read_from(&handle, page_of(1, 1)) == 0);
    OK(warm_abandon(&handle));
    close(kept);
    close(copy);
    close(first);
    close(second);
    close(third);
}

/* Sends what is new of bucket 7 since a time to who knows none of it, and counts the entries: each comes once. */
static size_t sent_since(warm *from, uint64_t since, warm *to) {
    static uint8_t message[WARM_MESSAGE_ROOM];
    warm_sending sending = {.bucket = 7, .since = since};
    size_t length, before, known, messages = 0, entries = 0;
    uint8_t byte;
    OK(warm_history_length(to, &before));
    do {
        OK(warm_send(from, &sending, message, sizeof message, &length));
        memcpy(&byte, &sending.more, 1);
        MUST(byte <= 1 && ++messages <= MANY && sending.bucket == 7 && sending.since == since);
        entries += (size_t)message[21] << 8 | message[22]; /* a message has 1000 at most: the lower half of their count */
        OK(warm_receive(to, message, length));
    } while (sending.more);
    OK(warm_history_length(to, &known));
    MUST(known - before == entries && sending.has_after == (entries > 0));
    MUST(entries > 0 || (sending.after.no == 0 && sending.after.dev == 0)); /* a message without an entry has no last one */
    return entries;
}

static void open_history(warm *handle, uint16_t replica) {
    const warm_device none = {0};
    OK(open_with(handle, replica, shards, shards, 1, &none, 0));
}

/* More entries than a message has, of one bucket; those since a time; and none. */
static void what_is_new(void) {
    static warm_reference seen[MANY];
    uint8_t message[64] = {0};
    size_t length = 0;
    warm_sending sending = {.bucket = 64, .since = MANY - 1, .after = {.no = 99, .dev = 9}}, before;
    warm from = {0}, all = {0}, late = {0};
    EXPECT(WARM_CLOSED, warm_send(&from, &sending, message, sizeof message, &length));
    open_history(&from, 1);
    open_history(&all, 2);
    open_history(&late, 3);
    for (uint64_t at = 0; at < MANY; at++) seen[at] = (warm_reference){.time = at, .no = 64 * at + 7, .replica = 1};
    OK(warm_absorb(&from, seen, MANY));
    EXPECT(WARM_BAD_BUCKET, warm_send(&from, &sending, message, sizeof message, &length));
    MUST(length == 0);
    sending.bucket = 7;
    before = sending;
    EXPECT(WARM_BUFFER_TOO_SMALL, warm_send(&from, &sending, message, 43, &length));
    MUST(memcmp(&sending, &before, sizeof before) == 0 && length == 44 && message[0] == 0);
    OK(warm_send(&from, &sending, message, 44, &length));
    MUST(!sending.more && sending.has_after && sending.after.no == 64 * (MANY - 1) + 7 && sending.after.dev == 0 && length == 44);
    MUST(sent_since(&from, 0, &all) == MANY);
    MUST(sent_since(&from, MANY - 1200, &late) == 1200);
    MUST(sent_since(&from, MANY, &late) == 0);
    OK(warm_close(&from));
    OK(warm_close(&all));
    OK(warm_close(&late));
}

/* ---- what was counted, and what failed ---- */

static bool has_counted(warm *handle, warm_counters wanted) {
    warm_counters counters;
    OK(warm_counts(handle, &counters));
    return memcmp(&counters, &wanted, sizeof counters) == 0;
}

static bool device_has_counted(warm *handle, uint16_t dev, warm_device_counters wanted) {
    warm_device_counters counters;
    OK(warm_device_counts(handle, dev, &counters));
    return memcmp(&counters, &wanted, sizeof counters) == 0;
}

static bool failed_last(warm *handle, warm_failure wanted) {
    warm_failure failure;
    bool found;
    uint8_t byte;
    OK(warm_last_failure(handle, &found, &failure));
    memcpy(&byte, &found, 1);
    MUST(byte == 1);
    wanted.count = 1;
    return memcmp(&failure, &wanted, sizeof failure) == 0;
}

/* Nothing is written by a closed handle, of a device that there is none of, and of a failure before one. */
static void counts_refused(void) {
    int first = temporary(), second = temporary();
    warm_counters counters = {.hits = 9};
    warm_device_counters of_device = {.reads = 9};
    warm_failure failure = {.no = 9};
    uint8_t place = 9;
    bool found;
    warm handle = {0};
    memcpy(&found, &place, 1); /* no bool of C */
    EXPECT(WARM_CLOSED, warm_counts(&handle, &counters));
    EXPECT(WARM_CLOSED, warm_device_counts(&handle, 0, &of_device));
    EXPECT(WARM_CLOSED, warm_last_failure(&handle, &found, &failure));
    MUST(memcmp(&found, &place, 1) == 0 && counters.hits == 9);
    open_two(&handle, 1, first, second);
    EXPECT(WARM_NO_DEVICE, warm_device_counts(&handle, 2, &of_device));
    EXPECT(WARM_NO_DEVICE, warm_device_counts(&handle, 65535, &of_device));
    OK(warm_last_failure(&handle, &found, &failure));
    memcpy(&place, &found, 1);
    MUST(place == 0 && failure.no == 9 && of_device.reads == 9);
    OK(warm_abandon(&handle));
    close(first);
    close(second);
}

/* Each pin, eviction and write of a sequence through one frame is counted, and so is what each device was asked for. */
static void counted_calls(void) {
    const warm_reference seen = {.time = 1, .no = page_of(1, 5).no, .dev = 1, .replica = 1};
    int first = temporary(), second = temporary();
    warm handle = {0};
    warm_slot slot;
    warm_page page;
    bool found;
    open_two(&handle, 1, first, second);
    MUST(has_counted(&handle, (warm_counters){0}) && device_has_counted(&handle, 1, (warm_device_counters){0}));
    write_to(&handle, page_of(0, 1), 'a');
    MUST(has_counted(&handle, (warm_counters){.misses = 1, .resident = 1, .dirty = 1}));
    MUST(read_from(&handle, page_of(0, 1)) == 'a');
    MUST(read_from(&handle, page_of(1, 3)) == 0); /* 0:1 leaves, and is written */
    MUST(has_counted(&handle, (warm_counters){.hits = 1, .misses = 2, .evictions = 1, .written_back = 1, .resident = 1}));
    MUST(device_has_counted(&handle, 0, (warm_device_counters){.reads = 1, .writes = 1}));
    OK(warm_pin_zeroed(&handle, page_of(0, 2), &slot)); /* a miss that reads nothing */
    OK(warm_unpin(&handle, slot));
    OK(warm_write_back_all(&handle));
    MUST(device_has_counted(&handle, 0, (warm_device_counters){.reads = 1, .writes = 2, .flushes = 1}));
    OK(warm_absorb(&handle, &seen, 1));
    OK(warm_step(&handle, &found, &page)); /* 1:5 comes in place of 0:2, which is no miss */
    EXPECT(WARM_NO_PAGE, warm_pin(&handle, page_of(0, 8), &slot));
    MUST(found && is_page(page, 1, 5));
    MUST(has_counted(&handle, (warm_counters){.hits = 1, .misses = 3, .evictions = 3, .written_back = 2, .resident = 1}));
    OK(warm_forget_pages(&handle, 1, 0)); /* which is no eviction for another page */
    MUST(has_counted(&handle, (warm_counters){.hits = 1, .misses = 3, .evictions = 3, .written_back = 2}));
    MUST(device_has_counted(&handle, 1, (warm_device_counters){.reads = 2}));
    OK(warm_abandon(&handle));
    open_two(&handle, 1, first, second);
    MUST(has_counted(&handle, (warm_counters){0}) && device_has_counted(&handle, 0, (warm_device_counters){0}));
    OK(warm_abandon(&handle));
    close(first);
    close(second);
}

/* The status of a flush of device 1 while no file of the process may grow. */
static int flush_at_limit(warm *handle) {
    struct rlimit old, none;
    signal(SIGXFSZ, SIG_IGN);
    MUST(getrlimit(RLIMIT_FSIZE, &old) == 0);
    none = (struct rlimit){.rlim_cur = 0, .rlim_max = old.rlim_max};
    MUST(setrlimit(RLIMIT_FSIZE, &none) == 0);
    int status = warm_flush_device(handle, 1);
    MUST(setrlimit(RLIMIT_FSIZE, &old) == 0); /* before a word is printed: that is a file, too */
    return status;
}

/* Pages that are written in portions, by a flush or as their device is replaced are counted as written; those that leave by warm_replace or
 * warm_forget_pages were not evicted. A pin that fills with zeros is a hit where the page is in a frame. */
static void counted_changes(void) {
    int first = temporary(), second = temporary(), third = temporary();
    size_t left;
    warm handle = {0};
    warm_slot slot;
    open_dirty(&handle, first, second);
    MUST(has_counted(&handle, (warm_counters){.misses = 6, .resident = 6, .dirty = 6}));
    OK(warm_write_back_some(&handle, 2, &left));
    MUST(has_counted(&handle, (warm_counters){.misses = 6, .written_back = 2, .resident = 6, .dirty = 4}));
    MUST(device_has_counted(&handle, 0, (warm_device_counters){.reads = 3, .writes = 2}));
    OK(warm_flush_device(&handle, 0));
    MUST(has_counted(&handle, (warm_counters){.misses = 6, .written_back = 3, .resident = 6, .dirty = 3}));
    MUST(device_has_counted(&handle, 0, (warm_device_counters){.reads = 3, .writes = 3, .flushes = 1}));
    OK(warm_replace(&handle, 1, &(warm_device){.pages = DEVICE_PAGES, .fd = third}));
    MUST(has_counted(&handle, (warm_counters){.misses = 6, .written_back = 6, .resident = 3}));
    OK(warm_forget_pages(&handle, 0, page_of(0, 2).no));
    OK(warm_pin_zeroed(&handle, page_of(0, 0), &slot));
    MUST(has_counted(&handle, (warm_counters){.hits = 1, .misses = 6, .written_back = 6, .resident = 2, .dirty = 1}));
    MUST(device_has_counted(&handle, 0, (warm_device_counters){.reads = 3, .writes = 3, .flushes = 1}));
    OK(warm_abandon(&handle));
    close(first);
    close(second);
    close(third);
}

/* A read, writes and a flush that fail, each with the errno of its own call. */
static void failed_calls(void) {
    int first = temporary(), second = temporary(), kept = dup(first);
    warm handle = {0};
    warm_slot slot;
    open_two(&handle, 1, first, second);
    put_null_under(first, O_WRONLY);
    EXPECT(WARM_READ_FAULT, warm_pin(&handle, page_of(0, 5), &slot));
    MUST(failed_last(&handle, (warm_failure){.no = page_of(0, 5).no, .dev = 0, .what = WARM_FAILED_READ, .error = EBADF}));
    MUST(device_has_counted(&handle, 0, (warm_device_counters){.reads = 1, .failures = 1}) && dup2(kept, first) == first);
    write_to(&handle, page_of(1, 2), 'b');
    EXPECT(WARM_WRITE_FAULT, flush_at_limit(&handle));
    MUST(failed_last(&handle, (warm_failure){.no = page_of(1, 2).no, .dev = 1, .what = WARM_FAILED_WRITE, .error = EFBIG}));
    put_null_under(second, O_RDONLY);
    EXPECT(WARM_EVICT_FAULT, warm_pin(&handle, page_of(0, 3), &slot)); /* 0:3 is read, and 1:2 not written */
    MUST(failed_last(&handle, (warm_failure){.no = page_of(1, 2).no, .dev = 1, .what = WARM_FAILED_WRITE, .error = EBADF}));
    MUST(device_has_counted(&handle, 0, (warm_device_counters){.reads = 2, .failures = 1}));
    MUST(device_has_counted(&handle, 1, (warm_device_counters){.reads = 1, .writes = 2, .failures = 2}));
    MUST(has_counted(&handle, (warm_counters){.misses = 1, .resident = 1, .dirty = 1}));
    put_null_under(second, O_RDWR); /* it takes the page, and cannot be synced */
    EXPECT(WARM_WRITE_FAULT, warm_flush_device(&handle, 1));
    MUST(failed_last(&handle, (warm_failure){.no = 0, .dev = 1, .what = WARM_FAILED_FLUSH, .error = EINVAL}));
    put_null_under(second, O_WRONLY);
    EXPECT(WARM_READ_FAULT, warm_pin(&handle, page_of(1, 6), &slot));
    MUST(failed_last(&handle, (warm_failure){.no = page_of(1, 6).no, .dev = 1, .what = WARM_FAILED_READ, .error = EBADF}));
    EXPECT(WARM_WRITE_FAULT, warm_flush_device(&handle, 1)); /* since one failed before, with the errno of that one */
    MUST(failed_last(&handle, (warm_failure){.no = 0, .dev = 1, .what = WARM_FAILED_FLUSH, .error = EINVAL}));
    MUST(device_has_counted(&handle, 1, (warm_device_counters){.reads = 2, .writes = 3, .flushes = 2, .failures = 5}));
    MUST(has_counted(&handle, (warm_counters){.misses = 1, .written_back = 1, .resident = 1}));
    OK(warm_abandon(&handle));
    close(kept);
    close(first);
    close(second);
}

/* The errno that a device answers before each write. */
static int answered(void *context, uint64_t no, const void *bytes, size_t length) {
    (void)no, (void)bytes, (void)length;
    return *(int *)context;
}

/* A page that is skipped was not written, with EAGAIN. What failed is remembered while all goes well, also where its device is replaced. */
static void remembered_failure(void) {
    static const warm_device_ops asks = {.size = sizeof asks, .before_write = answered};
    int first = temporary(), second = temporary(), third = temporary(), kept = dup(first), answer = EAGAIN;
    const warm_device devices[] = {{.pages = DEVICE_PAGES, .fd = first, .ops = &asks, .context = &answer}, device_of(second)};
    warm handle = {0};
    warm_slot slot;
    OK(open_with(&handle, 1, shards, shards, PAGE_SIZE, devices, 2));
    write_to(&handle, page_of(0, 1), 'c');
    EXPECT(WARM_SKIPPED, warm_write_back_all(&handle));
    MUST(failed_last(&handle, (warm_failure){.no = page_of(0, 1).no, .dev = 0, .what = WARM_FAILED_WRITE, .error = EAGAIN}));
    MUST(has_counted(&handle, (warm_counters){.misses = 1, .resident = 1, .dirty = 1}));
    answer = ENOSPC;
    EXPECT(WARM_WRITE_FAULT, warm_flush_device(&handle, 0));
    MUST(failed_last(&handle, (warm_failure){.no = page_of(0, 1).no, .dev = 0, .what = WARM_FAILED_WRITE, .error = ENOSPC}));
    answer = 0;
    OK(warm_write_back_all(&handle));
    EXPECT(WARM_DUMP_NOT_WRITTEN, warm_save(&handle, -1)); /* its file is no device */
    MUST(failed_last(&handle, (warm_failure){.no = page_of(0, 1).no, .dev = 0, .what = WARM_FAILED_WRITE, .error = ENOSPC}));
    MUST(device_has_counted(&handle, 0, (warm_device_counters){.reads = 1, .writes = 3, .flushes = 1, .failures = 2}));
    put_null_under(first, O_WRONLY);
    EXPECT(WARM_READ_FAULT, warm_pin(&handle, page_of(0, 7), &slot));
    MUST(dup2(kept, first) == first);
    OK(warm_replace(&handle, 1, &(warm_device){.pages = DEVICE_PAGES, .fd = third})); /* another device */
    MUST(failed_last(&handle, (warm_failure){.no = page_of(0, 7).no, .dev = 0, .what = WARM_FAILED_READ, .error = EBADF}));
    OK(warm_replace(&handle, 0, &(warm_device){.pages = DEVICE_PAGES, .fd = second}));
    MUST(failed_last(&handle, (warm_failure){.no = page_of(0, 7).no, .dev = 0, .what = WARM_FAILED_READ, .error = EBADF}));
    MUST(device_has_counted(&handle, 0, (warm_device_counters){0}));
    OK(warm_close(&handle));
    close(kept);
    close(first);
    close(second);
    close(third);
}

int main(int count, char **words) {
    MUST(count == 2);
    shards = strtoul(words[1], NULL, 10);
    resident_pages();
    lent_pages();
    pages_written_in_place();
    zeroed_pages();
    portions();
    forgotten_pages();
    replaced_file();
    not_replaced();
    what_is_new();
    counts_refused();
    counted_calls();
    counted_changes();
    failed_calls();
    remembered_failure();
    return end_as_expected();
}

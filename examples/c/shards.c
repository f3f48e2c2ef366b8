/* Replicas of several shards. What one sends, lists and saves has the bytes of one with a single shard. Handles are attached and closed, and
 * refused where pins or other handles are left. A write-back of all shards syncs each file once, and a sync that failed is remembered
 * for all of them. A device is replaced in all shards or in none. And a pool of more frames than one shard has. shards SHARDS: this many. The program
 * has an fsync of its own, which counts. */
#define _GNU_SOURCE /* mkstemp, syscall */
#include <errno.h>
#include <sys/syscall.h>

#define PROGRAM "shards"
#include "expect.h"

enum { PAGE_SIZE = 512, PAGES = 128, FRAME_ROOM = 32768, SEEN = 6000, LARGE_SHARD = 65536 };

static size_t shards;

/* What fsync was called for, in place of the C library's. */
static struct {
    int calls;
    bool fails_next;
} syncs;

int fsync(int fd) {
    syncs.calls++;
    if (syncs.fails_next) {
        syncs.fails_next = false;
        errno = EIO;
        return -1;
    }
    return (int)syscall(SYS_fsync, fd);
}

static uint64_t drawn = 1;

/* A number below a limit, by the generator of MMIX. */
static uint64_t draw(uint64_t limit) {
    drawn = drawn * 6364136223846793005u + 1442695040888963407u;
    return (drawn >> 33) % limit;
}

/* ---- the same bytes ---- */

/* One replica, twice: with one shard and with several. */
typedef struct pair {
    warm one, several;
} pair;

static void open_pair(pair *its, uint16_t replica) {
    const warm_device none = {0};
    OK(open_with(&its->one, replica, 1, 1, 1, &none, 0));
    OK(open_with(&its->several, replica, shards, shards, 1, &none, 0));
}

static void close_pair(pair *its) {
    OK(warm_close(&its->one));
    OK(warm_close(&its->several));
}

/* References to pages of all buckets; a bucket has more entries than one frame, too. */
static void absorb_drawn(pair *its, uint16_t replica) {
    static warm_reference seen[SEEN];
    for (int at = 0; at < SEEN; at++) {
        uint64_t no = at % 3 == 0 ? 64 * draw(1500) + 7 : draw(3000);
        seen[at] = (warm_reference){.time = draw(100000), .no = no, .dev = (uint16_t)(at % 3 == 0 ? 0 : draw(3)), .replica = replica};
    }
    OK(warm_absorb(&its->one, seen, SEEN));
    for (size_t at = 0, part; at < SEEN; at += part) { /* batches of many lengths, also of one and of none */
        part = draw(400);
        if (part > SEEN - at) part = SEEN - at;
        OK(warm_absorb(&its->several, seen + at, part));
    }
}

static uint8_t frames[2][FRAME_ROOM];
static size_t lengths[2];

static void must_equal(const char *what) {
    if (lengths[0] == lengths[1] && memcmp(frames[0], frames[1], lengths[0]) == 0) return;
    fprintf(stderr, PROGRAM ": %s differs: %zu and %zu bytes\n", what, lengths[0], lengths[1]);
    exit(1);
}

static void same_offer(pair *its) {
    EXPECT(WARM_BUFFER_TOO_SMALL, warm_offer(&its->several, frames[1], 2066, &lengths[1]));
    MUST(lengths[1] == 2067);
    OK(warm_offer(&its->one, frames[0], FRAME_ROOM, &lengths[0]));
    OK(warm_offer(&its->several, frames[1], FRAME_ROOM, &lengths[1]));
    must_equal("an offer");
}

/* Each bucket, until no more follow. */
static void same_sends(pair *its, uint64_t since) {
    for (uint8_t bucket = 0; bucket < WARM_BUCKETS; bucket++) {
        warm_sending places[2] = {{.bucket = bucket, .since = since}, {.bucket = bucket, .since = since}};
        do {
            OK(warm_send(&its->one, &places[0], frames[0], FRAME_ROOM, &lengths[0]));
            OK(warm_send(&its->several, &places[1], frames[1], FRAME_ROOM, &lengths[1]));
            must_equal("what is sent since a time");
            MUST(places[0].more == places[1].more && places[0].has_after == places[1].has_after);
            MUST(places[0].after.no == places[1].after.no && places[0].after.dev == places[1].after.dev);
        } while (places[0].more);
    }
    EXPECT(WARM_BAD_BUCKET, warm_send(&its->several, &(warm_sending){.bucket = 64}, frames[1], FRAME_ROOM, &lengths[1]));
    EXPECT(WARM_BAD_BUCKET, warm_send(&its->several, &(warm_sending){.bucket = 255}, frames[1], FRAME_ROOM, &lengths[1]));
}

static void same_list(pair *its, size_t room) {
    static warm_page pages[2][2 * SEEN];
    size_t counts[2], known[2];
    OK(warm_list(&its->one, pages[0], room, &counts[0]));
    OK(warm_list(&its->several, pages[1], room, &counts[1]));
    OK(warm_history_length(&its->one, &known[0]));
    OK(warm_history_length(&its->several, &known[1]));
    MUST(counts[0] == counts[1] && known[0] == known[1] && counts[0] <= room);
    for (size_t at = 0; at < counts[0]; at++) MUST(pages[0][at].no == pages[1][at].no && pages[0][at].dev == pages[1][at].dev);
}

static void same_dump(pair *its) {
    int fds[] = {temporary(), temporary()};
    uint8_t bytes[2][4096];
    ssize_t got;
    OK(warm_save(&its->one, fds[0]));
    OK(warm_save(&its->several, fds[1]));
    MUST(lseek(fds[0], 0, SEEK_END) == lseek(fds[1], 0, SEEK_END));
    for (off_t at = 0; (got = pread(fds[0], bytes[0], sizeof bytes[0], at)) > 0; at += got) {
        MUST(pread(fds[1], bytes[1], sizeof bytes[1], at) == got && memcmp(bytes[0], bytes[1], (size_t)got) == 0);
    }
    close(fds[0]);
    close(fds[1]);
}

static void same_all(pair *its) {
    same_offer(its);
    same_sends(its, 0);
    same_sends(its, 50000);
    same_list(its, 0);
    same_list(its, 100);
    same_list(its, 2 * SEEN);
    same_dump(its);
}

/* Both receive a frame, and both answer it with the same frames, which the other gets. Returns how many. The room for each answer is tried
 * from none on. */
static int same_answers(pair *its, const uint8_t *frame, size_t length, pair *other) {
    static uint8_t request[FRAME_ROOM]; /* the last of its answers: what the other one answers is not carried on */
    OK(warm_receive(&its->one, frame, length));
    OK(warm_receive(&its->several, frame, length));
    for (int count = 0;; count++) {
        size_t needed = 0;
        OK(warm_next_answer(&its->one, frames[0], FRAME_ROOM, &lengths[0]));
        memset(frames[1], 'x', 64);
        int status = warm_next_answer(&its->several, frames[1], 22, &needed);
        expect(lengths[0] == 0 ? WARM_OK : WARM_BUFFER_TOO_SMALL, status, "warm_next_answer without room");
        MUST(needed == lengths[0]);
        status = warm_next_answer(&its->several, frames[1], lengths[0] > 0 ? lengths[0] - 1 : 0, &needed);
        expect(lengths[0] == 0 ? WARM_OK : WARM_BUFFER_TOO_SMALL, status, "warm_next_answer with too little room");
        MUST(needed == lengths[0] && frames[1][0] == 'x' && frames[1][22] == 'x' && frames[1][63] == 'x');
        OK(warm_next_answer(&its->several, frames[1], FRAME_ROOM, &lengths[1]));
        must_equal("an answer");
        if (lengths[0] == 0) return count;
        if (other != NULL) {
            size_t size = lengths[0];
            memcpy(request, frames[0], size);
            same_answers(other, request, size, NULL);
        }
    }
}

/* The first offers, the second answers what differs, and so on, until both know the same. */
static void gossip(pair *first, pair *second) {
    static uint8_t offer[FRAME_ROOM];
    size_t length;
    OK(warm_offer(&first->several, offer, FRAME_ROOM, &length));
    int answers = same_answers(second, offer, length, first);
    MUST(answers > 0);
    OK(warm_offer(&second->several, offer, FRAME_ROOM, &length));
    same_answers(first, offer, length, second); /* what the second asked for in vain: its requests were answered, and no answer was carried */
    OK(warm_offer(&first->several, offer, FRAME_ROOM, &length));
    MUST(same_answers(second, offer, length, NULL) == 0);
}

static void same_bytes(void) {
    pair first = {0}, second = {0}, third = {0};
    uint64_t horizons[2];
    open_pair(&first, 1);
    open_pair(&second, 2);
    open_pair(&third, 3);
    same_all(&first); /* of no entry */
    absorb_drawn(&first, 1);
    same_all(&first);
    gossip(&third, &first); /* the one has nothing */
    absorb_drawn(&second, 2);
    OK(warm_raise(&second.one, 20000, &horizons[0]));
    OK(warm_raise(&second.several, 20000, &horizons[1]));
    MUST(horizons[0] == 20000 && horizons[1] == 20000);
    gossip(&first, &second);
    same_all(&first);
    same_all(&second);
    absorb_drawn(&first, 4);
    same_all(&first);
    int dump = temporary();
    OK(warm_save(&first.several, dump));
    OK(warm_load(&third.one, dump, (uint64_t)lseek(dump, 0, SEEK_END)));
    OK(warm_load(&third.several, dump, (uint64_t)lseek(dump, 0, SEEK_END)));
    same_all(&third);
    OK(warm_raise(&third.several, 0, &horizons[1]));
    MUST(horizons[1] == 20000);
    close(dump);
    close_pair(&first);
    close_pair(&second);
    close_pair(&third);
}

/* ---- pools ---- */

static void open_over(warm *handle, size_t frames_each, const int *fds, size_t count) {
    warm_device devices[2];
    for (size_t dev = 0; dev < count; dev++) devices[dev] = (warm_device){.pages = PAGES, .fd = fds[dev]};
    OK(open_with(handle, 1, shards, frames_each * shards, PAGE_SIZE, devices, count));
}

static void write_to(warm *handle, warm_page page, uint8_t byte) {
    warm_slot slot;
    OK(warm_pin(handle, page, &slot));
    MUST(slot.shard == (page.dev + page.no) % shards);
    OK(warm_write(handle, slot, 0, &byte, 1));
    OK(warm_unpin(handle, slot));
}

static uint8_t read_from(warm *handle, warm_page page) {
    const uint8_t *bytes;
    warm_slot slot;
    OK(warm_pin_bytes(handle, page, &slot, &bytes));
    uint8_t byte = bytes[0];
    OK(warm_unpin(handle, slot));
    return byte;
}

static uint8_t byte_of(int fd, uint64_t no) {
    uint8_t byte = 0;
    MUST(pread(fd, &byte, 1, (off_t)(no * PAGE_SIZE)) >= 0);
    return byte;
}

/* Handles come and go, by whichever handle; and each has pins of its own. */
static void attached_handles(void) {
    int fd = temporary();
    warm first = {0}, second = {0}, third = {0};
    warm_slot slot, same, other;
    const uint8_t *bytes, *again;
    void *was;
    open_over(&first, 2, &fd, 1);
    EXPECT(WARM_ALREADY_OPEN, warm_attach(&first, &first));
    OK(warm_attach(&first, &second));
    was = second.at;
    EXPECT(WARM_ALREADY_OPEN, warm_attach(&first, &second));
    EXPECT(WARM_ALREADY_OPEN, open_with(&second, 1, 1, 1, 1, &(warm_device){0}, 0));
    MUST(second.at == was);
    OK(warm_attach(&second, &third));
    write_to(&second, (warm_page){.no = 5}, 'a');
    OK(warm_pin(&first, (warm_page){.no = 5}, &slot));
    EXPECT(WARM_STALE_SLOT, warm_unpin(&second, slot)); /* it has no pin */
    OK(warm_pin_bytes(&second, (warm_page){.no = 5}, &same, &bytes));
    MUST(same.shard == slot.shard && same.index == slot.index && same.generation == slot.generation && bytes[0] == 'a');
    OK(warm_bytes(&first, slot, &again));
    MUST(bytes == again);
    EXPECT(WARM_PINS_LEFT, warm_close(&second));
    EXPECT(WARM_ATTACHED, warm_close(&first));
    OK(warm_unpin(&first, slot));
    EXPECT(WARM_PINS_LEFT, warm_close(&second)); /* it stayed open */
    OK(warm_pin_zeroed(&second, (warm_page){.no = 5 + shards}, &other));
    OK(warm_unpin(&second, same));
    EXPECT(WARM_PINS_LEFT, warm_close(&second));
    OK(warm_unpin(&second, other));
    EXPECT(WARM_STALE_SLOT, warm_unpin(&first, slot)); /* no handle pins the page */
    EXPECT(WARM_NO_PAGE, warm_pin_bytes(&second, (warm_page){.no = PAGES}, &other, &bytes)); /* which is no pin */
    OK(warm_close(&second));
    MUST(second.at == NULL);
    EXPECT(WARM_CLOSED, warm_pin(&second, (warm_page){.no = 5}, &slot));
    EXPECT(WARM_ATTACHED, warm_close(&first));
    MUST(read_from(&third, (warm_page){.no = 5}) == 'a' && read_from(&first, (warm_page){.no = 5}) == 'a');
    OK(warm_close(&third));
    OK(warm_attach(&first, &second)); /* again */
    OK(warm_close(&second));
    OK(warm_pin(&first, (warm_page){.no = 5}, &slot));
    EXPECT(WARM_PINS_LEFT, warm_close(&first));
    OK(warm_attach(&first, &second));
    OK(warm_pin(&second, (warm_page){.no = 6}, &other));
    EXPECT(WARM_PINNED, warm_forget_pages(&first, 0, 6));
    EXPECT(WARM_ATTACHED, warm_abandon(&first));
    OK(warm_abandon(&second)); /* as of a thread that has ended with a pin */
    OK(warm_forget_pages(&first, 0, 6));
    OK(warm_abandon(&first));  /* who opened it may end it with pins, and with what is dirty */
    MUST(first.at == NULL);
    close(fd);
}

/* The answers wait at the handle that received; the limit is of all. */
static void answers_of_handles(void) {
    const warm_reference seen = {.time = 10, .no = 3, .replica = 1};
    const warm_device none = {0};
    static uint8_t frame[FRAME_ROOM];
    size_t length;
    warm first = {0}, second = {0}, other = {0};
    OK(open_with(&first, 1, shards, shards, 1, &none, 0));
    OK(open_with(&other, 2, 1, 1, 1, &none, 0));
    OK(warm_attach(&first, &second));
    OK(warm_absorb(&second, &seen, 1));
    OK(warm_offer(&other, frame, FRAME_ROOM, &length));
    OK(warm_receive(&second, frame, length));
    OK(warm_next_answer(&first, frame, 0, &length));
    MUST(length == 0);
    OK(warm_next_answer(&second, frame, FRAME_ROOM, &length));
    OK(warm_receive(&other, frame, length));
    OK(warm_history_length(&other, &length));
    MUST(length == 1);
    OK(warm_limit(&second, 5));
    OK(send_behind(&other, 3, false, (warm_page){0}, frame, FRAME_ROOM, &length));
    EXPECT(WARM_LATE_STAMP, warm_receive(&first, frame, length));
    OK(warm_close(&second));
    OK(warm_close(&first));
    OK(warm_close(&other));
}

/* As many pages of each device as are written. */
static void write_all(warm *handle, uint16_t devices, uint64_t pages, uint8_t byte) {
    for (uint16_t dev = 0; dev < devices; dev++)
        for (uint64_t no = 0; no < pages; no++) write_to(handle, (warm_page){.no = no, .dev = dev}, byte);
}

static void synced_once(void) {
    int fds[] = {temporary(), temporary()};
    warm handle = {0};
    warm_device_counters counters;
    warm_counters counted;
    open_over(&handle, 2 * PAGES / shards, fds, 2);
    syncs.calls = 0;
    OK(warm_write_back_all(&handle));
    MUST(syncs.calls == 0);
    write_all(&handle, 2, PAGES, 'a');
    OK(warm_counts(&handle, &counted));
    MUST(counted.misses == 2 * PAGES && counted.dirty == 2 * PAGES && counted.resident == 2 * PAGES);
    OK(warm_write_back_all(&handle));
    MUST(syncs.calls == 2);
    for (uint64_t no = 0; no < PAGES; no++) MUST(byte_of(fds[0], no) == 'a' && byte_of(fds[1], no) == 'a');
    OK(warm_device_counts(&handle, 1, &counters));
    MUST(counters.writes == PAGES && counters.flushes == 1 && counters.failures == 0);
    EXPECT(WARM_NO_DEVICE, warm_device_counts(&handle, 2, &counters));
    OK(warm_write_back_all(&handle));
    MUST(syncs.calls == 2);
    write_to(&handle, (warm_page){.no = 9, .dev = 1}, 'b');
    OK(warm_write_back_all(&handle));
    MUST(syncs.calls == 3 && byte_of(fds[1], 9) == 'b');
    OK(warm_close(&handle)); /* nothing waits */
    MUST(syncs.calls == 3);
    open_over(&handle, 1, fds, 1);
    write_all(&handle, 1, 2 * shards, 'c'); /* the first half of these pages leave their frames, and are written */
    EXPECT(WARM_DIRTY, warm_close(&handle));
    OK(warm_abandon(&handle));
    MUST(syncs.calls == 4 && byte_of(fds[0], 0) == 'c' && byte_of(fds[0], 2 * shards - 1) == 'a');
    close(fds[0]);
    close(fds[1]);
}

/* A sync that fails is that of all shards: none hears of a success later, though the next sync would be one. */
static void failed_sync(void) {
    int fds[] = {temporary(), temporary()};
    warm handle = {0}, attached = {0};
    warm_failure failure;
    bool found;
    open_over(&handle, 2 * PAGES / shards, fds, 2);
    OK(warm_attach(&handle, &attached));
    write_all(&attached, 2, shards, 'a');
    syncs.calls = 0;
    syncs.fails_next = true;
    EXPECT(WARM_WRITE_FAULT, warm_write_back_all(&attached));
    OK(warm_last_failure(&handle, &found, &failure)); /* the other handle has met none */
    MUST(!found);
    OK(warm_last_failure(&attached, &found, &failure));
    MUST(found && failure.dev == 0 && failure.what == WARM_FAILED_FLUSH && failure.error == EIO);
    MUST(syncs.calls == 2); /* the other device is synced all the same */
    for (size_t round = 0; round < shards + 1; round++) EXPECT(WARM_WRITE_FAULT, warm_write_back_all(&handle));
    EXPECT(WARM_WRITE_FAULT, warm_flush_device(&handle, 0));
    OK(warm_flush_device(&handle, 1));
    MUST(syncs.calls == 2);
    for (uint64_t no = 0; no < shards; no++) { /* a page of one shard each */
        write_to(&attached, (warm_page){.no = no}, 'b');
        EXPECT(WARM_WRITE_FAULT, warm_flush_device(&handle, 0));
    }
    EXPECT(WARM_WRITE_FAULT, warm_replace(&handle, 0, &(warm_device){.pages = PAGES, .fd = -1}));
    OK(warm_close(&attached));
    EXPECT(WARM_WRITE_FAULT, warm_close(&handle)); /* nor does a close forget it */
    OK(warm_abandon(&handle));
    MUST(syncs.calls == 2);
    open_over(&handle, 2, fds, 2); /* it knows nothing of what failed before */
    write_all(&handle, 1, shards, 'c');
    OK(warm_write_back_all(&handle));
    MUST(syncs.calls == 3 && byte_of(fds[0], shards - 1) == 'c');
    OK(warm_close(&handle));
    close(fds[0]);
    close(fds[1]);
}

/* The call of the device that failed is the last failure; then no page is in a frame. */
static void must_have_failed(warm *handle, uint64_t no, uint16_t what) {
    warm_failure failure;
    bool found;
    OK(warm_last_failure(handle, &found, &failure));
    MUST(found && failure.no == no && failure.dev == 0 && failure.what == what && failure.error == EBADF);
    OK(warm_forget_pages(handle, 0, 0));
}

static void make_dirty(warm *handle, uint64_t no) {
    warm_slot slot;
    OK(warm_pin_zeroed(handle, (warm_page){.no = no}, &slot));
    OK(warm_unpin(handle, slot));
}

/* The last failure is found by whichever call it was and in whichever shard, and no call looks into the shard of the one before. */
static void last_failures(void) {
    const warm_device none = {.pages = PAGES, .fd = -1}, other = {.pages = PAGES, .fd = -2};
    const warm_reference seen = {.time = 1, .no = 2, .replica = 1};
    const uint8_t *bytes;
    warm handle = {0};
    warm_page page;
    warm_slot slot;
    size_t left;
    bool found;
    OK(open_with(&handle, 1, shards, shards, PAGE_SIZE, &none, 1));
    EXPECT(WARM_READ_FAULT, warm_pin(&handle, (warm_page){.no = 1}, &slot));
    must_have_failed(&handle, 1, WARM_FAILED_READ);
    OK(warm_absorb(&handle, &seen, 1));
    EXPECT(WARM_READ_FAULT, warm_step(&handle, &found, &page));
    must_have_failed(&handle, 2, WARM_FAILED_READ);
    EXPECT(WARM_READ_FAULT, warm_pin_bytes(&handle, (warm_page){.no = 3}, &slot, &bytes));
    must_have_failed(&handle, 3, WARM_FAILED_READ);
    make_dirty(&handle, 1);
    EXPECT(WARM_EVICT_FAULT, warm_pin_zeroed(&handle, (warm_page){.no = 1 + shards}, &slot));
    must_have_failed(&handle, 1, WARM_FAILED_WRITE);
    make_dirty(&handle, 2);
    EXPECT(WARM_WRITE_FAULT, warm_write_back_some(&handle, 1, &left));
    must_have_failed(&handle, 2, WARM_FAILED_WRITE);
    make_dirty(&handle, 1);
    EXPECT(WARM_WRITE_FAULT, warm_flush_device(&handle, 0));
    must_have_failed(&handle, 1, WARM_FAILED_WRITE);
    make_dirty(&handle, 3);
    EXPECT(WARM_WRITE_FAULT, warm_write_back_all(&handle));
    must_have_failed(&handle, 3, WARM_FAILED_WRITE);
    make_dirty(&handle, 1);
    EXPECT(WARM_WRITE_FAULT, warm_replace(&handle, 0, &other));
    must_have_failed(&handle, 1, WARM_FAILED_WRITE);
    OK(warm_replace(&handle, 0, &other)); /* without a file nothing was written that waits for a sync */
    OK(warm_close(&handle));
}

/* A checkpoint in portions counts the pages of all shards. */
static void portions(void) {
    int fd = temporary();
    size_t left = 99;
    warm handle = {0};
    open_over(&handle, PAGES / shards, &fd, 1);
    write_all(&handle, 1, PAGES, 'a');
    OK(warm_write_back_some(&handle, 0, &left));
    MUST(left == PAGES);
    for (size_t waits = PAGES; waits > 0; waits = left) {
        OK(warm_write_back_some(&handle, 5, &left));
        MUST(left == (waits < 5 ? 0 : waits - 5));
    }
    for (uint64_t no = 0; no < PAGES; no++) MUST(byte_of(fd, no) == 'a');
    OK(warm_close(&handle));
    close(fd);
}

/* The whole history in the order of its shards: every page that it knows is read, each shard's hottest first. */
static void warmed_up(void) {
    static warm_reference seen[PAGES];
    int fd = temporary();
    warm handle = {0};
    warm_page page;
    bool found;
    for (uint64_t no = 0; no < PAGES; no++) seen[no] = (warm_reference){.time = no + 1, .no = no, .replica = 1};
    open_over(&handle, PAGES / shards, &fd, 1);
    OK(warm_absorb(&handle, seen, PAGES));
    for (uint64_t step = 0; step < PAGES; step++) {
        OK(warm_step(&handle, &found, &page));
        MUST(found && page.no % shards == step % shards && page.no / shards == (PAGES - 1) / shards - step / shards);
    }
    OK(warm_step(&handle, &found, &page));
    MUST(!found);
    for (uint64_t no = 0; no < PAGES; no++) {
        OK(warm_resident(&handle, (warm_page){.no = no}, &found));
        MUST(found);
    }
    for (size_t shard = 0; shard < shards; shard++) { /* the page of the shard that was referenced first */
        OK(next_victim(&handle, shard, &found, &page));
        MUST(found && page.no == shard);
    }
    OK(warm_close(&handle));
    close(fd);
}

/* A page of the last shard is pinned: no shard has the new device. */
static void replaced_in_all(void) {
    int fds[] = {temporary(), temporary()}, third = temporary();
    const warm_device in_place = {.pages = PAGES, .fd = third};
    warm handle = {0}, attached = {0};
    warm_slot slot;
    open_over(&handle, 4, fds, 2);
    OK(warm_attach(&handle, &attached));
    write_all(&handle, 2, 2 * shards, 'o');
    MUST(pwrite(third, "n", 1, 0) == 1);
    OK(warm_pin(&attached, (warm_page){.no = shards - 1}, &slot));
    EXPECT(WARM_NO_DEVICE, warm_replace(&handle, 2, &in_place));
    EXPECT(WARM_BAD_DEVICE, warm_replace(&handle, 0, &(warm_device){.pages = UINT64_MAX, .fd = third}));
    EXPECT(WARM_SAME_FILE, warm_replace(&handle, 0, &(warm_device){.pages = PAGES, .fd = fds[1]}));
    EXPECT(WARM_PINNED, warm_replace(&handle, 0, &in_place));
    for (uint64_t no = 0; no < 2 * shards; no++) MUST(read_from(&attached, (warm_page){.no = no}) == 'o');
    OK(warm_unpin(&attached, slot));
    OK(warm_replace(&handle, 0, &in_place));
    for (uint64_t no = 0; no < 2 * shards; no++) MUST(read_from(&attached, (warm_page){.no = no}) == (no == 0 ? 'n' : 0) && byte_of(fds[0], no) == 'o');
    write_all(&handle, 1, shards, 'p');
    syncs.calls = 0;
    OK(warm_write_back_all(&handle)); /* of the other device, too */
    MUST(syncs.calls == 2 && byte_of(third, shards - 1) == 'p' && byte_of(fds[1], 2 * shards - 1) == 'o');
    OK(warm_close(&attached));
    OK(warm_close(&handle));
    close(fds[0]);
    close(fds[1]);
    close(third);
}

static void forgotten_in_all(void) {
    int fd = temporary();
    warm handle = {0};
    warm_slot slot;
    open_over(&handle, PAGES / shards, &fd, 1);
    write_all(&handle, 1, PAGES, 'a');
    OK(warm_write_back_all(&handle));
    write_all(&handle, 1, PAGES, 'b');
    EXPECT(WARM_NO_DEVICE, warm_forget_pages(&handle, 1, 0));
    OK(warm_pin(&handle, (warm_page){.no = PAGES - shards}, &slot)); /* of the first shard */
    EXPECT(WARM_PINNED, warm_forget_pages(&handle, 0, PAGES / 2));
    for (uint64_t no = 0; no < PAGES; no++) MUST(read_from(&handle, (warm_page){.no = no}) == 'b');
    OK(warm_unpin(&handle, slot));
    OK(warm_forget_pages(&handle, 0, PAGES / 2));
    for (uint64_t no = 0; no < PAGES; no++) MUST(read_from(&handle, (warm_page){.no = no}) == (no < PAGES / 2 ? 'b' : 'a'));
    OK(warm_abandon(&handle));
    close(fd);
}

/* More frames than one shard has: all are pinned at once, and each has a number of its own. */
static void many_frames(void) {
    const size_t all = 2 * LARGE_SHARD;
    const warm_device device = {.pages = all + 2, .fd = temporary()};
    uint8_t *is_taken = calloc(all, 1);
    warm handle = {0};
    warm_slot slot;
    MUST(is_taken != NULL);
    EXPECT(WARM_BAD_FRAMES, open_with(&handle, 1, 1, all, 16, &device, 1));
    EXPECT(WARM_BAD_FRAMES, open_with(&handle, 1, 2, all + 2, 16, &device, 1));
    OK(open_with(&handle, 1, 2, all, 16, &device, 1));
    for (uint64_t no = 0; no < all; no++) {
        MUST(warm_pin_zeroed(&handle, (warm_page){.no = no}, &slot) == WARM_OK);
        size_t number = (size_t)slot.shard * LARGE_SHARD + slot.index;
        MUST(number < all && !is_taken[number]);
        is_taken[number] = 1;
    }
    EXPECT(WARM_ALL_PINNED, warm_pin(&handle, (warm_page){.no = all}, &slot));
    EXPECT(WARM_ALL_PINNED, warm_pin(&handle, (warm_page){.no = all + 1}, &slot));
    OK(warm_abandon(&handle));
    close(device.fd);
    free(is_taken);
}

/* A page that a warm-up step has read is where a call on that page looks for it: so both parts of the library have one shard for a page. */
static void found_again(void) {
    enum { DEVICES = 2, EACH = 64 };
    int fds[DEVICES] = {temporary(), temporary()};
    warm handle = {0};
    warm_page page;
    bool found;
    size_t read = 0;
    open_over(&handle, DEVICES * EACH, fds, DEVICES);
    for (uint16_t dev = 0; dev < DEVICES; dev++) {
        for (uint64_t no = 0; no < EACH; no++) OK(warm_absorb(&handle, &(warm_reference){.time = no + 1, .no = PAGES - 1 - no, .dev = dev, .replica = 1}, 1));
    }
    for (OK(warm_step(&handle, &found, &page)); found; read++) {
        bool resident = false;
        OK(warm_resident(&handle, page, &resident));
        MUST(resident);
        OK(warm_step(&handle, &found, &page));
    }
    MUST(read == DEVICES * EACH);
    OK(warm_close(&handle));
    for (int dev = 0; dev < DEVICES; dev++) close(fds[dev]);
}

int main(int count, char **words) {
    MUST(count == 2);
    shards = strtoul(words[1], NULL, 10);
    same_bytes();
    attached_handles();
    answers_of_handles();
    synced_once();
    failed_sync();
    last_failures();
    portions();
    warmed_up();
    found_again();
    replaced_in_all();
    forgotten_in_all();
    many_frames();
    return end_as_expected();
}

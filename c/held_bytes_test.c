/*
 * Tests reads of pages that a handle holds (shards.c), over fake_library.h: they answer what the
 * node would, and do not ask it. Pages have many bytes here, each its own.
 */
#include "fake_library.h"

enum { SIZE = FAKE_BYTES };

static uint8_t byte_of(uint64_t no, size_t at) { return (uint8_t)(no * 7 + at * 3 + 1); }

/* The page has its bytes, and a record, and nobody pins it. */
static void fill(warm *handle, uint64_t no) {
    uint8_t bytes[SIZE];
    warm_slot slot;
    for (size_t at = 0; at < SIZE; at++) bytes[at] = byte_of(no, at);
    OK(warm_pin_zeroed(handle, page_at(no), &slot)); /* no page is read: a fake file has no more */
    OK(warm_write(handle, slot, 0, bytes, SIZE));
    OK(warm_unpin(handle, slot));
    pin_twice(handle, no);
}

static void open_wide(warm *handle, size_t shards, size_t frames, size_t size) {
    const warm_options options = {.size = sizeof options,
        .replica = 1,
        .shards = shards,
        .frames = frames,
        .page_size = size,
        .devices = devices,
        .device_count = FAKE_DEVICES};
    OK(warm_open(handle, &options));
}

static void open_two(warm *first, warm *second, size_t shards, size_t frames) {
    open_wide(first, shards, frames, SIZE);
    OK(warm_attach(first, second));
}

static void close_two(warm *first, warm *second) {
    no_pins(first);
    OK(warm_close(second));
    OK(warm_abandon(first));
    nothing_left();
}

/* How many calls the nodes have had. */
static uint64_t calls(warm *handle) {
    uint64_t all = 0;
    for (size_t number = 0; number < ((opened *)handle->at)->count; number++)
        all += node_of(handle, number)->calls;
    return all;
}

/* A read of the page with this slot: what comes of it, in bytes that it leaves as they are if it is
 * refused. */
static int read_bytes(warm *by, warm_slot slot, size_t at, size_t length, uint8_t got[SIZE + 1]) {
    memset(got, 0xEE, SIZE + 1);
    return warm_read(by, slot, at, got, length);
}

/* Whether a slot is of this page, by a read of it and by a pointer to it. */
static bool is_of(warm *by, warm_slot slot, uint64_t no) {
    uint8_t got[SIZE + 1];
    const uint8_t *bytes = NULL;
    OK(read_bytes(by, slot, 0, SIZE, got));
    OK(warm_bytes(by, slot, &bytes));
    look_at(by, slot, no);
    MUST(bytes == node_of(by, slot.shard)->at[slot.index].bytes && got[SIZE] == 0xEE);
    for (size_t at = 0; at < SIZE; at++)
        if (got[at] != byte_of(no, at) || bytes[at] != got[at]) return false;
    return true;
}

/* The same of a slot that its handle holds: no node is asked, and the only lock taken is that of a
 * read, if there are other handles. */
static bool is_held(warm *by, warm_slot slot, uint64_t no) {
    uint64_t asked = calls(by);
    int before = taken, locks = open_handles(((opened *)by->at)->of) > 1;
    bool is_so = is_of(by, slot, no);
    return is_so && calls(by) == asked && taken == before + locks;
}

static bool is_stale(warm *by, warm_slot slot) {
    uint8_t got[SIZE + 1];
    const uint8_t *bytes = got;
    int status = warm_bytes(by, slot, &bytes);
    MUST(status == read_bytes(by, slot, 0, 1, got) && bytes == got && got[0] == 0xEE);
    MUST(status == read_bytes(by, slot, SIZE + 1, 1, got)); /* which is looked at later */
    return status == WARM_STALE_SLOT;
}

/* The slot of a held page is stale if any of its bits is another, except for those of hit. */
static void all_bits_count(warm *by, warm_slot slot) {
    const uint8_t *bytes;
    for (int bit = 0; bit < 64; bit++) {
        warm_slot generation = slot, index = slot, shard = slot, hit = slot;
        generation.generation ^= UINT64_C(1) << bit;
        index.index ^= UINT32_C(1) << bit % 32;
        shard.shard ^= (uint16_t)(1u << bit % 16);
        hit.hit ^= (uint16_t)(1u << bit % 16);
        MUST(is_stale(by, generation) && is_stale(by, index) && is_stale(by, shard));
        OK(warm_bytes(by, hit, &bytes));
    }
}

/* A page has as many bytes as the replica was opened with. */
static void test_sizes(void) {
    for (size_t size = 1; size <= SIZE; size += 9) {
        warm first = {0}, second = {0};
        uint8_t got[SIZE + 1], bytes[SIZE];
        warm_slot slot;
        memset(bytes, 7, SIZE);
        open_wide(&first, 1, 2, size);
        OK(warm_attach(&first, &second));
        OK(warm_pin_zeroed(&first, page_at(3), &slot));
        OK(warm_write(&first, slot, 0, bytes, size));
        OK(warm_unpin(&first, slot));
        pin_twice(&first, 3);
        slot = hold_page(&second, 3);
        OK(read_bytes(&second, slot, 0, size, got));
        MUST(got[size - 1] == 7 && got[size] == 0xEE);
        MUST(read_bytes(&second, slot, 0, size + 1, got) == WARM_OUT_OF_PAGE && got[0] == 0xEE);
        MUST(read_bytes(&second, slot, size + 1, 0, got) == WARM_OUT_OF_PAGE);
        OK(warm_unpin(&second, slot));
        close_two(&first, &second);
    }
}

/* The node is asked for the handle that does not hold the page. */
static void test_ends(void) {
    warm first = {0}, second = {0};
    const size_t ends[] = {0, 1, 2, SIZE / 2, SIZE - 1, SIZE, SIZE + 1, SIZE_MAX - 1, SIZE_MAX};
    enum { ENDS = sizeof ends / sizeof *ends };
    open_two(&first, &second, 1, 2);
    fill(&first, 3);
    warm_slot slot = hold_page(&second, 3);
    int refused = 0;
    for (int from = 0; from < ENDS; from++) {
        for (int length = 0; length < ENDS; length++) {
            uint8_t got[SIZE + 1], asked[SIZE + 1];
            int status = read_bytes(&second, slot, ends[from], ends[length], got);
            MUST(status == read_bytes(&first, slot, ends[from], ends[length], asked));
            MUST(memcmp(got, asked, sizeof got) == 0);
            MUST(status == WARM_OK || (status == WARM_OUT_OF_PAGE && got[0] == 0xEE));
            refused += status != WARM_OK;
            if (status == WARM_OK && ends[length] > 0) MUST(got[0] == byte_of(3, ends[from]));
        }
    }
    MUST(refused == ENDS * ENDS - 6 - 5 - 4 - 4 - 2 - 1);
    OK(warm_unpin(&second, slot));
    close_two(&first, &second);
}

/* As many pages as a handle holds, of several shards: each read is of its own, whoever else holds
 * pages. */
static void test_records(void) {
    for (size_t shards = 1; shards <= 4; shards *= 2) {
        warm first = {0}, second = {0};
        warm_slot slots[HOLDS], others[HOLDS];
        open_two(&first, &second, shards, 4 * HOLDS);
        for (uint64_t no = 0; no < 2 * HOLDS; no++) fill(&first, no);
        for (uint64_t no = 0; no < HOLDS; no++) slots[no] = hold_page(&second, no);
        for (uint64_t no = 0; no < HOLDS; no++) others[no] = hold_page(&first, 2 * HOLDS - 1 - no);
        for (uint64_t no = 0; no < HOLDS; no++) {
            MUST(is_held(&second, slots[no], no));
            MUST(is_held(&first, others[no], 2 * HOLDS - 1 - no));
        }
        for (uint64_t no = 0; no < HOLDS; no++) {
            OK(warm_unpin(&second, slots[no]));
            MUST(is_stale(&second, slots[no]));
            for (uint64_t left = no + 1; left < HOLDS; left++)
                MUST(is_held(&second, slots[left], left));
            OK(warm_unpin(&first, others[no]));
        }
        close_two(&first, &second);
    }
}

/* Pages of two shards are held whose slots have the same index and generation. */
static void test_shards(void) {
    warm first = {0}, second = {0};
    open_two(&first, &second, 2, 4);
    for (uint64_t no = 0; no < 2; no++) fill(&first, no);
    warm_slot slot = hold_page(&second, 0), beside = slot;
    beside.shard = 1;
    MUST(slot.index == 0 && slot.shard == 0 && is_held(&second, slot, 0));
    MUST(is_stale(&second, beside));
    all_bits_count(&second, slot);
    warm_slot other = hold_page(&second, 1);
    MUST(other.index == 0 && other.generation == slot.generation && other.shard == 1);
    MUST(is_held(&second, beside, 1) && is_held(&second, slot, 0));
    OK(warm_unpin(&second, slot));
    MUST(is_stale(&second, slot) && is_held(&second, other, 1));
    beside.shard = 2;
    MUST(is_stale(&second, beside));
    OK(warm_unpin(&second, other));
    close_two(&first, &second);
}

/* A page is held, whose frame had another page before, and the frame beside it. */
static void test_generations(void) {
    warm first = {0}, second = {0};
    open_two(&first, &second, 1, 1);
    fill(&first, 0);
    warm_slot before = hold_page(&second, 0);
    OK(warm_unpin(&second, before));
    fill(&first, 1);
    warm_slot slot = hold_page(&second, 1), beside = slot;
    beside.index++;
    MUST(slot.index == before.index && slot.generation == before.generation + 1);
    MUST(is_stale(&second, before) && is_stale(&second, beside) && is_held(&second, slot, 1));
    OK(warm_unpin(&second, slot));
    MUST(is_stale(&second, slot));
    close_two(&first, &second);
}

/* Another handle's hold keeps a page, or its own that it made again. */
static void test_holders(void) {
    warm first = {0}, second = {0};
    open_two(&first, &second, 1, 2);
    fill(&first, 0);
    warm_slot slot = hold_page(&second, 0), same = hold_page(&first, 0);
    OK(warm_unpin(&second, slot));
    uint64_t asked = calls(&first);
    MUST(is_of(&second, slot, 0) && calls(&first) > asked);
    MUST(is_held(&first, same, 0));
    OK(warm_unpin(&second, hold_page(&second, 0)));
    OK(warm_unpin(&first, same));
    MUST(is_stale(&first, slot) && is_stale(&second, slot));
    for (int time = 0; time < 2; time++) slot = hold_page(&second, 0);
    for (int time = 0; time < 2; time++) {
        MUST(is_held(&second, slot, 0));
        OK(warm_unpin(&second, slot));
    }
    MUST(is_stale(&second, slot));
    close_two(&first, &second);
}

/* A handle pins a page in the node and by a hold: whichever slot it reads by, and whichever pin is
 * left. */
static void test_both(void) {
    warm first = {0}, second = {0};
    warm_slot slots[2];
    open_two(&first, &second, 1, 2);
    fill(&first, 0);
    OK(warm_pin_zeroed(&second, page_at(1), &slots[0])); /* in the node */
    slots[1] = pin(&second, 1);
    OK(warm_unpin(&second, slots[1]));
    for (int round = 0; round < 2; round++) {
        slots[1] = hold_page(&second, 1);
        MUST(slots[0].hit == 0 && slots[1].hit == 1 && node_of(&second, 0)->at[1].pins == 1);
        for (size_t at = 0; at < SIZE; at++) {
            uint8_t byte = byte_of(1, at);
            OK(warm_write(&first, slots[0], at, &byte, 1));
        }
        MUST(is_held(&second, slots[0], 1) && is_held(&second, slots[1], 1));
        OK(warm_unpin(&second, slots[1 - round]));
        uint64_t asked = calls(&first);
        MUST(is_of(&second, slots[round], 1) && calls(&first) > asked);
    }
    OK(warm_unpin(&second, slots[0]));
    MUST(is_stale(&second, slots[0]) && is_stale(&second, slots[1]));
    close_two(&first, &second);
}

/* A handle that is alone takes no lock; a call of one that is closed is refused first. */
static void test_alone(void) {
    warm handle = {0};
    uint8_t got[SIZE + 1];
    const uint8_t *bytes = NULL;
    open_wide(&handle, 2, 4, SIZE);
    for (uint64_t no = 0; no < 2; no++) fill(&handle, no);
    warm_slot slot = hold_page(&handle, 1);
    MUST(is_held(&handle, slot, 1) && slot.shard == 1);
    MUST(read_bytes(&handle, slot, SIZE, 1, got) == WARM_OUT_OF_PAGE && got[0] == 0xEE);
    OK(read_bytes(&handle, slot, SIZE, 0, got));
    OK(warm_unpin(&handle, slot));
    MUST(is_stale(&handle, slot));
    OK(warm_abandon(&handle));
    MUST(read_bytes(&handle, slot, SIZE, 1, got) == WARM_CLOSED &&
         warm_bytes(&handle, slot, &bytes) == WARM_CLOSED && bytes == NULL);
    nothing_left();
}

/* ---- threads ---- */

enum { ROUNDS = 2000 / FEWER };

static warm writer, reader;
static warm_slot read_slot;
static atomic_bool is_read;
static bool is_whole;

/* Whether each byte is the same as the first one. */
static void *read_once(void *of) {
    uint8_t got[SIZE + 1];
    (void)of;
    OK(read_bytes(&reader, read_slot, 0, SIZE, got));
    is_whole = got[0] == 'n';
    for (size_t at = 1; at < SIZE; at++) is_whole = is_whole && got[at] == got[0];
    atomic_store(&is_read, true);
    return NULL;
}

static pthread_t reading_thread;

static void read_half(void) {
    MUST(pthread_create(&reading_thread, NULL, read_once, NULL) == 0);
    usleep(2000);
    MUST(!atomic_load(&is_read));
}

/* Who reads waits for the end of a write of another handle, if it has begun. */
static void test_step(void) {
    uint8_t bytes[SIZE];
    open_two(&writer, &reader, 2, 4);
    fill(&writer, 1);
    memset(bytes, 'n', SIZE);
    read_slot = hold_page(&reader, 1);
    at_half = read_half;
    OK(warm_write(&writer, read_slot, 0, bytes, SIZE));
    at_half = NULL;
    MUST(pthread_join(reading_thread, NULL) == 0 && is_whole);
    OK(warm_unpin(&reader, read_slot));
    close_two(&writer, &reader);
}

static void *write_often(void *of) {
    uint8_t bytes[SIZE];
    for (int round = 0; round < ROUNDS; round++) {
        memset(bytes, round, SIZE);
        OK(warm_write(of, read_slot, 0, bytes, SIZE));
    }
    return NULL;
}

/* No read has a part of a write. */
static void test_threads(void) {
    pthread_t thread;
    uint8_t got[SIZE + 1];
    open_two(&writer, &reader, 2, 4);
    fill(&writer, 1);
    read_slot = hold_page(&reader, 1);
    at_half = give_turn;
    memset(got, 0, SIZE);
    OK(warm_write(&writer, read_slot, 0, got, SIZE));
    MUST(pthread_create(&thread, NULL, write_often, &writer) == 0);
    for (int round = 0; round < ROUNDS; round++) {
        OK(read_bytes(&reader, read_slot, 0, SIZE, got));
        for (size_t at = 1; at < SIZE; at++) MUST(got[at] == got[0]);
        if (round % 16 == 0) sched_yield();
    }
    MUST(pthread_join(thread, NULL) == 0);
    at_half = NULL;
    OK(warm_unpin(&reader, read_slot));
    close_two(&writer, &reader);
}

int main(void) {
    alarm(600);
    test_ends();
    test_records();
    test_shards();
    test_sizes();
    test_generations();
    test_holders();
    test_both();
    test_alone();
    test_step();
    test_threads();
    puts("held_bytes_test: as expected");
    return 0;
}

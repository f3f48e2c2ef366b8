/*
 * Tests reads with no shard locked (reads.c, shards.c) over fake_library.h: who wants a page that
 * is being read waits for it, and for nothing else; what is refused is refused before a page is
 * read, if that is known; and loads without a pin. What is forgotten or replaced meanwhile is
 * tested by stale_reads_test.c.
 */
#include "callers.h"

/* ---- who waits, and for what ---- */

/* Pages of one shard are read at the same time: none of the reads ends before all have begun. */
static atomic_int together;

static void meet(int fd, off_t at) {
    (void)fd, (void)at;
    together++;
    while (atomic_load(&together) < MOST) sched_yield();
}

static void test_together(void) {
    open_all(1, MOST);
    at_read = meet;
    for (int number = 0; number < MOST; number++)
        begin(number, number == 3 ? PREFETCHES : PINS, page_at((uint64_t)number));
    for (int number = 0; number < MOST; number++) MUST(end(number) == WARM_OK);
    for (int number = 0; number < 3; number++) {
        MUST(callers[number].slot.hit == 0);
        unpin(number);
    }
    MUST(reads == MOST && is_in(&first, 3));
    has_counted(0, MOST, 0);
    close_all();
}

/* One reads a page, and others wait for it; what they want of other pages of the shard they get
 * meanwhile. All have the page then, and it was read once. A page of the same number of another
 * device is another one. */
static void test_waiting(void) {
    open_all(1, 4);
    in_files[10][5] = 'p';
    in_files[11][5] = 'q';
    stops_at = 5;
    begin(0, PINS, page_at(5));
    until_begun(1);
    begin(1, PINS, page_at(5));
    begin(2, PREFETCHES, page_at(5));
    until_waiting(2);
    pin_twice(&first, 1);
    OK(warm_unpin(&first, hold_page(&first, 1)));
    MUST(read_from(&first, page_at(2)) == 0 && !is_in(&first, 5));
    stops_at = 5;
    begin(3, PINS, (warm_page){.dev = 1, .no = 5});
    until_begun(2);
    not_over(1);
    may_end = 2;
    for (int number = 0; number < MOST; number++) MUST(end(number) == WARM_OK);
    MUST(reads == 4 && callers[0].slot.hit == 0 && callers[1].slot.hit == 1 &&
         callers[3].slot.hit == 0);
    MUST(callers[0].slot.index == callers[1].slot.index &&
         callers[0].slot.index != callers[3].slot.index);
    MUST(read_from(&first, page_at(5)) == 'p' &&
         read_from(&first, (warm_page){.dev = 1, .no = 5}) == 'q' && reads == 4);
    unpin(0);
    unpin(1);
    unpin(3);
    close_all();
}

/* Who waits for one page is not woken for good by the end of another one. */
static void test_waiting_for_one(void) {
    open_all(1, 4);
    stops_at = 5;
    begin(0, PINS, page_at(5));
    until_begun(1);
    stops_at = 6;
    begin(1, PINS, page_at(6));
    until_begun(2);
    begin(2, PINS, page_at(5));
    begin(3, PINS, page_at(6));
    until_waiting(2);
    may_end = 1;
    MUST(end(0) == WARM_OK && end(2) == WARM_OK && callers[2].slot.hit == 1);
    not_over(1);
    not_over(3);
    may_end = 2;
    MUST(end(1) == WARM_OK && end(3) == WARM_OK && callers[3].slot.hit == 1 && reads == 2);
    for (int number = 0; number < MOST; number++) unpin(number);
    close_all();
}

/* A page that is filled with zeros while it is read is read before: or what was written to it could
 * be lost. */
static void test_zeroing(void) {
    open_all(1, 2);
    in_files[10][5] = 'p';
    stops_at = 5;
    begin(0, PINS, page_at(5));
    until_begun(1);
    begin(1, PINS_ZEROED, page_at(5));
    until_waiting(1);
    not_over(1);
    may_end = 1;
    MUST(end(0) == WARM_OK && end(1) == WARM_OK && callers[1].slot.hit == 1 &&
         callers[1].slot.generation == 1);
    unpin(0);
    unpin(1);
    OK(warm_pin_zeroed(&first, page_at(6), &callers[2].slot)); /* which is not read */
    OK(warm_unpin(&first, callers[2].slot));
    in_files[10][6] = 'p';
    MUST(read_from(&first, page_at(6)) == 0 && reads == 1);
    close_all();
}

/* ---- reads that fail ---- */

/* Who waited tries again: and may succeed, or fails by itself. Each read is counted, and each
 * failure is that of its own handle. */
static void failing_reads(bool goes_on) {
    open_all(1, 2);
    stops_at = 5;
    unreadable = 5;
    begin(0, PINS, page_at(5));
    until_begun(1);
    begin(1, PINS, page_at(5));
    begin(2, PREFETCHES, page_at(5));
    until_waiting(2);
    if (!goes_on) unreadable = INT64_MAX;
    may_end = MOST;
    int failed = goes_on ? 3 : 1;
    MUST(end(0) == WARM_READ_FAULT && end(1) == (goes_on ? WARM_READ_FAULT : WARM_OK));
    MUST(end(2) == callers[1].status && reads == (goes_on ? 3 : 2));
    unreadable = INT64_MAX;
    for (int number = 0; number < MOST; number++)
        MUST(has_failure(&callers[number].handle) == (number < failed));
    must_have_failed(&callers[0].handle, 5, 0, WARM_FAILED_READ, ENXIO);
    MUST(callers[0].slot.generation == 77 && (callers[1].slot.generation == 77) == goes_on);
    has_counted(0, (uint64_t)reads, (uint64_t)failed);
    has_counted(1, 0, 0);
    if (!goes_on) unpin(1);
    close_all();
}

/* The page that would have left has its record afterwards, and is pinned without a lock. */
static void test_failure_leaves_records(void) {
    open_all(1, 2);
    pin_twice(&first, 0);
    pin_twice(&first, 1);
    unreadable = 5;
    MUST(warm_prefetch(&callers[0].handle, page_at(5)) == WARM_READ_FAULT);
    unreadable = INT64_MAX;
    for (uint64_t no = 0; no < 2; no++) OK(warm_unpin(&first, hold_page(&first, no)));
    close_all();
}

/* A device without a file. */
static void test_no_file(void) {
    static const warm_device none[] = {{.pages = 9, .fd = -1}, {.pages = 9, .fd = -2}};
    warm handle = {0}, second = {0};
    warm_slot slot;
    OK(open_with(&handle, 1, 1, 1, none, 2));
    OK(warm_attach(&handle, &second));
    MUST(warm_pin(&handle, (warm_page){.dev = 1, .no = 3}, &slot) == WARM_READ_FAULT);
    must_have_failed(&handle, 3, 1, WARM_FAILED_READ, EBADF);
    OK(warm_close(&second));
    OK(warm_close(&handle));
    nothing_left();
}

/* A place in a file has 64 bits. A fake node has no page there, and refuses it after the read. */
static off_t was_at;

static void note_place(int fd, off_t at) {
    (void)fd;
    was_at = at;
}

static void test_far_place(void) {
    static const warm_device far = {.pages = UINT64_C(1) << 40, .fd = 10};
    const uint64_t no = (UINT64_C(1) << 33) + 5;
    warm handle = {0}, second = {0};
    files_keep = false; /* nor has a fake file */
    at_read = note_place;
    OK(open_with(&handle, 1, 1, 1, &far, 1));
    OK(warm_attach(&handle, &second));
    MUST(warm_prefetch(&second, page_at(no)) == WARM_NO_PAGE && was_at == (off_t)no);
    at_read = NULL;
    OK(warm_close(&second));
    OK(warm_close(&handle));
    nothing_left();
}

/* ---- frames ---- */

/* If no frame is free, no page is read; the same if pages are held. */
static void test_no_room(void) {
    warm_slot slot, slots[2];
    open_all(1, 2);
    MUST(warm_pin(&first, (warm_page){.dev = FAKE_DEVICES}, &slot) == WARM_NO_DEVICE);
    MUST(warm_pin(&first, page_at(FAKE_PAGES), &slot) == WARM_NO_PAGE &&
         warm_prefetch(&first, page_at(FAKE_PAGES)) == WARM_NO_PAGE && reads == 0);
    pin_twice(&first, 0);
    slots[0] = hold_page(&first, 0);
    slots[1] = pin(&first, 1);
    reads = 0;
    MUST(warm_pin(&callers[0].handle, page_at(2), &slot) == WARM_ALL_PINNED &&
         warm_prefetch(&first, page_at(2)) == WARM_ALL_PINNED);
    MUST(reads == 0);
    OK(warm_unpin(&first, slots[1]));
    OK(warm_forget_pages(&first, 0, 1));
    slots[1] = pin(&callers[1].handle, 2); /* the frame is free that had a page */
    MUST(reads == 1 && slots[1].index == 1);
    OK(warm_unpin(&callers[1].handle, slots[1]));
    OK(warm_prefetch(&first, (warm_page){.dev = 1}));
    OK(warm_replace(&first, 1, &in_place));
    slots[1] = pin(&callers[1].handle, 3); /* so it is after this */
    MUST(reads == 3 && slots[1].index == 1);
    OK(warm_unpin(&callers[1].handle, slots[1]));
    OK(warm_unpin(&first, slots[0]));
    close_all();
}

/* Before a page is read the node is asked which one would leave, unless frames are left that no pin
 * and no hold can have. */
static int questions;

static void count_it(void) { questions++; }

static void test_much_room(void) {
    warm handle = {0}, second = {0};
    warm_slot slot, slots[FAKE_FRAMES];
    at_victim = count_it;
    OK(open_with(&handle, 1, 1, FAKE_FRAMES, devices, FAKE_DEVICES));
    OK(warm_attach(&handle, &second));
    for (int round = 0; round < 2; round++) {
        for (uint64_t no = 0; no < FAKE_FRAMES; no++) {
            int before = questions, asked = no < FAKE_FRAMES - 2 * HOLDS ? 1 : 2;
            slots[no] = pin(no % 2 == 0 ? &handle : &second, no + FAKE_FRAMES * (uint64_t)round);
            MUST(slots[no].hit == 0 && questions - before == (round == 0 ? 0 : asked));
        }
        reads = 0;
        slot = (warm_slot){.generation = 99}; /* an unpin that is refused is none */
        for (int at = 0; at < FAKE_FRAMES; at++) MUST(warm_unpin(&second, slot) == WARM_STALE_SLOT);
        MUST(warm_pin(&second, page_at(400), &slot) == WARM_ALL_PINNED && reads == 0);
        for (int at = 0; at < FAKE_FRAMES; at++)
            OK(warm_unpin(at % 2 == 0 ? &handle : &second, slots[at]));
    }
    at_victim = NULL;
    OK(warm_close(&second));
    OK(warm_close(&handle));
    nothing_left();
}

/* The last frame is taken while a page is read. */
static void test_taken_frame(void) {
    open_all(1, 1);
    stops_at = 5;
    begin(0, PINS, page_at(5));
    until_begun(1);
    warm_slot slot = pin(&first, 1);
    may_end = 1;
    MUST(end(0) == WARM_ALL_PINNED && !is_in(&first, 5) && callers[0].slot.generation == 77);
    OK(warm_unpin(&first, slot));
    OK(warm_prefetch(&first, page_at(5)));
    MUST(is_in(&first, 5));
    close_all();
}

/* Pages that cannot be written stay, and the page is read once, whichever leaves in the end. */
static uint64_t stuck_below;

static bool is_below(node_page page) { return page.no < stuck_below; }

static void test_stuck_victims(void) {
    open_all(1, 4);
    for (uint64_t no = 0; no < 4; no++) write_to(&first, page_at(no), 'd');
    in_files[10][5] = 'p';
    is_stuck = is_below;
    stuck_below = 3;
    reads = 0;
    MUST(read_from(&callers[0].handle, page_at(5)) == 'p' && reads == 1 && is_in(&first, 0) &&
         !is_in(&first, 3));
    must_have_failed(&callers[0].handle, 0, 0, WARM_FAILED_WRITE, EIO);
    OK(warm_forget_pages(&first, 0, 5));
    write_to(&first, page_at(3), 'd');
    stuck_below = 4;
    MUST(warm_prefetch(&callers[1].handle, page_at(5)) == WARM_EVICT_FAULT && !is_in(&first, 5));
    is_stuck = NULL;
    OK(warm_prefetch(&callers[1].handle, page_at(5)));
    MUST(in_files[10][0] == 'd' && !is_in(&first, 0)); /* it was written before it left */
    close_all();
}

/* ---- loads without a pin ---- */

static uint64_t misses(void) {
    warm_counters counters;
    OK(warm_counts(&first, &counters));
    return counters.misses;
}

/* They take no memory and are no misses; nor is a page read that is in a frame. Who is alone reads
 * so, too, and takes no lock. */
static void test_prefetching(void) {
    warm handle = {0};
    MUST(warm_prefetch(&handle, page_at(0)) == WARM_CLOSED);
    open_all(1, 2);
    for (int is_alone = 0; is_alone < 2; is_alone++) {
        for (int number = 0; is_alone && number < MOST; number++)
            OK(warm_close(&callers[number].handle));
        uint64_t before = misses();
        taken = 0;
        reads = 0;
        granted = 0;
        for (uint64_t no = 4; no < 7; no++) {
            in_files[10][no] = (uint8_t)no;
            for (int time = 0; time < 2; time++) OK(warm_prefetch(&first, page_at(no)));
        }
        granted = SIZE_MAX;
        MUST(reads == 3 && taken == (is_alone ? 0 : 3 * 2 + 3) && misses() == before);
        MUST(!is_in(&first, 4) && is_in(&first, 5) && is_in(&first, 6));
        no_pins(&first);
        warm_slot slot = pin(&first, 6);
        MUST(slot.hit == 1 && *lent == 6);
        OK(warm_unpin(&first, slot));
        unreadable = 7;
        MUST(warm_prefetch(&first, page_at(7)) == WARM_READ_FAULT && misses() == before);
        must_have_failed(&first, 7, 0, WARM_FAILED_READ, ENXIO);
        unreadable = INT64_MAX;
        MUST(warm_prefetch(&first, (warm_page){.dev = FAKE_DEVICES}) == WARM_NO_DEVICE);
        OK(warm_forget_pages(&first, 0, 0));
    }
    for (int number = 0; number < MOST; number++) OK(warm_attach(&first, &callers[number].handle));
    close_all();
}

/* A step waits for a page that is read, and asks again. A page that it reads is waited for. */
static void test_steps(void) {
    const warm_reference seen = {.replica = 1};
    open_all(1, 4);
    for (int page = 1; page <= 2; page++) OK(warm_absorb(&first, &seen, 1));
    uint64_t before = misses();
    stops_at = 2;
    begin(0, STEPS, page_at(0));
    until_begun(1);
    begin(1, STEPS, page_at(0));
    begin(2, PINS, page_at(2));
    until_waiting(2);
    not_over(1);
    may_end = 1;
    for (int number = 0; number < 3; number++) MUST(end(number) == WARM_OK);
    MUST(
        callers[0].found && callers[0].page.no == 2 && callers[1].found && callers[1].page.no == 1);
    MUST(callers[2].slot.hit == 1 && reads == 2 && misses() == before);
    unpin(2);
    begin(0, STEPS, page_at(9));
    MUST(end(0) == WARM_OK && !callers[0].found && callers[0].page.no == 9);
    close_all();
}

/* A step that is refused says nothing of a page, nor whether there is one. */
static void refused_step(int status) {
    for (int found = 0; found < 2; found++) {
        callers[0].found = found;
        begin(0, STEPS, page_at(9));
        MUST(end(0) == status && callers[0].found == found && callers[0].page.no == 9);
    }
}

static void test_refused_steps(void) {
    const warm_reference seen = {.replica = 1};
    open_all(1, 1);
    OK(warm_absorb(&first, &seen, 1));
    unreadable = 0;
    refused_step(WARM_READ_FAULT);
    unreadable = INT64_MAX;
    warm_slot slot = pin(&first, 7);
    refused_step(WARM_ALL_PINNED);
    OK(warm_unpin(&first, slot));
    begin(0, STEPS, page_at(9));
    MUST(end(0) == WARM_OK && callers[0].found && callers[0].page.no == 1 && is_in(&first, 1));
    close_all();
}

/* A handle that is alone lets the node read, which need not copy the page. Which frames have a page
 * is known after that, too. */
static void test_alone(void) {
    warm handle = {0}, second = {0};
    warm_slot slot;
    files_keep = true;
    in_files[10][5] = 'p';
    reads = 0;
    open_shards(&handle, 1);
    MUST(read_from(&handle, page_at(5)) == 'p' && reads == 0);
    pin_twice(&handle, 5);
    slot = hold_page(&handle, 5);
    OK(warm_unpin(&handle, pin(&handle, 6)));
    MUST(reads == 0);
    OK(warm_unpin(&handle, slot));
    OK(warm_forget_pages(&handle, 0, 0));
    pin_twice(&handle, 5);
    OK(warm_attach(&handle, &second));
    slot = hold_page(&second, 5);
    OK(warm_unpin(&second, pin(&second, 6))); /* into the other frame */
    MUST(reads == 1);
    OK(warm_unpin(&second, slot));
    OK(warm_close(&second));
    OK(warm_close(&handle));
    files_keep = false;
    nothing_left();
}

/* A pin of a page that is in a frame fills no other one. */
static void test_alone_hits(void) {
    warm handle = {0}, second = {0};
    open_shards(&handle, 1);
    pin_twice(&handle, 5);
    OK(warm_attach(&handle, &second));
    warm_slot slot = hold_page(&second, 5);
    OK(warm_unpin(&second, pin(&second, 6))); /* into the other frame */
    OK(warm_unpin(&second, slot));
    OK(warm_close(&second));
    OK(warm_close(&handle));
    nothing_left();
}

/* ---- threads ---- */

enum { THREADS = 6, ROUNDS = 4000 / FEWER, PAGES = 10 };

/* Bytes of pages of the first device, each under its lock; those of the second one do not change.
 */
static uint8_t model[PAGES];
static pthread_mutex_t page_locks[PAGES];

static uint64_t draw(uint64_t *drawn) {
    *drawn ^= *drawn << 13;
    *drawn ^= *drawn >> 7;
    *drawn ^= *drawn << 17;
    return *drawn * 2685821657736338717u >> 33;
}

static void yield_now_and_then(int fd, off_t at) {
    static _Thread_local uint64_t drawn = 77;
    (void)fd, (void)at;
    if (draw(&drawn) % 3 == 0) give_turn();
}

/* The page is pinned before its lock is taken, so that several threads wait for one read. */
static void use_page(warm *handle, uint64_t no, bool writes) {
    warm_slot slot;
    uint8_t byte;
    int status = warm_pin(handle, page_at(no), &slot);
    MUST(status == WARM_OK || status == WARM_ALL_PINNED);
    if (status != WARM_OK) return;
    pthread_mutex_lock(&page_locks[no]);
    OK(warm_read(handle, slot, 0, &byte, 1));
    MUST(byte == model[no]);
    if (writes) {
        byte = ++model[no];
        OK(warm_write(handle, slot, 0, &byte, 1));
    }
    pthread_mutex_unlock(&page_locks[no]);
    OK(warm_unpin(handle, slot));
}

static void look_at_other(warm *handle, uint64_t no) {
    warm_slot slot;
    uint8_t byte;
    int status = warm_pin(handle, (warm_page){.dev = 1, .no = no}, &slot);
    MUST(status == WARM_OK || status == WARM_ALL_PINNED);
    if (status != WARM_OK) return;
    OK(warm_read(handle, slot, 0, &byte, 1));
    MUST(byte == no + 1);
    OK(warm_unpin(handle, slot));
}

static void *work(void *of) {
    warm *handle = of;
    uint64_t drawn = (uintptr_t)of | 1;
    for (int round = 0; round < ROUNDS; round++) {
        uint64_t what = draw(&drawn) % 32, no = draw(&drawn) % PAGES;
        int status = WARM_OK;
        if (what < 16) use_page(handle, no, what < 8);
        else if (what < 26) look_at_other(handle, no);
        else if (what < 28)
            status = warm_prefetch(handle, (warm_page){.dev = (uint16_t)(what % 2), .no = no});
        else if (what < 30) status = warm_forget_pages(handle, 1, no);
        else if (what < 31) status = warm_replace(handle, 1, &devices[1]);
        else OK(warm_write_back_all(handle));
        MUST(status == WARM_OK || status == WARM_PINNED || status == WARM_ALL_PINNED);
    }
    OK(warm_close(handle));
    return NULL;
}

static void test_threads(void) {
    for (size_t shards = 1; shards <= 2; shards++) {
        warm handle = {0}, attached[THREADS] = {{0}};
        pthread_t threads[THREADS];
        memset(in_files, 0, sizeof in_files);
        memset(model, 0, sizeof model);
        files_keep = true;
        for (uint64_t no = 0; no < PAGES; no++) {
            MUST(pthread_mutex_init(&page_locks[no], NULL) == 0);
            in_files[11][no] = (uint8_t)(no + 1);
        }
        at_read = yield_now_and_then;
        open_shards(&handle, shards);
        for (int at = 0; at < THREADS; at++) {
            OK(warm_attach(&handle, &attached[at]));
            MUST(pthread_create(&threads[at], NULL, work, &attached[at]) == 0);
        }
        for (int at = 0; at < THREADS; at++) MUST(pthread_join(threads[at], NULL) == 0);
        no_pins(&handle);
        OK(warm_write_back_all(&handle));
        for (uint64_t no = 0; no < PAGES; no++) MUST(in_files[10][no] == model[no]);
        OK(warm_close(&handle));
        nothing_left();
        files_keep = false;
        at_read = NULL;
    }
}

int main(void) {
    alarm(600);
    test_together();
    test_waiting();
    test_waiting_for_one();
    test_zeroing();
    failing_reads(false);
    failing_reads(true);
    test_failure_leaves_records();
    test_no_file();
    test_far_place();
    test_no_room();
    test_much_room();
    test_taken_frame();
    test_stuck_victims();
    test_prefetching();
    test_steps();
    test_refused_steps();
    test_alone();
    test_alone_hits();
    test_threads();
    puts("reads_test: as expected");
    return 0;
}

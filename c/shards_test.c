/*
 * Tests pins, the locks that calls take, and threads (shards.c) over fake_library.h. It looks which
 * locks a call takes, and the fake nodes look that no two calls are in one. holds_test.c tests pins
 * that take no lock, reads_test.c those that read a page, and whole_calls_test.c what is not of one
 * page. examples/c tests the same over the proved part.
 */
#include "fake_library.h"

/* ---- pins ---- */

/* A pin says whether its page was in a frame: by a hold, alone, and beside another handle. What it
 * says is not looked at. */
static void test_hits(void) {
    for (int is_shared = 0; is_shared < 2; is_shared++) {
        warm first = {0}, second = {0};
        warm_slot slot;
        const uint8_t *bytes;
        OK(open_with(&first, 1, 4, 8, devices, FAKE_DEVICES));
        if (is_shared) OK(warm_attach(&first, &second));
        for (uint64_t no = 6; no < 20; no += 4) { /* of shard 2; the third page evicts the first */
            for (int time = 0; time < 4; time++) {
                OK(warm_pin(&first, page_at(no), &slot));
                MUST(slot.hit == (time > 0) && slot.shard == 2);
                slot.hit = !slot.hit;
                OK(warm_unpin(&first, slot));
            }
        }
        OK(warm_pin_zeroed(&first, page_at(18), &slot));
        MUST(slot.hit == 1 && slot.shard == 2);
        OK(warm_unpin(&first, slot));
        OK(warm_pin_zeroed(&first, page_at(22), &slot));
        MUST(slot.hit == 0 && slot.shard == 2);
        OK(warm_pin_bytes(&first, page_at(22), &slot, &bytes));
        MUST(slot.hit == 1);
        OK(warm_abandon(&second));
        OK(warm_abandon(&first));
        nothing_left();
    }
}

static bool is_page_dirty(warm *handle, uint64_t no) {
    const fake *its = node_of(handle, 0);
    for (size_t at = 0; at < its->frames; at++) {
        if (its->at[at].is_in && its->at[at].page.no == no) return its->at[at].is_dirty;
    }
    return false;
}

/* A page is dirty that is said to be, and no other; of a page that is held, too. */
static void test_dirty_marks(void) {
    warm handle = {0};
    open_shards(&handle, 1);
    pin_twice(&handle, 0);
    warm_slot slot = hold_page(&handle, 0), other = pin(&handle, 1), stale = other;
    MUST(!is_page_dirty(&handle, 0));
    OK(warm_mark_dirty(&handle, slot));
    MUST(is_page_dirty(&handle, 0) && !is_page_dirty(&handle, 1));
    stale.generation++;
    MUST(warm_mark_dirty(&handle, stale) == WARM_STALE_SLOT);
    stale.shard = 1;
    MUST(warm_mark_dirty(&handle, stale) == WARM_STALE_SLOT && !is_page_dirty(&handle, 1));
    OK(warm_unpin(&handle, slot));
    MUST(warm_mark_dirty(&handle, slot) == WARM_STALE_SLOT);
    OK(warm_unpin(&handle, other));
    OK(warm_write_back_all(&handle));
    MUST(!is_page_dirty(&handle, 0));
    OK(warm_close(&handle));
    MUST(warm_mark_dirty(&handle, slot) == WARM_CLOSED);
    nothing_left();
}

/* The next pages that leave, in order, but what is pinned or held; as many as there is room for,
 * and at most VICTIMS. */
static void test_victims(void) {
    warm first = {0}, second = {0};
    warm_page pages[FAKE_FRAMES + 1];
    size_t count = 99;
    OK(open_with(&first, 1, 1, FAKE_FRAMES, devices, FAKE_DEVICES));
    OK(warm_attach(&first, &second));
    OK(warm_victims(&first, 0, pages, 3, &count));
    MUST(count == 0);
    for (uint64_t no = 0; no < FAKE_FRAMES; no++) pin_twice(&first, no);
    warm_slot held_slot = hold_page(&second, 1), slot = pin(&first, 3);
    for (size_t room = 0; room <= FAKE_FRAMES + 1; room++) {
        size_t most = room < FAKE_FRAMES - 2 ? room : FAKE_FRAMES - 2;
        memset(pages, 0xEE, sizeof pages);
        OK(warm_victims(&first, 0, pages, room, &count));
        MUST(count == most);
        for (size_t at = 0; at < count; at++)
            MUST(pages[at].no == at + (at > 0) + (at > 1) && pages[at].dev == 0);
        MUST(pages[count].dev == 0xEEEE);
    }
    MUST(warm_victims(&first, 1, pages, 1, &count) == WARM_NO_SHARD && count == FAKE_FRAMES - 2);
    OK(warm_unpin(&first, slot));
    OK(warm_unpin(&second, held_slot));
    no_pins(&first);
    OK(warm_close(&second));
    OK(warm_close(&first));
    MUST(warm_victims(&first, 0, pages, 1, &count) == WARM_CLOSED);
    nothing_left();
}

/* ---- locks ---- */

/* A call that succeeds, and takes this many locks; or none if one handle is open. */
#define TAKES(locks, call)                                      \
    do {                                                        \
        int before = taken;                                     \
        OK(call);                                               \
        MUST(taken - before == (is_shared ? (int)(locks) : 0)); \
    } while (0)

/* Calls on one page, which is pinned three times. */
static void call_pins(warm *handle, warm_page page, bool is_shared) {
    uint8_t byte = 'a', *bytes;
    const uint8_t *lent;
    warm_slot slot;
    TAKES(2, warm_pin(handle, page, &slot)); /* before the page is read, and after that */
    TAKES(1, warm_write(handle, slot, 0, &byte, 1));
    byte = 0;
    TAKES(1, warm_read(handle, slot, 0, &byte, 1));
    TAKES(1, warm_bytes(handle, slot, &lent));
    TAKES(1, warm_bytes_mut(handle, slot, &bytes));
    MUST(byte == 'a' && *lent == 'a' && bytes == lent);
    TAKES(1, warm_unpin(handle, slot));
    TAKES(1, warm_pin_bytes(handle, page, &slot, &lent));
    TAKES(1, warm_unpin(handle, slot));
    TAKES(0, warm_pin_bytes(handle, page, &slot, &lent));
    TAKES(0, warm_pin(handle, page, &slot));
    TAKES(1, warm_write(handle, slot, 0, &byte, 1));
    TAKES(1, warm_read(handle, slot, 0, &byte, 1));
    TAKES(0, warm_bytes(handle, slot, &lent));
    TAKES(1, warm_bytes_mut(handle, slot, &bytes));
    TAKES(1, warm_mark_dirty(handle, slot));
    TAKES(0, warm_unpin(handle, slot));
    TAKES(0, warm_unpin(handle, slot));
}

/* On histories. Batches and frames are of shards 0 to 2 alone. */
static void call_histories(warm *handle, size_t all, bool is_shared) {
    const size_t of_batch = all > 2 ? 2 : all;
    const warm_reference seen[] = {
        {.time = 1, .no = 1, .replica = 1}, {.time = 1, .no = 2, .replica = 1}};
    warm_page page;
    uint64_t horizon;
    size_t number;
    TAKES(0, warm_absorb(handle, seen, 0));
    TAKES(of_batch, warm_absorb(handle, seen, 2));
    TAKES(all, warm_history_length(handle, &number));
    MUST(number == 2);
    TAKES(all, warm_list(handle, &page, 1, &number));
    MUST(number == 1);
    TAKES(all, warm_save(handle, 1));
    TAKES(2 * all, warm_load(handle, 1, 2 * all)); /* all are raised first */
    TAKES(all, warm_history_length(handle, &number));
    MUST(number == 2 + 2 * all); /* each shard has its part of what was loaded */
    TAKES(0, warm_limit(handle, 9));
    TAKES(0, warm_limit_history(handle, 9, SIZE_MAX));
    TAKES(all, warm_raise(handle, 1, &horizon));
}

static void call_messages(warm *handle, size_t all, bool is_shared) {
    const uint8_t entries[10] = {FAKE_ENTRIES, 1, 0, 0, 2}, request[10] = {FAKE_REQUEST, 1, 1, 1};
    const size_t with_entries = all > 2 ? 2 : 1;
    uint8_t frame[66];
    size_t number;
    warm_sending sending = {.bucket = 5};
    TAKES(all + with_entries, warm_receive(handle, entries, sizeof entries));
    TAKES(all + 1, warm_receive(handle, request, sizeof request)); /* the first answer is made */
    OK(warm_next_answer(handle, frame, sizeof frame, &number));
    TAKES(all, warm_offer(handle, frame, sizeof frame, &number));
    TAKES(2 * all, warm_receive(handle, frame, number));
    TAKES(1, warm_send(handle, &sending, frame, sizeof frame, &number));
}

/* A shard is left while a page is written. */
static void call_write_backs(warm *handle, size_t all, bool is_shared) {
    const warm_page page = {.no = 3};
    size_t left;
    bool written;
    TAKES(2, warm_write_back_page(handle, page, &written)); /* before it is written, and after */
    MUST(written);
    TAKES(1, warm_write_back_page(handle, page, &written));
    MUST(!written);
    write_to(handle, page, 'b');
    TAKES(all + 1, warm_write_back_some(handle, 1, &left));
    MUST(left == 0);
    write_to(handle, page, 'c');
    TAKES(all + 2, warm_flush_device(handle, 0)); /* the last one to find the descriptor */
    write_to(handle, page, 'd');
    TAKES(all + 1 + FAKE_DEVICES, warm_write_back_all(handle));
    TAKES(all + FAKE_DEVICES, warm_write_back_all(handle));
}

/* Each function that takes one lock at a time. */
static void call_each(warm *handle, size_t all, bool is_shared) {
    size_t number;
    bool flag;
    warm_page page = {.no = 3};
    warm_options options = {.size = sizeof options};
    warm_counters counters;
    warm_device_counters of_device;
    warm_failure failure;
    call_pins(handle, page, is_shared);
    TAKES(1, warm_resident(handle, page, &flag));
    MUST(flag);
    TAKES(1, warm_victims(handle, 3 % all, &page, 1, &number));
    MUST(number == 1 && page.no == 3);
    TAKES(0, warm_settings(handle, &options));
    call_histories(handle, all, is_shared);
    OK(warm_step(handle, &flag, &page));
    call_messages(handle, all, is_shared);
    call_write_backs(handle, all, is_shared);
    TAKES(all, warm_counts(handle, &counters));
    TAKES(all, warm_device_counts(handle, 0, &of_device));
    TAKES(0, warm_last_failure(handle, &flag, &failure));
}

static void call_all_locked(warm *handle) {
    OK(warm_forget_pages(handle, 0, 0));
    OK(warm_replace(handle, 1, &devices[1]));
}

static void locks_of_one(size_t count) {
    warm first = {0};
    open_shards(&first, count);
    taken = 0;
    call_each(&first, count, false);
    call_all_locked(&first);
    MUST(taken == 0);
    OK(warm_abandon(&first));
}

/* By the handle that opened the replica, too, which took no lock before. */
static void locks_of_two(size_t count, bool by_first) {
    warm first = {0}, second = {0};
    warm *by = by_first ? &first : &second;
    open_shards(&first, count);
    write_each(&first, 0, count);
    OK(warm_forget_pages(&first, 0, 0));
    OK(warm_attach(&first, &second));
    most_held = 0;
    call_each(by, count, true);
    MUST(most_held == 1 && held == 0);
    call_all_locked(by);
    MUST(most_held == (int)count && held == 0);
    OK(warm_close(&second));
    taken = 0;
    call_all_locked(&first);
    MUST(taken == 0);
    OK(warm_abandon(&first));
    nothing_left();
}

/* As long as one handle is open no lock is taken. Then each call takes one at a time, but a pin of
 * a page that was pinned before and its unpin; and two calls take all. */
static void test_locks(size_t most) {
    for (size_t count = 1; count <= most; count *= 2) {
        locks_of_one(count);
        locks_of_two(count, false);
        locks_of_two(count, true);
    }
}

/* ---- turns of a warm-up ---- */

static void test_turns(void) {
    const warm_reference seen[] = {
        {.no = 0, .replica = 1}, {.no = 2, .replica = 1}, {.no = 2, .replica = 1}};
    warm first = {0}, second = {0};
    warm_page page;
    bool found;
    open_shards(&first, 4);
    OK(warm_attach(&first, &second));
    OK(warm_absorb(&first, seen, 3));
    granted = 0;
    MUST(warm_step(&first, &found, &page) == WARM_MEMORY); /* of shard 0: its turn is over */
    granted = SIZE_MAX;
    OK(warm_step(&first, &found, &page));
    MUST(found && page.no == 2); /* of shard 2, which knew two */
    OK(warm_step(&second, &found, &page));
    MUST(found && page.no == 1); /* of shard 0: it has turns of its own */
    OK(warm_step(&first, &found, &page));
    MUST(found && page.no == 1); /* of shard 2 */
    OK(warm_step(&first, &found, &page));
    MUST(!found);
    OK(warm_close(&second));
    OK(warm_abandon(&first));
}

/* ---- threads ---- */

enum { THREADS = 8, ROUNDS = 400 / FEWER };

/* Each thread has a handle, and a page that no other writes to; all call everything. The fake nodes
 * look that no two are in one. */
static void *work(void *of) {
    warm *handle = of;
    uint64_t own = (uint64_t)(uintptr_t)pthread_self() / 64 % 64;
    size_t left;
    uint64_t horizon;
    warm_counters counters;
    for (uint64_t round = 0; round < ROUNDS; round++) {
        const warm_reference seen[] = {{.no = round, .replica = 1}, {.no = own, .replica = 1}};
        uint8_t frame[66] = {FAKE_DIGESTS};
        size_t length;
        warm_slot slot;
        int status = warm_pin(handle, (warm_page){.no = (own + round) % FAKE_PAGES}, &slot);
        MUST(status == WARM_OK || status == WARM_ALL_PINNED);
        if (status == WARM_OK) {
            OK(warm_write(handle, slot, 0, (const uint8_t *)"w", 1));
            OK(warm_unpin(handle, slot));
        }
        OK(warm_absorb(handle, seen, 2));
        OK(warm_receive(handle, frame, sizeof frame));
        OK(warm_next_answer(handle, frame, sizeof frame, &length));
        OK(warm_raise(handle, round, &horizon));
        if (round % 16 == 0) OK(warm_write_back_all(handle));
        if (round % 16 == 4) OK(warm_write_back_some(handle, 3, &left));
        if (round % 16 == 8) OK(warm_counts(handle, &counters));
        status = round % 64 == 12 ? warm_replace(handle, 3, &devices[3]) : WARM_OK;
        MUST(status == WARM_OK);
        status = round % 64 == 44 ? warm_forget_pages(handle, 3, 0) : WARM_OK;
        MUST(status == WARM_OK);
    }
    OK(warm_close(handle));
    return NULL;
}

static void *write_and_close(void *of) {
    write_to(of, (warm_page){.no = 1}, 'c');
    OK(warm_close(of));
    return NULL;
}

/* The last attached handle is closed by its thread. What that did is seen by the thread that is
 * alone then, which takes no lock, and may close the replica at once. */
static void test_leaving(void) {
    for (size_t count = 1; count <= 4; count *= 4) {
        warm first = {0}, attached = {0};
        pthread_t thread;
        open_shards(&first, count);
        OK(warm_attach(&first, &attached));
        MUST(pthread_create(&thread, NULL, write_and_close, &attached) == 0);
        while (open_handles(((opened *)first.at)->of) > 1) sched_yield();
        taken = 0;
        MUST(read_from(&first, (warm_page){.no = 1}) == 'c' && taken == 0);
        OK(warm_abandon(&first));
        MUST(pthread_join(thread, NULL) == 0);
        nothing_left();
    }
}

static warm *leaving;

static void leave_at_question(void) {
    at_resident = NULL;
    OK(warm_close(leaving));
}

static bool leave_at_write(node_page page) {
    is_stuck = NULL;
    OK(warm_close(leaving));
    return page.no == 0;
}

/* The other handle is closed within a miss that began when there were two, as the node is asked or
 * as page 0 cannot be written: the page that leaves has no record then. */
static void test_leaving_within_a_miss(void) {
    for (uint64_t last = 0; last < 2; last++) {
        warm first = {0}, second = {0};
        OK(open_with(&first, 1, 1, last + 1, devices, FAKE_DEVICES));
        OK(warm_attach(&first, &second));
        for (uint64_t no = 0; no <= last; no++) {
            for (int time = 0; time < 2; time++) write_to(&first, (warm_page){.no = no}, 'a');
        }
        leaving = &second;
        if (last == 0) at_resident = leave_at_question;
        else is_stuck = leave_at_write;
        write_to(&first, (warm_page){.no = 9}, 'b');
        MUST(second.at == NULL);
        MUST(read_from(&first, (warm_page){.no = last}) == 0); /* read again, as nothing */
        OK(warm_abandon(&first));
        nothing_left();
    }
}

static void test_threads(void) {
    warm first = {0}, attached[THREADS] = {{0}};
    pthread_t threads[THREADS];
    open_shards(&first, 4);
    for (int at = 0; at < THREADS; at++) {
        OK(warm_attach(&first, &attached[at]));
        MUST(pthread_create(&threads[at], NULL, work, &attached[at]) == 0);
    }
    for (int at = 0; at < THREADS; at++) MUST(pthread_join(threads[at], NULL) == 0);
    MUST(known(&first) == 2 * THREADS * ROUNDS);
    taken = 0;
    write_each(&first, 0, 4); /* alone again, without a lock */
    MUST(taken == 0);
    OK(warm_abandon(&first));
    nothing_left();
}

int main(int count, char **words) {
    /* the thread sanitizer follows 64 locks of a thread at most: warm_replace has those of all
     * shards, and those of syncs */
    bool is_watched = count > 1 && strcmp(words[1], "thread") == 0;
    test_hits();
    test_dirty_marks();
    test_victims();
    if (FEWER == 1) test_locks(is_watched ? 32 : 64);
    test_turns();
    test_leaving();
    test_leaving_within_a_miss();
    test_threads();
    puts("shards_test: as expected");
    return 0;
}

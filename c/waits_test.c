/*
 * Tests for whom a write-back waits (write_back.c, writes.c), over fake_library.h: for a write of
 * another call that is under way, and for one that has begun since, and for no third one, however
 * often other threads change the page and write it. A portion waits in the end, and tries no page
 * twice.
 */
#include "callers.h"

/* ---- one write ---- */

/* Who meets a page that another call writes waits, and does not write it if it is clean then; it
 * does if it is dirty. */
static bool is_first_try(node_page page) {
    if (page.no != 0) return false;
    is_stuck = NULL;
    return true;
}

static void two_writers(int call, bool fails, bool is_changed) {
    open_dirty(2);
    if (fails) is_stuck = is_first_try;
    stop_writes_of(bit(0));
    begin(0, WRITES_ONE, page_at(0));
    until_written(bit(0));
    if (is_changed) write_to(&first, page_at(0), 'c');
    begin(1, call, page_at(0));
    until_waiting(1);
    not_over(1);
    MUST(syncs == 0);
    end_writes(bit(0));
    MUST(end(0) == (fails ? WARM_WRITE_FAULT : WARM_OK) && end(1) == WARM_OK);
    bool is_again = fails || is_changed;
    MUST(!is_dirty(0) && written_locked == 0 && in_files[10][0] == (is_changed ? 'c' : 'd'));
    MUST(put == 1 + (call != WRITES_ONE) + (is_changed && !fails));
    if (call == WRITES_ONE) MUST(callers[1].found == is_again);
    MUST(syncs == (call >= WRITES_ALL) && !has_failure(&callers[1].handle));
    MUST(has_failure(&callers[0].handle) == fails);
    close_all();
}

static void test_two_writers(void) {
    for (int call = WRITES_ONE; call <= FLUSHES; call++)
        for (int way = 0; way < 4; way++) two_writers(call, way % 2 == 1, way > 1);
}

/* All that wait for one write are woken when it is over: one of them writes the page, if it is
 * dirty then, and the others do not write it again. */
static void test_two_waiters(void) {
    for (int fails = 0; fails < 2; fails++) {
        open_dirty(1);
        if (fails) is_stuck = is_first_try;
        stop_writes_of(bit(0));
        begin(0, WRITES_ONE, page_at(0));
        until_written(bit(0));
        begin(1, WRITES_ALL, page_at(0));
        begin(2, WRITES_SOME, page_at(0));
        until_waiting(2);
        end_writes(bit(0));
        MUST(end(0) == (fails ? WARM_WRITE_FAULT : WARM_OK));
        MUST(end(1) == WARM_OK && end(2) == WARM_OK && !is_dirty(0) && put == 1);
        MUST(in_files[10][0] == 'd' && syncs == 1 && written_locked == 0);
        close_all();
    }
}

/* ---- portions ---- */

/* A portion waits in the end for a page that another call writes, and does not try once more a page
 * that has failed: the failure is counted once. */
static uint64_t stuck_no;

static bool is_the_stuck(node_page page) { return page.no == stuck_no; }

static void portion_beside_a_write(uint64_t no, uint64_t stuck, size_t hand) {
    open_dirty(3);
    ((opened *)first.at)->shards[0].hand = hand;
    stuck_no = stuck;
    is_stuck = is_the_stuck;
    stop_writes_of(bit(no));
    begin(0, WRITES_ONE, page_at(no));
    until_written(bit(no));
    begin(1, WRITES_SOME, page_at(0));
    until_waiting(1);
    not_over(1);
    MUST(in_files[10][2] == 'd');
    end_writes(bit(no));
    MUST(end(0) == WARM_OK && end(1) == WARM_WRITE_FAULT);
    must_have_failed(&callers[1].handle, stuck, 0, WARM_FAILED_WRITE, EIO);
    MUST(failures(&callers[1].handle) == 1 && !is_dirty(no) && is_dirty(stuck) && !is_dirty(2));
    is_stuck = NULL;
    close_all();
}

/* It has passed a page whose write is over before it waits for that: it writes the page, which was
 * changed behind that write's back, and no other one a second time. */
static void portion_behind_a_write(bool is_changed) {
    caller *its = &callers[1];
    open_dirty(4);
    stuck_no = 2;
    is_stuck = is_the_stuck;
    stop_writes_of(bit(0) | bit(3));
    begin(0, WRITES_ONE, page_at(0));
    until_written(bit(0));
    begin(1, WRITES_SOME, page_at(0));
    until_written(bit(3));
    if (is_changed) write_to(&first, page_at(0), 'c');
    end_writes(bit(0));
    MUST(end(0) == WARM_OK && is_dirty(0) == is_changed);
    write_to(&first, page_at(1), 'l'); /* which the portion has written before */
    end_writes(bit(3));
    MUST(end(1) == WARM_WRITE_FAULT && failures(&its->handle) == 1);
    MUST(!is_dirty(0) && is_dirty(1) && is_dirty(2) && !is_dirty(3) && put == 3 + is_changed);
    MUST(in_files[10][0] == (is_changed ? 'c' : 'd') && in_files[10][1] == 'd');
    MUST(((opened *)its->handle.at)->passed[0] == 0);
    is_stuck = NULL;
    close_all();
}

static void test_portions(void) {
    for (int way = 0; way < 6; way++)
        portion_beside_a_write((uint64_t)way % 2, 1 - (uint64_t)way % 2, (size_t)way / 2);
    for (int way = 0; way < 2; way++) portion_behind_a_write(way > 0);
}

/* A flush waits for a page that another call writes to have its frame, and syncs after that. */
static void must_be_written(int fd) { MUST(fd == 10 && in_files[10][0] == 'd'); }

static void test_flush_behind_a_miss(void) {
    open_dirty(2);
    OK(warm_write_back_page(&first, page_at(1), &callers[0].found));
    stop_writes_of(bit(0));
    begin(0, PINS, page_at(5));
    until_written(bit(0));
    OK(warm_flush_device(&first, 1)); /* which has no such page */
    begin(1, FLUSHES, page_at(0));
    until_waiting(1);
    not_over(1);
    MUST(syncs == 0);
    at_sync = must_be_written;
    end_writes(bit(0));
    MUST(end(1) == WARM_OK && end(0) == WARM_OK && syncs == 1 && put == 2 && at_sync == NULL);
    unpin(0);
    close_all();
}

/* ---- one write after another ---- */

/* A thread changes page 0 and writes it, this many times: then it is 'A', 'B' and so on. Its writes
 * are numbered from 1 on. Each lasts until the call under test has waited so often, but those that
 * have begun when that is over, which last until a test has looked at what is there. */
enum { ROUNDS = 20 };
static atomic_int writes;
static atomic_bool is_looked_at, is_busy_over;
static _Thread_local bool is_busy;
static int failing_write; /* 0: none */

static void last_until_awaited(int fd, off_t at) {
    if (!is_busy || fd != 10 || at != 0) return;
    int own = ++writes;
    while (atomic_load(&waits) < own && !atomic_load(&is_looked_at)) sched_yield();
}

static bool is_failing(node_page page) {
    return is_busy && page.no == 0 && atomic_load(&writes) == failing_write;
}

static void *keep_busy(void *of) {
    warm *by = of;
    bool written;
    is_busy = true;
    for (int round = 0; round < ROUNDS; round++) {
        write_to(by, page_at(0), (uint8_t)('A' + round));
        int status = warm_write_back_page(by, page_at(0), &written);
        MUST(status == (round + 1 == failing_write ? WARM_WRITE_FAULT : WARM_OK));
    }
    atomic_store(&is_busy_over, true);
    return NULL;
}

/* The call under test has the shard again once the next write has begun. */
static void until_next_write(void) {
    int seen = atomic_load(&waits);
    while (!is_busy && atomic_load(&writes) <= seen && !atomic_load(&is_busy_over)) sched_yield();
}

static void begin_busy(pthread_t *busy, int fails) {
    open_dirty(2);
    writes = waits = 0;
    is_looked_at = is_busy_over = false;
    failing_write = fails;
    at_write = last_until_awaited;
    at_wake = until_next_write;
    is_stuck = is_failing;
    MUST(pthread_create(busy, NULL, keep_busy, &callers[0].handle) == 0);
    while (atomic_load(&writes) < 1) sched_yield();
}

static void end_busy(pthread_t busy) {
    atomic_store(&is_looked_at, true);
    MUST(pthread_join(busy, NULL) == 0);
    at_wake = NULL;
    is_stuck = NULL;
    OK(warm_write_back_all(&first));
    MUST(in_files[10][0] == 'A' + ROUNDS - 1 && written_locked == 0);
    close_all();
}

/* The first write does not have a change that is over when the call begins, and the second one
 * has. If that fails, the page is not written, and the call says so. */
static void beside_busy(int call, bool fails) {
    caller *its = &callers[1];
    pthread_t busy;
    begin_busy(&busy, fails ? 2 : 0);
    write_to(&first, page_at(0), 'z');
    its->found = true;
    begin(1, call, page_at(0));
    MUST(end(1) == (fails ? WARM_WRITE_FAULT : WARM_OK) && waits == 2);
    MUST(in_files[10][0] == (fails ? 'A' : 'B') && its->found == (fails || call != WRITES_ONE));
    MUST(in_files[10][1] == (call == WRITES_ONE ? 'o' : 'd'));
    MUST(syncs == (!fails && call >= WRITES_ALL) && has_failure(&its->handle) == fails);
    if (fails) must_have_failed(&its->handle, 0, 0, WARM_FAILED_WRITE, EIO);
    if (fails) MUST(failures(&its->handle) == 1);
    end_busy(busy);
}

static void test_busy_page(void) {
    for (int call = WRITES_ONE; call <= FLUSHES; call++)
        for (int fails = 0; fails < 2; fails++) beside_busy(call, fails);
}

int main(void) {
    alarm(600);
    test_two_writers();
    test_two_waiters();
    test_portions();
    test_flush_behind_a_miss();
    test_busy_page();
    puts("waits_test: as expected");
    return 0;
}

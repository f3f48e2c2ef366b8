/*
 * Tests how long a call waits for others (waits.c), over fake_library.h: what waits is refused once
 * the handle's time is over, changes nothing, and succeeds when it is called again.
 */
#include "callers.h"

static caller *const waiter = &callers[1];

static shard *first_shard(void) { return ((opened *)first.at)->shards; }

/* Whoever waits, and has a limit, has waited so long. */
static void end_time(void) {
    atomic_store(&is_time_over, true);
    wake_all();
}

static void begin_time(void) {
    atomic_store(&is_time_over, false);
    OK(warm_limit_waits(&waiter->handle, 1500));
}

/* The call under test waits until its time is over. */
static void must_be_busy(int call, uint64_t no) {
    begin_time();
    begin(1, call, page_at(no));
    until_waiting(1);
    not_over(1);
    end_time();
    MUST(end(1) == WARM_BUSY && waiter->slot.generation == 77 && !has_failure(&waiter->handle));
    begin_time();
}

/* ---- reads ---- */

static const warm_reference references[5] = {[0 ... 4] = {.replica = 1}};

static void beside_a_read(int call) {
    open_all(1, 2);
    OK(warm_absorb(&first, references, 5)); /* page 5 is the next one to be loaded */
    stops_at = 5;
    begin(0, PINS, page_at(5));
    until_begun(1);
    must_be_busy(call, 5);
    MUST(reads == 1 && !is_in(&first, 5) && (call != STEPS || !waiter->found));
    begin(1, call, page_at(5));
    until_waiting(1);
    may_end = 1;
    MUST(end(1) == WARM_OK && end(0) == WARM_OK && is_in(&first, 5));
    unpin(0);
    if (call == PINS || call == PINS_ZEROED) unpin(1);
    close_all();
}

static void test_reads(void) {
    static const int calls[] = {PINS, PINS_ZEROED, PREFETCHES, STEPS};
    for (int at = 0; at < 4; at++) beside_a_read(calls[at]);
}

/* A read that others make stale again and again is made no more once the time is over. */
static void begin_stale_read(int number) {
    until_begun(number);
    begin(0, FORGETS, page_at(5));
    until_waiting(1);
    stops_at = 5;
}

static void test_stale_reads(void) {
    for (int past = 0; past < 3; past++) {
        bool is_over = past > 0;
        open_all(1, 2);
        begin_time();
        now = (struct timespec){.tv_sec = 3, .tv_nsec = 500000000};
        stops_at = 5;
        begin(1, PINS, page_at(5));
        begin_stale_read(1);
        may_end = 1;
        MUST(end(0) == WARM_OK);
        begin_stale_read(2);
        now = (struct timespec){.tv_sec = 4, .tv_nsec = 999999999};
        if (is_over) now = (struct timespec){.tv_sec = 4 + past};
        if (is_over) stops_at = -1;
        may_end = is_over ? 2 : 3;
        MUST(end(0) == WARM_OK && end(1) == (is_over ? WARM_BUSY : WARM_OK));
        MUST(reads == 3 - is_over && is_in(&first, 5) == !is_over);
        if (!is_over) unpin(1);
        close_all();
    }
}

/* ---- frames whose pages are being written ---- */

static void begin_writes(void) {
    stop_writes_of(bit(0) | bit(1));
    begin(0, WRITES_ONE, page_at(0));
    begin(2, WRITES_ONE, page_at(1));
    until_written(bit(0) | bit(1));
}

static void end_both(int call) {
    begin(1, call, page_at(5));
    until_waiting(1);
    end_writes(bit(0) | bit(1));
    MUST(end(1) == WARM_OK && end(0) == WARM_OK && end(2) == WARM_OK && is_in(&first, 5));
    MUST(written_locked == 0 && put == 2);
    if (call != PREFETCHES) unpin(1);
    close_all();
}

static void beside_writes(int call) {
    open_dirty(2);
    begin_writes();
    must_be_busy(call, 5);
    MUST(reads == 0 && is_in(&first, 0) && is_in(&first, 1));
    end_both(call);
}

/* The page was read when its pin begins to wait for a frame. */
static void test_writes_behind_a_read(void) {
    open_dirty(2);
    begin_time();
    stops_at = 5;
    begin(1, PINS, page_at(5));
    until_begun(1);
    begin_writes();
    may_end = 1;
    until_waiting(1);
    not_over(1);
    end_time();
    MUST(end(1) == WARM_BUSY && reads == 1 && first_shard()->reads == NULL);
    begin_time();
    end_both(PINS);
}

static void test_writes(void) {
    static const int calls[] = {PINS, PINS_ZEROED, PREFETCHES};
    for (int at = 0; at < 3; at++) beside_writes(calls[at]);
}

/* A page that is unpinned may leave: who waits for a frame waits no longer for the write. */
static void unpin_beside_a_write(bool abandons) {
    warm *by = &callers[2].handle;
    open_dirty(2);
    warm_slot slot = pin(by, 1);
    OK(warm_write_back_page(&first, page_at(1), &waiter->found));
    stop_writes_of(bit(0));
    begin(0, WRITES_ONE, page_at(0));
    until_written(bit(0));
    begin(1, PINS, page_at(5));
    until_waiting(1);
    not_over(1);
    OK(abandons ? warm_abandon(by) : warm_unpin(by, slot));
    MUST(end(1) == WARM_OK && is_in(&first, 0) && !is_in(&first, 1));
    end_writes(bit(0));
    MUST(end(0) == WARM_OK);
    unpin(1);
    close_all();
}

static void test_unpin_beside_a_write(void) {
    unpin_beside_a_write(false);
    unpin_beside_a_write(true);
}

/* ---- holds that are given up while a page is written ---- */

/* How many locks the call takes that gives up a hold, by the end of the handle or by an unpin. */
static int give_up(warm *by, warm_slot slot, bool abandons) {
    int before = taken;
    OK(abandons ? warm_abandon(by) : warm_unpin(by, slot));
    return taken - before;
}

/* Of the last shard: a page that is written, and one that another handle holds, which leaves for
 * page 5 as soon as it may. */
static uint64_t written_no, held_no;

static void begin_beside_a_hold(size_t shards, warm *holder, warm_slot *slot) {
    open_all(shards, 2 * shards);
    written_no = shards - 1;
    held_no = written_no + shards;
    write_to(&first, page_at(written_no), 'd');
    pin_twice(&first, held_no);
    *slot = hold_page(holder, held_no);
    reads = 0;
    stop_writes_of(bit(written_no));
    begin(0, WRITES_ONE, page_at(written_no));
    until_written(bit(written_no));
}

static void end_beside_a_hold(int call) {
    MUST(end(1) == WARM_OK && is_in(&first, 5));
    MUST(is_in(&first, written_no) && !is_in(&first, held_no));
    end_writes(bit(written_no));
    MUST(end(0) == WARM_OK && put == 1);
    if (call != PREFETCHES) unpin(1);
    close_all();
}

static void beside_a_hold(size_t shards, int call, bool abandons) {
    warm *holder = &callers[2].handle;
    warm_slot slot;
    int before = orders, stored = stored_in_order;
    begin_beside_a_hold(shards, holder, &slot);
    MUST(orders == before + 1 && give_up(holder, slot, false) == 0);
    MUST(stored_in_order == stored + !system_orders);
    slot = hold_page(holder, held_no);
    begin(1, call, page_at(5));
    until_waiting(1);
    not_over(1);
    MUST(orders == before + 1 + system_orders && give_up(holder, slot, abandons) == 1);
    MUST(stored_in_order == stored + 1 + !system_orders);
    end_beside_a_hold(call);
}

/* Two may want a frame at once: the second one of them needs no order of its own. */
static void test_two_who_want(void) {
    warm *holder = &callers[2].handle;
    warm_slot slot;
    begin_beside_a_hold(1, holder, &slot);
    int before = orders;
    begin(1, PINS, page_at(5));
    until_waiting(1);
    begin(3, PREFETCHES, page_at(6));
    until_waiting(2);
    MUST(orders == before + 1);
    OK(warm_unpin(holder, slot));
    end_writes(bit(0));
    MUST(end(1) == WARM_OK && end(3) == WARM_OK && end(0) == WARM_OK);
    MUST(is_in(&first, 5));
    unpin(1);
    close_all();
}

/* If the system no longer orders memory, whoever gives up a hold learns that it is to do so. */
static void test_an_order_refused(void) {
    warm *holder = &callers[2].handle;
    warm_slot slot;
    begin_beside_a_hold(1, holder, &slot);
    system_orders = false;
    begin(1, PINS, page_at(5));
    until_waiting(1);
    MUST(first_shard()->table.wanting == ORDERS_ITSELF + ONE_WANTS);
    system_orders = true;
    OK(warm_unpin(holder, slot));
    end_beside_a_hold(PINS);
}

/* The pin has read its page when it begins to wait. */
static void test_hold_behind_a_read(void) {
    warm *holder = &callers[2].handle;
    warm_slot slot;
    begin_beside_a_hold(1, holder, &slot);
    OK(warm_unpin(holder, slot));
    stops_at = 5;
    begin(1, PINS, page_at(5));
    until_begun(1);
    slot = hold_page(holder, held_no);
    may_end = 1;
    until_waiting(1);
    not_over(1);
    OK(warm_unpin(holder, slot));
    end_beside_a_hold(PINS);
    MUST(reads == 1);
}

/* A pin that finds the record closed takes back its hold and wakes nobody, as it pins the page in
 * the shard next. Another call may be first, and load a page in its place, which may leave then. */
static void test_hold_in_vain(void) {
    warm *holder = &callers[2].handle;
    warm_slot slot;
    begin_beside_a_hold(1, holder, &slot);
    opened *its = holder->at;
    begin(1, PINS, page_at(5));
    until_waiting(1);
    not_over(1);
    its->used = 0;
    atomic_store(&its->holds->words[0], 0);
    OK(warm_prefetch(&first, page_at(7)));
    end_beside_a_hold(PINS);
    MUST(reads == 2);
}

/* A hold that is given up while who wants a frame looks for a page that may leave: at each of the
 * questions to the node in turn, and behind the last one, when it waits. */
static warm_slot to_give_up;
static atomic_int questions, gives_up_at;
static atomic_bool may_give_up;

static void *give_up_when_asked(void *holder) {
    while (!atomic_load(&may_give_up)) sched_yield();
    OK(warm_unpin(holder, to_give_up));
    return NULL;
}

static void ask_for_it(void) {
    const opened *holder = callers[2].handle.at;
    if (++questions != gives_up_at) return;
    may_give_up = true;
    while (atomic_load(&holder->holds->words[0]) != 0) sched_yield();
}

/* Whether the hold was given up at that question. */
static bool gives_up_between(int call, int question) {
    pthread_t giver;
    begin_beside_a_hold(1, &callers[2].handle, &to_give_up);
    questions = 0;
    gives_up_at = question;
    may_give_up = false;
    at_victim = ask_for_it;
    MUST(pthread_create(&giver, NULL, give_up_when_asked, &callers[2].handle) == 0);
    begin(1, call, page_at(5));
    while (!may_give_up && atomic_load(&waiting_now) == 0) sched_yield();
    bool is_asked = atomic_exchange(&may_give_up, true);
    MUST(pthread_join(giver, NULL) == 0);
    end_beside_a_hold(call);
    at_victim = NULL;
    return is_asked;
}

static void test_holds(void) {
    static const int calls[] = {PINS, PINS_ZEROED, PREFETCHES};
    for (int way = 0; way < 24; way++) {
        system_orders = way % 2 == 0;
        beside_a_hold(1 + (size_t)way / 12, calls[way / 4 % 3], way % 4 > 1);
    }
    system_orders = true;
    test_two_who_want();
    test_an_order_refused();
    test_hold_behind_a_read();
    test_hold_in_vain();
    for (int call = PINS; call <= PREFETCHES; call++) {
        int question = 1;
        while (gives_up_between(call, question)) question++;
        MUST(question > 4);
    }
}

/* ---- pages that could not be written ---- */

/* A page that a pin could not write may leave for it once somebody writes it, or forgets it. */
static bool is_page_1(node_page page) { return page.no == 1; }

static void behind_a_failure(bool forgets) {
    open_dirty(2);
    is_stuck = is_page_1;
    stop_writes_of(bit(0));
    begin(0, WRITES_ONE, page_at(0));
    until_written(bit(0));
    begin(1, PINS, page_at(5));
    until_waiting(1);
    not_over(1);
    is_stuck = NULL;
    if (forgets) OK(warm_forget_pages(&first, 0, 1));
    else OK(warm_write_back_page(&first, page_at(1), &waiter->found));
    MUST(end(1) == WARM_OK && is_in(&first, 0) && !is_in(&first, 1));
    MUST(has_failure(&waiter->handle) && reads == 1 + forgets);
    MUST(in_files[10][1] == (forgets ? 'o' : 'd'));
    end_writes(bit(0));
    MUST(end(0) == WARM_OK);
    unpin(1);
    close_all();
}

static void test_failures(void) {
    behind_a_failure(false);
    behind_a_failure(true);
}

/* ---- pages that before_write is asked about ---- */

static atomic_bool has_asked, may_answer;

static int ask(void *context, uint64_t no, const void *bytes, size_t length) {
    (void)context, (void)no, (void)bytes, (void)length;
    has_asked = true;
    while (!atomic_load(&may_answer)) sched_yield();
    return 0;
}

static void beside_an_answer(int call) {
    static const warm_device_ops asking = {.size = sizeof asking, .before_write = ask};
    const warm_device device = {.pages = 8, .fd = 10, .ops = &asking};
    open_over(1, 2, &device, 1);
    write_to(&first, page_at(0), 'd');
    has_asked = may_answer = false;
    begin(0, WRITES_ONE, page_at(0));
    while (!atomic_load(&has_asked)) sched_yield();
    must_be_busy(call, 0);
    MUST(read_from(&first, page_at(0)) == 'd' && !first_shard()->writes->is_changed);
    MUST(read_from(&waiter->handle, page_at(0)) == 'd'); /* which waits for nothing */
    begin(1, call, page_at(0));
    until_waiting(1);
    may_answer = true;
    MUST(end(1) == WARM_OK && end(0) == WARM_OK && in_files[10][0] == 'd');
    if (call == PINS_ZEROED) unpin(1);
    MUST(read_from(&first, page_at(0)) == (call == WRITES ? 'n' : call == MARKS ? 'd' : 0));
    close_all();
}

static void test_answers(void) {
    static const int calls[] = {WRITES, MARKS, PINS_ZEROED};
    for (int at = 0; at < 3; at++) beside_an_answer(calls[at]);
}

/* ---- the limit ---- */

/* All waits of a call share one time. What has happened by its end is looked at. */
static void test_time(void) {
    open_all(1, 2);
    begin_time();
    now = (struct timespec){.tv_sec = 7, .tv_nsec = 600000000};
    stops_at = 5;
    begin(0, PINS, page_at(5));
    until_begun(1);
    int before = waits;
    begin(1, PINS, page_at(5));
    until_waiting(1);
    MUST(waits_until == 9100000000);
    now.tv_sec = 8;
    wake_all();
    while (atomic_load(&waits) < before + 2) sched_yield();
    until_waiting(1);
    MUST(waits_until == 9100000000);
    atomic_store(&is_time_over, true);
    may_end = 1;
    MUST(end(0) == WARM_OK && end(1) == WARM_OK && reads == 1);
    unpin(0);
    unpin(1);
    close_all();
}

/* A handle has no limit at first, nor after the greatest one; with 0 it does not wait. Each has its
 * own. */
static void test_limits(void) {
    warm closed = {0};
    MUST(warm_limit_waits(&closed, 1) == WARM_CLOSED);
    open_all(1, 2);
    atomic_store(&is_time_over, true);
    stops_at = 5;
    begin(0, PINS, page_at(5));
    until_begun(1);
    OK(warm_limit_waits(&waiter->handle, 0));
    begin(2, PINS, page_at(5));
    until_waiting(1);
    begin(1, PINS, page_at(5));
    MUST(end(1) == WARM_BUSY);
    OK(warm_limit_waits(&waiter->handle, UINT64_MAX));
    begin(1, PINS, page_at(5));
    until_waiting(2);
    not_over(1);
    not_over(2);
    may_end = 1;
    for (int number = 0; number < 3; number++) {
        MUST(end(number) == WARM_OK);
        unpin(number);
    }
    atomic_store(&is_time_over, false);
    close_all();
}

int main(void) {
    alarm(600);
    test_reads();
    test_stale_reads();
    test_writes();
    test_writes_behind_a_read();
    test_unpin_beside_a_write();
    test_holds();
    test_failures();
    test_answers();
    test_time();
    test_limits();
    puts("busy_test: as expected");
    return 0;
}

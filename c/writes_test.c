/*
 * Tests writes with no shard locked (writes.c, shards.c, write_back.c) over fake_library.h: other
 * calls go on meanwhile, but those that must wait; what is written is what before_write was asked
 * about; what changes meanwhile stays dirty; and pages that cannot be written stop nothing.
 * writing_threads_test.c has threads that do all this at once.
 */
#include "callers.h"

/* ---- what goes on meanwhile ---- */

/* A page that is being written is found in its frame, also to pin and read it, and so is any other
 * one; and a page is loaded. */
static void use_shard(uint64_t no) {
    warm_slot slot = pin(&first, no);
    uint8_t byte;
    MUST(slot.hit == 1 && *lent == 'd');
    OK(warm_read(&first, slot, 0, &byte, 1));
    OK(warm_unpin(&first, slot));
    write_to(&first, page_at(no + 1), 'w');
    MUST(is_in(&first, no) && is_dirty(no));
    pin_twice(&first, no + 2);
    OK(warm_unpin(&first, hold_page(&first, no + 2)));
}

static void test_write_backs(void) {
    for (int call = WRITES_ONE; call <= FLUSHES; call++) {
        open_dirty(4);
        for (uint64_t no = 2; no < 4; no++)
            OK(warm_write_back_page(&first, page_at(no), &callers[0].found));
        stop_writes_of(bit(0));
        begin(0, call, page_at(0));
        until_written(bit(0));
        use_shard(0);
        warm_slot slot = pin(&first, 1);
        OK(warm_prefetch(&callers[1].handle, page_at(9)));
        OK(warm_unpin(&first, slot));
        MUST(!is_in(&first, 2) && in_files[10][0] == 'o');
        end_writes(bit(0));
        MUST(end(0) == WARM_OK && !is_dirty(0) && in_files[10][0] == 'd');
        MUST(is_dirty(1) == (call == WRITES_ONE) && written_locked == 0);
        MUST(call == WRITES_ONE ? callers[0].found : in_files[10][1] == 'w');
        MUST(syncs == (call >= WRITES_ALL));
        close_all();
    }
}

/* A portion waits for no page that another call writes, while others are left; and then it does. */
static void test_portions_beside_another(void) {
    for (int call = WRITES_ONE; call <= FLUSHES; call++) {
        size_t left = 77;
        open_dirty(4);
        stop_writes_of(bit(0));
        begin(0, call, page_at(0));
        until_written(bit(0));
        OK(warm_write_back_some(&first, 1, &left));
        MUST(left == 3 && is_dirty(0) && !is_dirty(1) && is_dirty(2));
        OK(warm_write_back_some(&first, 2, &left));
        MUST(left == 1 && is_dirty(0) && !is_dirty(2) && !is_dirty(3));
        begin(1, WRITES_SOME, page_at(0));
        until_waiting(1);
        write_to(&first, page_at(0), 'w'); /* so that it is written twice */
        not_over(1);
        end_writes(bit(0));
        MUST(end(0) == WARM_OK && end(1) == WARM_OK && !is_dirty(0) && in_files[10][0] == 'w');
        MUST(put == 5 && written_locked == 0);
        close_all();
    }
}

/* In the shards behind that one no page is tried twice, either. */
static int second_tries;

static bool is_second(node_page page) {
    second_tries += page.no == 1;
    return page.no == 1;
}

static void test_portions_of_shards(void) {
    open_all(2, 4);
    write_each(&first, 0, 2);
    stop_writes_of(bit(0));
    is_stuck = is_second;
    second_tries = 0;
    begin(0, WRITES_ONE, page_at(0));
    until_written(bit(0));
    begin(1, WRITES_SOME, page_at(0));
    until_waiting(1);
    end_writes(bit(0));
    MUST(end(0) == WARM_OK && end(1) == WARM_WRITE_FAULT);
    MUST(second_tries == 1 && failures(&callers[1].handle) == 1);
    is_stuck = NULL;
    OK(warm_write_back_all(&first));
    close_all();
}

/* The page that is to leave for another one is found in its frame until then. */
static void test_victims(void) {
    for (int call = PINS; call <= STEPS; call++) {
        open_dirty(2);
        stop_writes_of(bit(0));
        if (call == STEPS)
            for (int no = 0; no < 5; no++)
                OK(warm_absorb(&first, &(warm_reference){.replica = 1}, 1));
        in_files[10][5] = 'p';
        begin(0, call, page_at(5));
        until_written(bit(0));
        OK(warm_unpin(&first, pin(&first, 0)));
        MUST(*lent == 'd');
        write_to(&first, page_at(1), 'w');
        end_writes(bit(0));
        MUST(end(0) == WARM_OK && !is_in(&first, 0) && is_in(&first, 1) && is_in(&first, 5));
        MUST(in_files[10][0] == 'd' && in_files[10][1] == 'o' && put == 1 && written_locked == 0);
        MUST(reads == (call != PINS_ZEROED));
        if (call <= PINS_ZEROED) {
            MUST(callers[0].slot.index == 0 && callers[0].slot.hit == 0);
            unpin(0);
        }
        MUST(read_from(&first, page_at(5)) == (call == PINS_ZEROED ? 0 : 'p'));
        close_all();
    }
}

/* While it is written the page is pinned: another one leaves, and is written before that, too. */
static void test_pinned_meanwhile(void) {
    for (int is_held = 0; is_held < 2; is_held++) {
        open_dirty(2);
        if (is_held) pin_twice(&first, 0);
        stop_writes_of(bit(0));
        begin(0, PINS, page_at(5));
        until_written(bit(0));
        OK(warm_unpin(&first, pin(&first, 0))); /* it has a record again */
        warm_slot slot = pin(&first, 0);
        end_writes(bit(0));
        MUST(end(0) == WARM_OK && callers[0].slot.index == 1 && !is_in(&first, 1));
        MUST(in_files[10][0] == 'd' && in_files[10][1] == 'd' && !is_dirty(0));
        MUST(written_locked == 0);
        look_at(&first, slot, 0);
        OK(warm_unpin(&first, slot));
        unpin(0);
        close_all();
    }
}

/* The pages that would leave next are those without a caller's pin, also while they are written,
 * whoever writes them. */
static void victims_are(const char *numbers) {
    warm_page pages[4];
    size_t count;
    OK(warm_victims(&callers[3].handle, 0, pages, 4, &count));
    MUST(count == strlen(numbers));
    for (size_t at = 0; at < count; at++) MUST(pages[at].no == (uint64_t)(numbers[at] - '0'));
}

static void test_named_victims(void) {
    for (int is_miss = 0; is_miss < 2; is_miss++) {
        open_dirty(4);
        warm_slot slot = pin(&first, 2);
        stop_writes_of(bit(0) | bit(1));
        begin(0, is_miss ? PINS : WRITES_ONE, page_at(is_miss ? 5 : 0));
        until_written(bit(0));
        begin(1, WRITES_ONE, page_at(1));
        until_written(bit(0) | bit(1));
        victims_are("013");
        pin_twice(&first, 0);
        warm_slot other = hold_page(&first, 0);
        victims_are("13");
        OK(warm_unpin(&first, other));
        victims_are("013"); /* and each keeps the pin by which it keeps its frame */
        begin(2, PINS_ZEROED, page_at(6));
        MUST(end(2) == WARM_OK && callers[2].slot.index == 3);
        victims_are("01");
        end_writes(bit(0) | bit(1));
        MUST(end(0) == WARM_OK && end(1) == WARM_OK && written_locked == 0);
        unpin(2);
        if (is_miss) unpin(0);
        OK(warm_unpin(&first, slot));
        close_all();
    }
}

/* A clean page leaves at once, and if a frame has none, none leaves. */
static void test_clean_victims(void) {
    open_all(1, 2);
    for (uint64_t no = 0; no < 2; no++) write_to(&first, page_at(no), 'd');
    OK(warm_write_back_all(&first));
    taken = 0;
    put = 0;
    OK(warm_prefetch(&callers[0].handle, page_at(5)));
    MUST(taken == 2 && put == 0 && !is_in(&first, 0));
    close_all();
}

/* Of two that miss at once each writes a page of its own, and has its frame. */
static void test_two_misses(void) {
    open_dirty(2);
    stop_writes_of(bit(0) | bit(1));
    begin(0, PINS, page_at(5));
    until_written(bit(0));
    begin(1, PINS_ZEROED, page_at(6));
    until_written(bit(0) | bit(1));
    begin(2, PINS, page_at(6)); /* which is about to come */
    until_waiting(1);
    end_writes(bit(0) | bit(1));
    for (int number = 0; number < 3; number++) MUST(end(number) == WARM_OK);
    MUST(put == 2 && reads == 1 && written_locked == 0 && callers[2].slot.hit == 1);
    for (int number = 0; number < 3; number++) unpin(number);
    close_all();
}

/* ---- what changes meanwhile ---- */

/* A page that is changed once it is copied, in each way, is dirty afterwards, and is written again;
 * be it written back, or about to leave. */
static void test_changes(void) {
    static const int ways[] = {WRITES, MARKS, PINS_ZEROED};
    for (int way = 0; way < 3; way++) {
        for (int leaves = 0; leaves < 2; leaves++) {
            open_dirty(1);
            stop_writes_of(bit(0));
            begin(0, leaves ? PINS : WRITES_ALL, page_at(leaves ? 5 : 0));
            until_written(bit(0));
            begin(1, ways[way], page_at(0)); /* which waits for nothing */
            MUST(end(1) == WARM_OK);
            if (ways[way] == PINS_ZEROED) unpin(1);
            end_writes(bit(0));
            MUST(end(0) == WARM_OK && written_locked == 0 && put == 1 + leaves);
            MUST(leaves ? !is_in(&first, 0) : is_dirty(0) && in_files[10][0] == 'd');
            if (leaves) unpin(0);
            OK(warm_write_back_all(&first));
            uint8_t byte = way == 0 ? 'n' : way == 1 ? 'd' : 0;
            MUST(in_files[10][0] == byte && put == 2 && read_from(&first, page_at(0)) == byte);
            close_all();
        }
    }
}

/* A page of another device with the same number is another one: it is changed and written. */
static void test_same_number(void) {
    const warm_page other = {.dev = 1};
    warm_slot slot;
    bool written;
    open_dirty(2);
    OK(warm_forget_pages(&first, 0, 1));
    OK(warm_prefetch(&first, other));
    stop_writes_of(bit(0));
    begin(0, WRITES_ONE, page_at(0));
    until_written(bit(0));
    OK(warm_pin_zeroed(&first, other, &slot));
    OK(warm_unpin(&first, slot));
    OK(warm_write_back_page(&first, other, &written));
    MUST(written && !atomic_load(&callers[0].is_over));
    end_writes(bit(0));
    MUST(end(0) == WARM_OK && !is_dirty(0) && written_locked == 0);
    close_all();
}

/* A change that is refused, and one of another page, changes nothing. */
static void test_no_changes(void) {
    open_dirty(2);
    warm_slot slot = pin(&first, 0), other = pin(&first, 1), of_zeros;
    stop_writes_of(bit(0));
    begin(0, WRITES_ONE, page_at(0));
    until_written(bit(0));
    OK(warm_write(&first, other, 0, "n", 1));
    slot.generation++;
    MUST(warm_write(&first, slot, 0, "n", 1) == WARM_STALE_SLOT);
    slot.generation--;
    MUST(warm_write(&first, slot, 1, "n", 1) == WARM_OUT_OF_PAGE);
    pins_are_full = true;
    MUST(warm_pin_zeroed(&first, page_at(0), &of_zeros) == WARM_PINS_FULL);
    pins_are_full = false;
    end_writes(bit(0));
    MUST(end(0) == WARM_OK && !is_dirty(0) && is_dirty(1));
    OK(warm_unpin(&first, slot));
    OK(warm_unpin(&first, other));
    close_all();
}

/* Who abandons a handle with a pin of a page that is being written takes back that pin alone: the
 * page keeps its frame until it is written. */
static void test_abandoning(void) {
    open_dirty(1);
    pin(&callers[1].handle, 0);
    stop_writes_of(bit(0));
    begin(0, WRITES_ONE, page_at(0));
    until_written(bit(0));
    OK(warm_abandon(&callers[1].handle));
    begin(2, PINS, page_at(5));
    until_waiting(1);
    not_over(2);
    MUST(is_in(&first, 0) && put == 0);
    end_writes(bit(0));
    MUST(end(0) == WARM_OK && end(2) == WARM_OK && !is_in(&first, 0) && put == 1);
    unpin(2);
    close_all();
}

/* A page that is changed whenever it was written is written by the node in the end, with the shard
 * locked, and leaves. */
static void change_again(int fd, off_t at) {
    if (fd == 10 && held == 0) write_to(&callers[3].handle, page_at((uint64_t)at), 'c');
}

static void test_tries(void) {
    for (int is_zeroed = 0; is_zeroed < 2; is_zeroed++) {
        open_dirty(1);
        at_write = change_again;
        begin(0, is_zeroed ? PINS_ZEROED : PINS, page_at(5));
        MUST(end(0) == WARM_OK && put == TRIES + 1 && written_locked == 1 && reads == !is_zeroed);
        MUST(in_files[10][0] == 'c' && !is_in(&first, 0));
        at_write = NULL;
        unpin(0);
        close_all();
    }
}

/* ---- before_write ---- */

/* What it was asked about, of each page; what it answers; and what a test does then. */
enum { ASKED = 8 };
static uint8_t asked[ASKED];
static atomic_int answer, asks, tells, asked_locked;
static void (*at_ask)(uint64_t no, const uint8_t *bytes);

static int ask(void *context, uint64_t no, const void *bytes, size_t length) {
    (void)context;
    MUST(no < ASKED && length == 1);
    asks++;
    asked_locked += held > 0;
    asked[no] = *(const uint8_t *)bytes;
    if (at_ask != NULL) at_ask(no, bytes);
    return answer;
}

static void tell(void *context, uint64_t no, int error) {
    (void)context, (void)no, (void)error;
    MUST(held == 0 || asked_locked > 0);
    tells++;
}

static const warm_device_ops asking = {
    .size = sizeof asking, .before_write = ask, .after_write = tell};

static void open_asking(size_t frames) {
    const warm_device device = {.pages = ASKED, .fd = 10, .ops = &asking};
    asks = tells = asked_locked = answer = 0;
    at_ask = NULL;
    open_over(1, frames, &device, 1);
    for (uint64_t no = 0; no < frames; no++) write_to(&first, page_at(no), 'd');
    stop_writes_of(0);
}

/* The page is copied once before_write has answered: a latch that it waits for may have been
 * another thread's, which has changed the page by a pointer. */
static uint8_t *pointer;

static void change_by_pointer(uint64_t no, const uint8_t *bytes) {
    if (no == 0 && pointer == bytes) *pointer = 'l';
}

static void test_copy_after_asking(void) {
    open_asking(2);
    warm_slot slot = pin(&first, 0);
    OK(warm_bytes_mut(&first, slot, &pointer));
    at_ask = change_by_pointer;
    OK(warm_write_back_all(&callers[0].handle));
    MUST(in_files[10][0] == 'l' && asks == 2 && tells == 2 && asked_locked == 0);
    MUST(!is_dirty(0) && written_locked == 0);
    OK(warm_unpin(&first, slot));
    close_all();
}

/* Who is about to change a page, in each way, waits while before_write is asked about it, and no
 * longer: what is written is what it was asked about. Who reads it does not wait. */
static atomic_bool may_answer, has_asked;

static void stop_answer(uint64_t no, const uint8_t *bytes) {
    (void)bytes;
    if (no != 0 || has_asked) return;
    has_asked = true;
    while (!atomic_load(&may_answer)) sched_yield();
}

static void changing_while_asked(int way, int answers) {
    open_asking(2);
    at_ask = stop_answer;
    has_asked = may_answer = false;
    stop_writes_of(bit(0));
    begin(0, WRITES_ONE, page_at(0));
    while (!atomic_load(&has_asked)) sched_yield();
    begin(1, way, page_at(0));
    until_waiting(1);
    not_over(1);
    MUST(read_from(&first, page_at(0)) == 'd');
    write_to(&first, page_at(1), 'w'); /* another page */
    answer = answers;
    may_answer = true;
    if (answers == 0) until_written(bit(0));
    MUST(end(1) == WARM_OK); /* also while the copy is written */
    if (way == PINS_ZEROED) unpin(1);
    end_writes(bit(0));
    MUST(end(0) == (answers == EAGAIN ? WARM_SKIPPED : answers != 0 ? WARM_WRITE_FAULT : WARM_OK));
    MUST(is_dirty(0) && asked[0] == 'd' && in_files[10][0] == (answers == 0 ? 'd' : 0));
    MUST(asked_locked == 0 && tells == (answers == 0));
    answer = 0;
    OK(warm_write_back_all(&first));
    MUST(in_files[10][0] == (way == WRITES ? 'n' : way == MARKS ? 'd' : 0) && !is_dirty(0));
    close_all();
}

static void test_changes_while_asked(void) {
    static const int ways[] = {WRITES, MARKS, PINS_ZEROED}, answers[] = {0, EAGAIN, ENOSPC};
    for (int way = 0; way < 3; way++)
        for (int at = 0; at < 3; at++) changing_while_asked(ways[way], answers[at]);
}

/* A page that is skipped or fails is passed over by who needs its frame; what is counted and noted
 * then. */
static int skip_first(void *context, uint64_t no, const void *bytes, size_t length) {
    int error = ask(context, no, bytes, length);
    return no == 0 ? error : 0;
}

static void passing_over(int error) {
    warm_device_ops ops = asking;
    ops.before_write = skip_first;
    const warm_device device = {.pages = ASKED, .fd = 10, .ops = &ops};
    open_over(1, 2, &device, 1);
    asks = tells = asked_locked = 0;
    at_ask = NULL;
    for (uint64_t no = 0; no < 2; no++) write_to(&first, page_at(no), 'd');
    answer = error;
    begin(0, PINS, page_at(5));
    MUST(end(0) == WARM_OK && callers[0].slot.index == 1 && is_dirty(0) && asks == 2);
    must_have_failed(&callers[0].handle, 0, 0, WARM_FAILED_WRITE, error);
    warm_device_counters counters;
    OK(warm_device_counts(&first, 0, &counters));
    MUST(counters.writes == 2 + 1 && counters.failures == 1 + 1 && counters.reads == 1 + 3);
    begin(1, PINS, page_at(6));
    MUST(end(1) == WARM_EVICT_FAULT && asks == 3 && tells == 1 && asked_locked == 0);
    must_have_failed(&callers[1].handle, 0, 0, WARM_FAILED_WRITE, error);
    unpin(0);
    answer = 0;
    OK(warm_prefetch(&first, page_at(6)));
    MUST(in_files[10][0] == 'd' && !is_in(&first, 0) && !has_failure(&first));
    close_all();
}

/* While another page is written nobody has a pin of the one that was passed over. */
static int skip_last(void *context, uint64_t no, const void *bytes, size_t length) {
    ask(context, no, bytes, length);
    return no == ASKED - 1 ? EAGAIN : 0;
}

static void forget_last(int fd, off_t at) {
    if (fd == 10 && at == 1) OK(warm_forget_pages(&callers[3].handle, 0, ASKED - 1));
}

static void test_passing_over(void) {
    passing_over(EAGAIN);
    passing_over(ENOSPC);
    passing_over(-1); /* which is no errno */
    warm_device_ops ops = asking;
    ops.before_write = skip_last;
    const warm_device device = {.pages = ASKED, .fd = 10, .ops = &ops};
    at_ask = NULL;
    open_over(1, 2, &device, 1);
    write_to(&first, page_at(ASKED - 1), 'd');
    write_to(&first, page_at(1), 'd');
    at_write = forget_last;
    begin(0, PINS, page_at(5));
    MUST(end(0) == WARM_OK && !is_in(&first, ASKED - 1) && in_files[10][ASKED - 1] == 0);
    unpin(0);
    close_all();
}

/* ---- who waits ---- */

/* Who forgets pages, or replaces their device, waits until none of them is being written, and does
 * not get the answer that one is pinned. Meanwhile a page that is to be written is written with the
 * shard locked. */
static void leaving_meanwhile(int call) {
    open_dirty(4);
    stop_writes_of(bit(1));
    begin(0, WRITES_ONE, page_at(1));
    until_written(bit(1));
    OK(warm_forget_pages(&first, 1, 0));
    OK(warm_forget_pages(&first, 0, 2)); /* neither has the page */
    MUST(!is_in(&first, 2));
    begin(1, call, page_at(call == FORGETS ? 1 : 0));
    until_waiting(1);
    not_over(1);
    write_to(&first, page_at(0), 'w');
    bool written;
    OK(warm_write_back_page(&first, page_at(0), &written));
    MUST(written && written_locked == 1 && in_files[10][0] == 'w' && is_in(&first, 1));
    end_writes(bit(1));
    MUST(end(0) == WARM_OK && end(1) == WARM_OK && in_files[10][1] == 'd');
    MUST(!is_in(&first, 1) && is_in(&first, 0) == (call == FORGETS));
    stop_writes_of(0);
    int locked = written_locked;
    write_to(&first, page_at(3), 'x');
    OK(warm_write_back_all(&first)); /* as before */
    MUST(written_locked == locked && in_files[call == FORGETS ? 10 : 20][3] == 'x');
    close_all();
}

/* All of them are waited for, in whichever order they end. */
static void test_leaving_two(void) {
    for (int way = 0; way < 4; way++) {
        uint64_t ends = (uint64_t)way % 2;
        open_dirty(2);
        stop_writes_of(bit(0) | bit(1));
        for (int number = 0; number < 2; number++) {
            begin(number, WRITES_ONE, page_at((uint64_t)number));
            until_written(bit((uint64_t)number));
        }
        begin(2, way < 2 ? FORGETS : REPLACES, page_at(0));
        until_waiting(1);
        end_writes(bit(ends));
        MUST(end((int)ends) == WARM_OK);
        not_over(2);
        end_writes(bit(1 - ends));
        MUST(end((int)(1 - ends)) == WARM_OK && end(2) == WARM_OK);
        MUST(!is_in(&first, 0) && !is_in(&first, 1) && put == 2);
        close_all();
    }
}

/* So is one that is written, in whichever shard it is. */
static void test_leaving_shards(void) {
    for (uint64_t no = 0; no < 4; no++) {
        for (int call = FORGETS; call <= REPLACES; call++) {
            open_all(4, 8);
            write_to(&first, page_at(no), 'd');
            stop_writes_of(bit(no));
            begin(0, WRITES_ONE, page_at(no));
            until_written(bit(no));
            begin(1, call, page_at(0));
            until_waiting(1);
            not_over(1);
            end_writes(bit(no));
            MUST(end(0) == WARM_OK && end(1) == WARM_OK && in_files[10][no] == 'd');
            MUST(!is_in(&first, no) && written_locked == 0);
            close_all();
        }
    }
}

/* One that a user has pinned, too, is pinned. */
static void test_leaving_meanwhile(void) {
    leaving_meanwhile(FORGETS);
    leaving_meanwhile(REPLACES);
    for (int call = FORGETS; call <= REPLACES; call++) {
        open_dirty(2);
        warm_slot slot = pin(&first, 0);
        stop_writes_of(bit(0));
        begin(0, WRITES_ONE, page_at(0));
        until_written(bit(0));
        begin(1, call, page_at(0));
        until_waiting(1);
        end_writes(bit(0));
        MUST(end(0) == WARM_OK && end(1) == WARM_PINNED && is_in(&first, 0));
        OK(warm_unpin(&first, slot));
        close_all();
    }
}

/* If no page could leave but those that are being written, whoever needs a frame waits for one of
 * them. If there is none of these either, it is refused at once. */
static void test_no_other_frame(void) {
    for (int call = PINS; call <= STEPS; call++) {
        open_dirty(2);
        warm_slot slot = pin(&first, 1);
        if (call == STEPS)
            for (int no = 0; no < 5; no++)
                OK(warm_absorb(&first, &(warm_reference){.replica = 1}, 1));
        stop_writes_of(bit(0));
        begin(0, WRITES_ONE, page_at(0));
        until_written(bit(0));
        begin(1, call, page_at(5));
        until_waiting(1);
        not_over(1);
        MUST(reads == 0);
        end_writes(bit(0));
        MUST(end(0) == WARM_OK && end(1) == WARM_OK && is_in(&first, 5) && !is_in(&first, 0));
        if (call <= PINS_ZEROED) unpin(1);
        write_to(&first, page_at(1), 'w');
        OK(warm_write_back_all(&first));
        stop_writes_of(bit(1));
        write_to(&first, page_at(1), 'v');
        warm_slot other = pin(&callers[3].handle, 5);
        begin(0, WRITES_ONE, page_at(1));
        until_written(bit(1));
        begin(1, PINS, page_at(7));
        MUST(end(1) == WARM_ALL_PINNED);
        end_writes(bit(1));
        MUST(end(0) == WARM_OK);
        OK(warm_unpin(&callers[3].handle, other));
        OK(warm_unpin(&first, slot));
        close_all();
    }
}

/* Who waits for a frame has that of the page which is written first, whichever that is. */
static void test_first_frame(void) {
    for (uint64_t ends = 0; ends < 2; ends++) {
        open_dirty(2);
        stop_writes_of(bit(0) | bit(1));
        for (int number = 0; number < 2; number++) {
            begin(number, WRITES_ONE, page_at((uint64_t)number));
            until_written(bit((uint64_t)number));
        }
        begin(2, PINS, page_at(5));
        until_waiting(1);
        end_writes(bit(ends));
        MUST(end(2) == WARM_OK && callers[2].slot.index == ends && is_in(&first, 1 - ends));
        end_writes(bit(1 - ends));
        MUST(end(0) == WARM_OK && end(1) == WARM_OK && written_locked == 0);
        unpin(2);
        close_all();
    }
}

/* A page that is held meanwhile stays held, and has its record. */
static void test_held_meanwhile(void) {
    for (int call = PINS; call <= PREFETCHES; call++) {
        open_dirty(2);
        pin_twice(&first, 1);
        warm_slot slot = hold_page(&first, 1);
        uint8_t byte;
        stop_writes_of(bit(0));
        begin(0, WRITES_ONE, page_at(0));
        until_written(bit(0));
        begin(1, call, page_at(5));
        until_waiting(1);
        OK(warm_read(&first, slot, 0, &byte, 1));
        OK(warm_unpin(&callers[3].handle, hold_page(&callers[3].handle, 1)));
        end_writes(bit(0));
        MUST(end(0) == WARM_OK && end(1) == WARM_OK && byte == 'd');
        look_at(&first, slot, 1);
        OK(warm_read(&first, slot, 0, &byte, 1));
        OK(warm_unpin(&first, hold_page(&first, 1)));
        OK(warm_unpin(&first, slot));
        if (call <= PINS_ZEROED) unpin(1);
        close_all();
    }
}

/* The same, if it is so only once the page was read. */
static void test_no_other_frame_then(void) {
    for (int is_first_clean = 0; is_first_clean < 2; is_first_clean++) {
        open_all(1, 1);
        OK(warm_prefetch(&first, page_at(0)));
        stops_at = 5;
        begin(0, PINS, page_at(5));
        until_begun(1);
        write_to(&first, page_at(0), 'd');
        stop_writes_of(bit(0));
        begin(1, WRITES_ONE, page_at(0));
        until_written(bit(0));
        may_end = 1;
        until_waiting(1);
        not_over(0);
        if (is_first_clean) write_to(&first, page_at(0), 'e'); /* so that it is written twice */
        end_writes(bit(0));
        MUST(end(0) == WARM_OK && end(1) == WARM_OK && reads == 2 && written_locked == 0);
        MUST(in_files[10][0] == (is_first_clean ? 'e' : 'd') && put == 1 + is_first_clean);
        unpin(0);
        close_all();
    }
}

/* A page is forgotten while another one is written to leave for it: what was read is of no use. Who
 * forgets waits for no such write: nothing of the page is read any more. */
static void test_stale_meanwhile(void) {
    for (int call = PINS; call <= PREFETCHES; call++) {
        open_dirty(1);
        in_files[10][5] = 'o';
        stop_writes_of(bit(0));
        begin(0, call, page_at(5));
        until_written(bit(0));
        begin(1, FORGETS, page_at(5));
        MUST(end(1) == WARM_OK);
        in_files[10][5] = 'n';
        not_over(0);
        end_writes(bit(0));
        MUST(end(0) == WARM_OK && reads == (call == PINS_ZEROED ? 0 : 2));
        MUST(put == 1 && read_from(&first, page_at(5)) == (call == PINS_ZEROED ? 0 : 'n'));
        if (call <= PINS_ZEROED) unpin(0);
        close_all();
    }
}

/* Then also what failed first is that of the whole call, and all are counted. */
static bool fails_as_before(node_page page) {
    if (page.no != 0) return false;
    stuck_error++;
    return true;
}

static void test_failures_of_two_tries(void) {
    open_dirty(2);
    stop_writes_of(bit(0));
    is_stuck = fails_as_before;
    stuck_error = 40;
    begin(0, PINS, page_at(5));
    until_written(bit(0));
    begin(1, FORGETS, page_at(5));
    MUST(end(1) == WARM_OK);
    end_writes(bit(0));
    MUST(end(0) == WARM_OK && stuck_error == 42 && reads == 2);
    must_have_failed(&callers[0].handle, 0, 0, WARM_FAILED_WRITE, 41);
    MUST(failures(&callers[0].handle) == 2 && callers[0].slot.index == 1);
    is_stuck = NULL;
    stuck_error = EIO;
    unpin(0);
    close_all();
}

/* What is refused whichever page leaves is refused before one is written. */
static void test_refused(void) {
    warm_slot slot;
    open_dirty(1);
    MUST(warm_pin_zeroed(&first, page_at(FAKE_PAGES), &slot) == WARM_NO_PAGE &&
         warm_pin(&first, page_at(FAKE_PAGES), &slot) == WARM_NO_PAGE &&
         warm_pin_zeroed(&first, (warm_page){.dev = FAKE_DEVICES}, &slot) == WARM_NO_DEVICE);
    unreadable = 5;
    MUST(warm_pin(&first, page_at(5), &slot) == WARM_READ_FAULT);
    unreadable = INT64_MAX;
    MUST(put == 0 && is_dirty(0));
    close_all();
}

/* ---- a handle that is alone ---- */

/* It copies nothing, and takes no lock. */
static void test_alone(void) {
    for (int is_alone = 0; is_alone < 2; is_alone++) {
        open_dirty(2);
        for (int number = 0; is_alone && number < MOST; number++)
            OK(warm_close(&callers[number].handle));
        opened *its = first.at;
        *its->copy = 'x';
        taken = 0;
        OK(warm_prefetch(&first, page_at(5)));
        OK(warm_write_back_all(&first));
        MUST(put == 2 && in_files[10][0] == 'd' && in_files[10][1] == 'd');
        MUST((*its->copy == 'x') == is_alone && (taken == 0) == is_alone);
        for (int number = 0; is_alone && number < MOST; number++)
            OK(warm_attach(&first, &callers[number].handle));
        close_all();
    }
}

int main(void) {
    alarm(600);
    test_write_backs();
    test_portions_beside_another();
    test_portions_of_shards();
    test_victims();
    test_pinned_meanwhile();
    test_named_victims();
    test_clean_victims();
    test_two_misses();
    test_changes();
    test_no_changes();
    test_abandoning();
    test_same_number();
    test_tries();
    test_copy_after_asking();
    test_changes_while_asked();
    test_passing_over();
    test_leaving_meanwhile();
    test_leaving_two();
    test_leaving_shards();
    test_no_other_frame();
    test_no_other_frame_then();
    test_first_frame();
    test_held_meanwhile();
    test_stale_meanwhile();
    test_failures_of_two_tries();
    test_refused();
    test_alone();
    puts("writes_test: as expected");
    return 0;
}

/*
 * Tests reads with no shard locked (reads.c, write_back.c) over fake_library.h, while something
 * changes: what is forgotten, or of a device that is replaced, is read again, and who
 * forgets or replaces waits for the old read; and handles that are closed.
 */
#include "callers.h"

/* ---- pages that are forgotten ---- */

/* A page that is forgotten while it is read is read again, as the file is then; one below is not.
 * Who forgets waits for the old read alone: with no shard locked. */
static void test_forgetting(void) {
    for (size_t shards = 1; shards <= 4; shards *= 4) {
        open_all(shards, 4 * shards);
        in_files[10][5] = in_files[10][6] = 'o';
        stops_at = 5;
        begin(0, PINS, page_at(5));
        until_begun(1);
        begin(1, FORGETS, page_at(5));
        until_waiting(1);
        OK(warm_forget_pages(&first, 1, 0)); /* of another device, which waits for nothing */
        in_files[10][5] = 'n';
        not_over(1);
        pin_twice(&first, 1);
        OK(warm_unpin(&first, pin(&first, 1 + 4 * 5)));
        may_end = 1;
        MUST(end(1) == WARM_OK && end(0) == WARM_OK && callers[0].slot.hit == 0);
        MUST(read_from(&first, page_at(5)) == 'n' && reads == 4);
        has_counted(0, 4, 0);
        stops_at = 6;
        begin(1, PINS, page_at(6));
        until_begun(2);
        OK(warm_forget_pages(&first, 0, 7));
        OK(warm_forget_pages(&first, 1, 0));
        begin(2, FORGETS, page_at(5)); /* which is pinned, so that all stays as it is */
        MUST(end(2) == WARM_PINNED);
        may_end = 2;
        MUST(end(1) == WARM_OK && reads == 5);
        unpin(0);
        unpin(1);
        close_all();
    }
}

/* So are all of them, and who forgets waits for each, in whichever order they end. */
static void forgetting_all(int last) {
    open_all(1, 4);
    for (int number = 0; number < 2; number++) {
        in_files[10][5 + number] = 'o';
        stops_at = 5 + number;
        begin(number, PINS, page_at(5 + (uint64_t)number));
        until_begun(number + 1);
    }
    begin(2, FORGETS, page_at(5));
    until_waiting(1);
    in_files[10][5] = in_files[10][6] = 'n';
    ends_first = 1 - last;
    MUST(end(1 - last) == WARM_OK);
    not_over(2);
    ends_first = -1;
    may_end = 2;
    MUST(end(last) == WARM_OK && end(2) == WARM_OK && reads == 4);
    MUST(read_from(&first, page_at(5)) == 'n' && read_from(&first, page_at(6)) == 'n');
    unpin(0);
    unpin(1);
    close_all();
}

/* Who forgets or replaces waits for no read that somebody else has made stale since. Who is last
 * waits for all of them. */
static void later_forgetting(int call) {
    open_all(1, 4);
    for (int number = 0; number < 2; number++) {
        stops_at = 5 + number;
        begin(number, PINS, page_at(5 + (uint64_t)number));
        until_begun(number + 1);
        begin(number + 2, number == 0 ? call : FORGETS, page_at(0));
        until_waiting(number + 1);
    }
    ends_first = 0;
    MUST(end(2) == WARM_OK && end(0) == WARM_OK);
    not_over(3);
    begin(2, FORGETS, page_at(6));
    until_waiting(2);
    wake_all();
    not_over(2);
    not_over(3);
    ends_first = -1;
    may_end = 2;
    MUST(end(1) == WARM_OK && end(2) == WARM_OK && end(3) == WARM_OK && reads == 4);
    unpin(0);
    unpin(1);
    close_all();
}

/* The old read of a page that was forgotten fails: that is of no account. */
static void test_forgotten_failure(void) {
    open_all(1, 2);
    stops_at = 5;
    unreadable = 5;
    begin(0, PREFETCHES, page_at(5));
    until_begun(1);
    unreadable = INT64_MAX;
    begin(1, FORGETS, page_at(0));
    until_waiting(1);
    may_end = 2;
    MUST(end(1) == WARM_OK && end(0) == WARM_OK && is_in(&first, 5) &&
         !has_failure(&callers[0].handle));
    has_counted(0, 2, 1);
    close_all();
}

/* A pin that has read its page, or needs no read, and writes a page of another device to have its
 * frame, or waits for that, keeps nobody who forgets its page or replaces the device. */
static void pin_without_frame(int call, int leaves, bool waits) {
    const warm_page page = {.dev = 1, .no = 5};
    open_dirty(1);
    in_files[11][5] = in_files[20][5] = 'n';
    stop_writes_of(bit(0));
    if (call == PINS) {
        stops_at = 5;
        begin(1, call, page);
        until_begun(1);
    }
    if (waits) begin(2, WRITES_ONE, page_at(0));
    if (waits) until_written(bit(0));
    if (call != PINS) begin(1, call, page);
    may_end = 1;
    if (waits) until_waiting(1);
    else until_written(bit(0));
    begin(3, leaves, page);
    MUST(end(3) == WARM_OK);
    not_over(1);
    end_writes(bit(0));
    MUST(end(1) == WARM_OK && (!waits || end(2) == WARM_OK) && written_locked == 0);
    MUST(reads == (call == PINS ? 2 : 0) && put == 1);
    MUST(read_from(&first, page) == (call == PINS ? 'n' : 0));
    unpin(1);
    close_all();
}

static void test_pins_without_frames(void) {
    for (int call = PINS; call <= PINS_ZEROED; call++)
        for (int way = 0; way < 4; way++)
            pin_without_frame(call, way % 2 == 0 ? FORGETS : REPLACES, way > 1);
}

/* ---- devices that are replaced ---- */

/* A device is replaced while a page of it is read: the new one is read. Who replaces it returns
 * when the old one is asked for nothing more. */
static void test_replacing(void) {
    for (size_t shards = 1; shards <= 4; shards *= 4) {
        open_all(shards, 4 * shards);
        in_files[10][5] = 'o';
        in_files[20][5] = 'n';
        stops_at = 5;
        unreadable = 5;
        begin(0, PINS, page_at(5));
        begin(1, PREFETCHES, page_at(200)); /* which the new one has not */
        until_begun(1);
        MUST(end(1) == WARM_READ_FAULT);
        unreadable = INT64_MAX;
        has_counted(0, 1, 1);
        begin(1, REPLACES, page_at(0));
        until_waiting(1);
        not_over(1);
        MUST(read_from(&first, page_at(2)) == 0);
        has_counted(0, 1, 0);
        may_end = 1;
        MUST(end(1) == WARM_OK && end(0) == WARM_OK && read_from(&first, page_at(5)) == 'n' &&
             !has_failure(&callers[0].handle));
        has_counted(0, 2, 0); /* none of them was of the old device */
        MUST(warm_prefetch(&first, page_at(200)) == WARM_NO_PAGE);
        unpin(0);
        close_all();
    }
}

/* Its place is taken by the same descriptor, as when the file has changed: what was read before is
 * of no use, be it a byte or a failure, and counts no more. Whoever waits for the page has the new
 * byte, and two that replace the device wait for the one old read. */
static void replacing_by_itself(size_t shards, bool fails) {
    open_all(shards, 4 * shards);
    in_files[10][5] = 'o';
    stops_at = 5;
    unreadable = fails ? 5 : INT64_MAX;
    begin(0, PINS, page_at(5));
    until_begun(1);
    begin(1, PINS, page_at(5));
    until_waiting(1);
    unreadable = INT64_MAX;
    in_files[10][5] = 'n';
    for (int number = 2; number < MOST; number++)
        begin_with(number, REPLACES, page_at(0), &devices[0]);
    until_waiting(MOST - 1);
    for (int number = 1; number < MOST; number++) not_over(number);
    may_end = 1;
    for (int number = 0; number < MOST; number++) MUST(end(number) == WARM_OK);
    MUST(callers[0].slot.hit + callers[1].slot.hit == 1 && reads == 2);
    MUST(read_from(&first, page_at(5)) == 'n' && !has_failure(&callers[0].handle) &&
         !has_failure(&callers[1].handle));
    has_counted(0, 1, 0);
    MUST((*place_of(10))->devices == 1);
    unpin(0);
    unpin(1);
    close_all();
}

static void test_replacing_by_itself(void) {
    for (size_t shards = 1; shards <= 4; shards *= 4) {
        replacing_by_itself(shards, false);
        replacing_by_itself(shards, true);
    }
}

/* The same of the engine's calls, with the same context. The device has another number then, and
 * the old one is let go when it is read no more. */
static uint8_t kept[8];

static int read_kept(void *context, uint64_t no, void *into, size_t length) {
    MUST(held == 0 && length == 1 && no < sizeof kept);
    memcpy(into, (const uint8_t *)context + no, length);
    reads++;
    stop(-1, (off_t)no);
    return 0;
}

static int write_kept(void *context, uint64_t no, const void *bytes, size_t length) {
    memcpy((uint8_t *)context + no, bytes, length);
    return 0;
}

static int sync_kept(void *context) { return context == NULL; }

static void test_replacing_by_same_calls(void) {
    static const warm_device_ops calls = {
        .size = sizeof calls, .read = read_kept, .write = write_kept, .sync = sync_kept};
    const warm_device own = {.pages = sizeof kept, .ops = &calls, .context = kept};
    for (size_t shards = 1; shards <= 4; shards *= 4) {
        open_over(shards, 4 * shards, &own, 1);
        const node_device *now = &((opened *)first.at)->of->devices[0];
        int32_t before = now->number;
        kept[5] = 'o';
        stops_at = 5;
        begin(0, PINS, page_at(5));
        until_begun(1);
        kept[5] = 'n';
        begin_with(1, REPLACES, page_at(0), &own);
        until_waiting(1);
        not_over(1);
        MUST(now->number != before && own_count == 2);
        may_end = 1;
        MUST(end(1) == WARM_OK && end(0) == WARM_OK && own_count == 1);
        MUST(callers[0].slot.hit == 0 && reads == 2 && read_from(&first, page_at(5)) == 'n');
        has_counted(0, 1, 0);
        unpin(0);
        close_all();
    }
}

/* A page that is being read, and that the new device has not. */
static void test_replacing_by_less(void) {
    open_all(1, 2);
    stops_at = 200;
    begin(0, PINS, page_at(200));
    until_begun(1);
    begin(1, REPLACES, page_at(0));
    until_waiting(1);
    may_end = 1;
    MUST(end(1) == WARM_OK && end(0) == WARM_NO_PAGE && reads == 1);
    close_all();
}

/* A refused replacement leaves what is read as it is: another page of the device is pinned. */
static void test_not_replacing(void) {
    open_all(1, 3);
    warm_slot slot = pin(&first, 1);
    stops_at = 5;
    begin(0, PINS, page_at(5));
    until_begun(1);
    begin(1, REPLACES, page_at(0));
    MUST(end(1) == WARM_PINNED);
    begin(1, FORGETS, page_at(0));
    MUST(end(1) == WARM_PINNED);
    may_end = 1;
    MUST(end(0) == WARM_OK && reads == 2);
    OK(warm_unpin(&first, slot));
    unpin(0);
    close_all();
}

/* One that is refused by the second shard has let pages of the first one go. */
static void test_replacing_in_part(void) {
    open_all(2, 4);
    int status = WARM_MEMORY;
    for (size_t grants = 0; status == WARM_MEMORY; grants++) {
        for (uint64_t no = 0; no < 4; no++)
            OK(warm_prefetch(&first, (warm_page){.dev = 1, .no = no}));
        granted = grants;
        status = warm_replace(&first, 1, &in_place);
        granted = SIZE_MAX;
        frames_are_counted();
    }
    MUST(status == WARM_OK);
    close_all();
}

/* ---- handles that are closed ---- */

/* Who reads has an open handle, so that the replica does not end. The others close: the read ends
 * in a shard that was locked before, and that nobody else is in. */
static void test_closing(void) {
    open_all(1, 2);
    stops_at = 5;
    begin(0, PINS, page_at(5));
    until_begun(1);
    for (int number = 1; number < MOST; number++) OK(warm_close(&callers[number].handle));
    MUST(warm_close(&first) == WARM_ATTACHED && warm_abandon(&first) == WARM_ATTACHED);
    may_end = 1;
    MUST(end(0) == WARM_OK);
    unpin(0);
    warm opener = first;
    first = callers[0].handle;
    callers[0].handle = opener;
    stops_at = 6;
    begin(0, PINS, page_at(6));
    until_begun(2);
    OK(warm_close(&first));
    may_end = 2;
    MUST(end(0) == WARM_OK);
    unpin(0);
    MUST(read_from(&callers[0].handle, page_at(6)) == 0 && reads == 2);
    OK(warm_close(&callers[0].handle));
    nothing_left();
}

int main(void) {
    alarm(600);
    test_forgetting();
    forgetting_all(0);
    forgetting_all(1);
    later_forgetting(FORGETS);
    later_forgetting(REPLACES);
    test_forgotten_failure();
    test_pins_without_frames();
    test_replacing();
    test_replacing_by_itself();
    test_replacing_by_same_calls();
    test_replacing_by_less();
    test_not_replacing();
    test_replacing_in_part();
    test_closing();
    puts("stale_reads_test: as expected");
    return 0;
}

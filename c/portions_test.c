/*
 * Tests warm_write_back_some over fake_library.h: how many pages a portion writes, how many it says
 * are left, and which frames are looked at for that. Whose turn is next syncs_test.c tests.
 */
#include "fake_library.h"

static void test_portions(void) {
    warm handle = {0};
    size_t left;
    open_shards(&handle, 4);
    write_each(&handle, 0, 8);
    OK(warm_write_back_some(&handle, 0, &left));
    MUST(left == 8);
    OK(warm_write_back_some(&handle, 3, &left)); /* two of shard 0, one of shard 1 */
    MUST(left == 5);
    OK(warm_write_back_some(&handle, 5, &left));
    MUST(left == 0);
    OK(warm_abandon(&handle));
}

/* How many frames are looked at for a portion, which leaves this many pages. */
static int seen_for(warm *handle, size_t limit, size_t left) {
    size_t got = 77;
    frames_seen = 0;
    OK(warm_write_back_some(handle, limit, &got));
    MUST(got == left);
    return frames_seen;
}

/* Whether they were those of one shard, of this many frames: each twice at most. */
static bool are_of_one(int seen, int frames) { return seen > 0 && seen <= 2 * frames; }

/* How many pages are dirty the nodes have counted: no frame is looked at for that. A portion begins
 * where the last one ended, and looks at no frame behind its last page. */
static void test_counted_pages(void) {
    enum { MANY = 16 };
    for (size_t shards = 1; shards <= 4; shards *= 4) {
        warm handle = {0};
        OK(open_with(&handle, 1, shards, MANY, devices, FAKE_DEVICES));
        write_each(&handle, 0, MANY);
        MUST(seen_for(&handle, 0, MANY) == 0);
        for (size_t page = 1; page <= MANY; page++) {
            frames_seen = 0;
            MUST(warm_close(&handle) == WARM_DIRTY && frames_seen == 0);
            MUST(seen_for(&handle, 1, MANY - page) == 1);
        }
        frames_seen = 0;
        OK(warm_write_back_all(&handle));
        OK(warm_close(&handle));
        MUST(frames_seen == 0);
        nothing_left();
    }
}

enum { WAYS = 4 };

/* Makes a page dirty in each way that there is. */
static void make_dirty(warm *handle, uint64_t no, int way) {
    warm_slot slot;
    uint8_t *bytes;
    if (way == 0) OK(warm_pin_zeroed(handle, page_at(no), &slot));
    else slot = pin(handle, no);
    if (way == 1) OK(warm_write(handle, slot, 0, "a", 1));
    if (way == 2) OK(warm_bytes_mut(handle, slot, &bytes));
    if (way == 3) OK(warm_mark_dirty(handle, slot));
    OK(warm_unpin(handle, slot));
}

static bool is_first_stuck(node_page page) { return page.no == 1; }

/* Of a shard whose pages are all written no frame is looked at. */
static void test_clean_shards(void) {
    enum { EACH = 4 };
    warm handle = {0};
    size_t left;
    OK(open_with(&handle, 1, 4, 4 * EACH, devices, FAKE_DEVICES));
    MUST(read_from(&handle, page_at(1)) == 0 && seen_for(&handle, 9, 0) == 0);
    for (int way = 0; way < WAYS; way++) {
        make_dirty(&handle, 1, way);
        MUST(seen_for(&handle, 0, 1) == 0 && are_of_one(seen_for(&handle, 1, 0), EACH));
        MUST(seen_for(&handle, SIZE_MAX, 0) == 0);
        make_dirty(&handle, 1, way);
        make_dirty(&handle, 5, way); /* of the same shard */
        MUST(are_of_one(seen_for(&handle, 1, 1), EACH));
        MUST(are_of_one(seen_for(&handle, 1, 0), EACH));
        make_dirty(&handle, 1, way);
        OK(warm_flush_device(&handle, 1)); /* of another device */
        MUST(seen_for(&handle, 0, 1) == 0);
        OK(warm_write_back_all(&handle));
        MUST(seen_for(&handle, 9, 0) == 0);
        make_dirty(&handle, 1, way);
        is_stuck = is_first_stuck;
        MUST(warm_write_back_all(&handle) == WARM_WRITE_FAULT);
        MUST(warm_write_back_some(&handle, 9, &left) == WARM_WRITE_FAULT);
        is_stuck = NULL;
        MUST(are_of_one(seen_for(&handle, 9, 0), EACH) && seen_for(&handle, 9, 0) == 0);
    }
    no_pins(&handle);
    OK(warm_close(&handle));
    nothing_left();
}

int main(void) {
    test_portions();
    test_counted_pages();
    test_clean_shards();
    puts("portions_test: as expected");
    return 0;
}

/*
 * Tests what a reader of holds.c, shards.c and write_back.c took for what could go wrong next, over
 * fake_library.h: mistakes that no other test of this folder found.
 */
#include "fake_library.h"

/* Two handles of a replica of one shard with this many frames. */
static void open_two(warm *first, warm *second, size_t frames) {
    OK(open_with(first, 1, 1, frames, devices, FAKE_DEVICES));
    OK(warm_attach(first, second));
}

static void close_two(warm *first, warm *second) {
    no_pins(first);
    OK(warm_close(second));
    OK(warm_abandon(first));
    nothing_left();
}

/* ---- records, and room for holds ---- */

/* Also the records at the end of the table are looked at before pages leave, and are free after
 * that. */
static void test_last_records(void) {
    warm first = {0}, second = {0};
    uint64_t pages[NEAR], no = 0;
    uint32_t state;
    open_two(&first, &second, FAKE_FRAMES);
    const table *of = &((opened *)first.at)->shards[0].table;
    record *last = of->records + 2 * of->mask;
    for (size_t at = 0; at < NEAR; at++, no++) {
        while (first_record(of, page_in(page_at(no))) != last) no++;
        pages[at] = no;
        pin_twice(&first, no);
        MUST(find_record(of, page_in(page_at(no)), &state) == last + at);
    }
    warm_slot slot = hold_page(&second, pages[NEAR - 1]);
    MUST(warm_forget_pages(&first, 0, 0) == WARM_PINNED);
    look_at(&second, slot, pages[NEAR - 1]);
    OK(warm_unpin(&second, slot));
    OK(warm_forget_pages(&first, 0, 0));
    for (size_t at = 0; at < NEAR; at++)
        MUST(find_record(of, page_in(page_at(pages[at])), &state) == NULL);
    close_two(&first, &second);
}

/* A pin that fills a page with zeros gives it no record, as it does not say where the page is. */
static void test_record_after_zeros(void) {
    warm first = {0}, second = {0};
    warm_slot slot;
    open_two(&first, &second, 1);
    OK(warm_unpin(&first, pin(&first, 5)));
    OK(warm_pin_zeroed(&second, page_at(5), &slot));
    OK(warm_unpin(&second, slot));
    OK(warm_unpin(&first, pin(&first, 5)));
    slot = hold_page(&first, 5);
    MUST(lent == node_of(&first, 0)->at[slot.index].bytes);
    OK(warm_unpin(&first, slot));
    close_two(&first, &second);
}

/* There is room for the holds of the handles that are or were open, and not for those of an attach
 * that was refused. */
static void test_room_of_handles(void) {
    warm first = {0}, second = {0};
    open_shards(&first, 4);
    const opened *its = first.at;
    EACH_REFUSED(warm_attach(&first, &second), atomic_load(&its->of->holds_count) == 1);
    MUST(atomic_load(&its->of->holds_count) == 2);
    for (size_t number = 0; number < 4; number++)
        MUST(its->shards[number].table.room == 2 * HOLDS);
    close_two(&first, &second);
}

/* A handle that is alone holds a page of another shard first, and then one of the shard whose page
 * would leave: that one stays. */
static void test_later_hold(void) {
    warm handle = {0};
    warm_slot slots[2], slot;
    OK(open_with(&handle, 1, 2, 2, devices, FAKE_DEVICES));
    for (uint64_t no = 0; no < 2; no++) {
        pin_twice(&handle, no);
        slots[no] = hold_page(&handle, no);
    }
    MUST(((opened *)handle.at)->used == 3);
    MUST(warm_pin(&handle, page_at(3), &slot) == WARM_ALL_PINNED);
    look_at(&handle, slots[1], 1);
    for (int at = 0; at < 2; at++) OK(warm_unpin(&handle, slots[at]));
    OK(warm_unpin(&handle, pin(&handle, 3)));
    no_pins(&handle);
    OK(warm_close(&handle));
    nothing_left();
}

/* ---- pages that cannot be written ---- */

/* Of this device those below this number cannot. */
static uint16_t stuck_dev;
static uint64_t stuck_below;

static bool is_below(node_page page) { return page.dev == stuck_dev && page.no < stuck_below; }

static void stick(uint16_t dev, uint64_t below) {
    stuck_dev = dev;
    stuck_below = below;
    is_stuck = is_below;
}

/* A handle that is alone reads a page once more, and not once for each page that cannot be written;
 * and not if no other page may leave. */
static void test_reading_past_stuck(void) {
    for (size_t frames = 1; frames <= STUCK + 1; frames++) {
        warm handle = {0};
        warm_slot slot;
        OK(open_with(&handle, 1, 1, frames, devices, FAKE_DEVICES));
        for (uint64_t no = 0; no < frames; no++) write_to(&handle, page_at(no), 'd');
        stick(0, frames > 1 ? frames - 1 : 1);
        files_keep = true;
        in_files[10][400] = 'p';
        reads = read_by_nodes = 0;
        int status = warm_pin_bytes(&handle, page_at(400), &slot, &lent);
        MUST(status == (frames > 1 ? WARM_OK : WARM_EVICT_FAULT));
        MUST(read_by_nodes == 1 && reads == (frames > 1));
        must_have_failed(&handle, 0, 0, WARM_FAILED_WRITE, EIO);
        is_stuck = NULL;
        files_keep = false;
        if (frames > 1) {
            MUST(*lent == 'p' && slot.index == frames - 1);
            OK(warm_unpin(&handle, slot));
            OK(warm_unpin(&handle, pin(&handle, 400)));
            OK(warm_unpin(&handle, hold_page(&handle, 400)));
        }
        no_pins(&handle);
        OK(warm_abandon(&handle));
        nothing_left();
    }
}

/* Whether the one page of a device that is in a frame is dirty. */
static bool is_dirty(warm *handle, uint16_t dev) {
    const fake *its = node_of(handle, 0);
    size_t at = 0;
    while (!its->at[at].is_in || its->at[at].page.dev != dev) at++;
    return its->at[at].is_dirty;
}

/* Pages of other devices that are behind the one that fails are written and synced, whatever their
 * numbers are. */
static void test_behind_a_failure(void) {
    for (uint16_t bad = 0; bad < 3; bad++) {
        warm handle = {0};
        OK(open_with(&handle, 1, 1, 8, devices, FAKE_DEVICES));
        write_to(&handle, (warm_page){.dev = bad}, 'a');
        for (uint16_t dev = 0; dev < 3; dev++) {
            if (dev != bad) write_to(&handle, (warm_page){.dev = dev}, 'a');
        }
        stick(bad, 1);
        syncs = 0;
        MUST(warm_write_back_all(&handle) == WARM_WRITE_FAULT && syncs == 2);
        is_stuck = NULL;
        for (uint16_t dev = 0; dev < 3; dev++) MUST(is_dirty(&handle, dev) == (dev == bad));
        OK(warm_write_back_all(&handle));
        MUST(syncs == 3);
        OK(warm_close(&handle));
        nothing_left();
    }
}

/* ---- slots of a page that is being written ---- */

static warm first_user, second_user;
static warm_slot old_slot;
static int uses;

/* Nobody has pinned the page. */
static void must_be_stale(void) {
    const uint8_t *bytes;
    uint8_t *bytes_mut, byte;
    MUST(warm_read(&second_user, old_slot, 0, &byte, 1) == WARM_STALE_SLOT);
    MUST(warm_write(&second_user, old_slot, 0, "w", 1) == WARM_STALE_SLOT);
    MUST(warm_bytes(&second_user, old_slot, &bytes) == WARM_STALE_SLOT);
    MUST(warm_bytes_mut(&second_user, old_slot, &bytes_mut) == WARM_STALE_SLOT);
    MUST(warm_mark_dirty(&second_user, old_slot) == WARM_STALE_SLOT);
    MUST(warm_unpin(&second_user, old_slot) == WARM_STALE_SLOT);
}

static unsigned pins_of_first_frame(void) { return node_of(&first_user, 0)->at[0].pins; }

/* The pin that the node has while a page is written is no caller's, also beside a caller's own: one
 * in the node, and then a hold. */
static void use_slots(int fd, off_t at) {
    if (fd != 10 || at != 0 || uses++ > 0) return;
    must_be_stale();
    for (unsigned pins = 2; pins > 0; pins--) {
        uint8_t byte;
        warm_slot own = pin(&second_user, 0);
        MUST(own.generation == old_slot.generation && pins_of_first_frame() == pins);
        OK(warm_read(&second_user, old_slot, 0, &byte, 1));
        OK(warm_write(&second_user, own, 0, pins == 2 ? "v" : "w", 1));
        MUST(byte == (pins == 2 ? 'd' : 'v') && pins_of_first_frame() == pins);
        OK(warm_unpin(&second_user, own));
        must_be_stale();
    }
    MUST(pins_of_first_frame() == 1);
}

static void test_slots_beside_a_write(void) {
    open_two(&first_user, &second_user, 2);
    old_slot = pin(&first_user, 0);
    OK(warm_write(&first_user, old_slot, 0, "d", 1));
    OK(warm_unpin(&first_user, old_slot));
    warm_slot other = pin(&second_user, 1);
    must_be_stale();
    uses = 0;
    at_write = use_slots;
    OK(warm_write_back_all(&first_user));
    at_write = NULL;
    MUST(uses == 1 && pins_of_first_frame() == 0);
    OK(warm_unpin(&second_user, other));
    MUST(is_dirty(&first_user, 0) && read_from(&first_user, page_at(0)) == 'w');
    close_two(&first_user, &second_user);
}

/* ---- a descriptor that is another's ---- */

static warm next_user;

/* The device is replaced, and a replica is opened that has the old one's descriptor. */
static void reuse_descriptor(void) {
    const warm_device in_place = {.pages = FAKE_PAGES, .fd = 20};
    size_t left;
    OK(warm_replace(&second_user, 0, &in_place));
    MUST(syncs == 1 && *place_of(10) == NULL);
    OK(open_with(&next_user, 2, 1, 2, devices, 1));
    write_to(&next_user, page_at(1), 'n');
    OK(warm_write_back_some(&next_user, 1, &left));
}

/* So it is before a flush syncs what it has found: it syncs nothing of the other replica. */
static void test_reused_descriptor(void) {
    open_two(&first_user, &second_user, 2);
    write_each(&first_user, 0, 1);
    syncs = 0;
    unlocks_before = 1; /* that behind the writes */
    at_unlock = reuse_descriptor;
    OK(warm_flush_device(&first_user, 0));
    MUST(at_unlock == NULL && syncs == 1);
    OK(warm_close(&next_user));
    MUST(syncs == 2);
    close_two(&first_user, &second_user);
}

int main(void) {
    test_last_records();
    test_record_after_zeros();
    test_room_of_handles();
    test_later_hold();
    test_reading_past_stuck();
    test_behind_a_failure();
    test_slots_beside_a_write();
    test_reused_descriptor();
    puts("attack_test: as expected");
    return 0;
}

/*
 * Tests pins that take no lock (holds.c, shards.c) over fake_library.h: what is held stays, the
 * page that leaves is the first one that nobody pins, and the node has no pin of a held page
 * between calls. checks/holds compares victims with those of the proved part.
 */
#define HOLDS_PAUSE() pause_a_while()
#define HOLDS_PAUSE_IN_SHARD() pause_in_shard()
static void pause_a_while(void), pause_in_shard(void);
#include "fake_library.h"

static _Thread_local unsigned pauses;
static bool is_paused;
static void (*at_pause)(void);

/* Now and then another thread has its turn. */
static void pause_in_shard(void) {
    if (is_paused && ++pauses % 16 == 0) give_turn();
}

/* What a test does between two steps of a pin. */
static void pause_a_while(void) {
    if (at_pause != NULL) at_pause();
    pause_in_shard();
}

static uint64_t victim(warm *handle) {
    warm_page page = page_at(77);
    size_t count;
    OK(warm_victims(handle, 0, &page, 1, &count));
    return page.no;
}

static uint64_t hits(warm *handle) {
    warm_counters counters;
    OK(warm_counts(handle, &counters));
    return counters.hits;
}

/* Two handles of a replica of one shard with this many frames. */
static void open_two(warm *first, warm *second, size_t frames) {
    OK(open_with(first, 1, 1, frames, devices, FAKE_DEVICES));
    OK(warm_attach(first, second));
}

static void close_two(warm *first, warm *second) {
    OK(warm_close(second));
    OK(warm_abandon(first));
    nothing_left();
}

static void test_staying(void) {
    warm first = {0}, second = {0};
    warm_slot slot, other;
    open_two(&first, &second, 2);
    pin_twice(&first, 0);
    pin_twice(&first, 1);
    MUST(victim(&first) == 0);
    slot = hold_page(&second, 0);
    MUST(slot.index == 0 && slot.generation == 1 && slot.shard == 0 &&
         lent == node_of(&first, 0)->at[0].bytes);
    MUST(victim(&first) == 1 && victim(&second) == 1);
    no_pins(&first);
    OK(warm_unpin(&first, pin(&first, 2))); /* page 1 leaves, not page 0 */
    MUST(is_in(&first, 0) && !is_in(&first, 1) && is_in(&first, 2));
    no_pins(&first);
    pin_twice(&first, 2);
    other = hold_page(&first, 2);
    MUST(victim(&first) == 77); /* none */
    MUST(warm_pin(&first, page_at(3), &slot) == WARM_ALL_PINNED &&
         warm_pin_zeroed(&second, page_at(3), &slot) == WARM_ALL_PINNED);
    no_pins(&first);
    OK(warm_unpin(&second, (warm_slot){.generation = 1}));
    OK(warm_unpin(&first, hold_page(&first, 2))); /* records are open again */
    OK(warm_pin_zeroed(&second, page_at(3), &slot));
    MUST(slot.index == 0 && slot.generation == 2);
    OK(warm_unpin(&second, slot));
    OK(warm_unpin(&first, other));
    no_pins(&first);
    close_two(&first, &second);
}

/* A page that left has no record: its next pin reads it again. */
static void test_leaving_record(void) {
    warm first = {0}, second = {0};
    open_two(&first, &second, 1);
    for (uint64_t round = 1; round < 20; round++) {
        uint64_t no = round % 3;
        MUST(pin(&first, no).generation == round);
        OK(warm_unpin(&first, (warm_slot){.generation = round}));
        MUST(pin(&second, no).generation == round && victim(&first) == 77);
        OK(warm_unpin(&second, (warm_slot){.generation = round}));
        MUST(hold_page(&second, no).generation == round && victim(&first) == 77);
        OK(warm_unpin(&second, (warm_slot){.generation = round}));
        MUST(victim(&first) == no);
        /* to be asked for a victim closes no record for good */
        OK(warm_unpin(&first, hold_page(&first, no)));
    }
    close_two(&first, &second);
}

/* Pages of one number of two devices look for the same record: each finds its own. */
static void test_devices(void) {
    warm first = {0}, second = {0};
    warm_slot slot;
    open_two(&first, &second, 1);
    for (uint64_t time = 0; time < 12; time++) {
        uint16_t dev = time / 3 % 2;
        OK(warm_pin(&first, (warm_page){.no = 5, .dev = dev}, &slot));
        MUST(node_of(&first, 0)->at[0].page.dev == dev && slot.generation == time / 3 + 1);
        MUST((((opened *)first.at)->used != 0) == (time % 3 == 2));
        OK(warm_unpin(&first, slot));
    }
    OK(warm_forget_pages(&first, 0, 0)); /* of the other device: the page has its record */
    OK(warm_pin(&first, (warm_page){.no = 5, .dev = 1}, &slot));
    MUST(((opened *)first.at)->used != 0);
    OK(warm_unpin(&first, slot));
    close_two(&first, &second);
}

/* Calls on the slot of a page that is held, by this handle or by the other. */
static void test_slots(void) {
    warm first = {0}, second = {0};
    uint8_t byte = 'a', *bytes;
    open_two(&first, &second, 2);
    pin_twice(&first, 5);
    warm_slot slot = hold_page(&first, 5);
    warm *by[] = {&first, &second};
    for (int at = 0; at < 2; at++) {
        const uint8_t *its;
        byte++;
        OK(warm_write(by[at], slot, 0, &byte, 1));
        MUST(warm_write(by[at], slot, 1, &byte, 1) == WARM_OUT_OF_PAGE);
        uint8_t read = 0;
        OK(warm_read(by[at], slot, 0, &read, 1));
        OK(warm_bytes(by[at], slot, &its));
        OK(warm_bytes_mut(by[at], slot, &bytes));
        MUST(read == byte && *its == byte && its == lent && bytes == lent &&
             node_of(&first, 0)->at[slot.index].is_dirty);
        no_pins(&first);
    }
    warm_slot wrong[] = {slot, slot, slot};
    wrong[0].generation++;
    wrong[1].index = 1;
    wrong[2].shard = 1;
    for (int at = 0; at < 3; at++)
        MUST(warm_read(&first, wrong[at], 0, &byte, 1) == WARM_STALE_SLOT &&
             warm_unpin(&first, wrong[at]) == WARM_STALE_SLOT);
    MUST(warm_unpin(&second, slot) == WARM_STALE_SLOT); /* it has no pin */
    OK(warm_unpin(&first, slot));
    for (int at = 0; at < 2; at++)
        MUST(warm_read(by[at], slot, 0, &byte, 1) == WARM_STALE_SLOT &&
             warm_unpin(by[at], slot) == WARM_STALE_SLOT);
    close_two(&first, &second);
}

static void test_forgetting(void) {
    const warm_device in_place = {.pages = FAKE_PAGES, .fd = 20};
    for (size_t count = 1; count <= 4; count *= 4) {
        warm first = {0}, second = {0};
        open_shards(&first, count);
        OK(warm_attach(&first, &second));
        for (uint64_t no = 0; no < 2 * count; no++) pin_twice(&first, no);
        warm_slot slot = hold_page(&second, 2 * count - 1);
        MUST(warm_forget_pages(&first, FAKE_DEVICES, 0) == WARM_NO_DEVICE);
        MUST(warm_forget_pages(&first, 0, 1) == WARM_PINNED &&
             warm_replace(&first, 0, &in_place) == WARM_PINNED);
        MUST(is_in(&first, 1) && *lent == 0 && *place_of(20) == NULL);
        OK(warm_unpin(&second, hold_page(&second, 2 * count - 1)));
        OK(warm_forget_pages(&first, 1, 0));
        OK(warm_forget_pages(&first, 0, 2 * count));
        no_pins(&first);
        OK(warm_unpin(&second, slot));
        OK(warm_forget_pages(&first, 0, 1));
        MUST(is_in(&first, 0) && !is_in(&first, 1) && !is_in(&first, 2 * count - 1));
        slot = pin(&second, 2 * count - 1);
        MUST(slot.generation == 2); /* it had no record any more */
        OK(warm_unpin(&second, slot));
        OK(warm_replace(&first, 0, &in_place));
        MUST(!is_in(&first, 0));
        close_two(&first, &second);
    }
}

/* A handle holds eight pages; the node has the pins of the others. */
static void test_many(void) {
    warm first = {0}, second = {0};
    warm_slot slots[HOLDS + 2];
    open_two(&first, &second, FAKE_FRAMES);
    for (uint64_t no = 0; no < HOLDS + 2; no++) pin_twice(&first, no);
    for (uint64_t no = 0; no < HOLDS; no++) slots[no] = hold_page(&second, no);
    for (uint64_t no = HOLDS; no < HOLDS + 2; no++) slots[no] = pin(&second, no);
    for (uint64_t no = 0; no < HOLDS; no++) hold_page(&second, no);
    MUST(node_of(&first, 0)->at[0].pins == 0 && node_of(&first, 0)->at[HOLDS].pins == 1);
    for (int time = 0; time < 2; time++) {
        for (int at = 0; at < HOLDS; at++) {
            MUST(warm_close(&second) == WARM_PINS_LEFT);
            OK(warm_unpin(&second, slots[at]));
        }
    }
    OK(warm_unpin(&second, slots[HOLDS]));
    slots[0] = hold_page(&second, 0);
    OK(warm_unpin(&second, slots[HOLDS + 1]));
    MUST(warm_close(&second) == WARM_PINS_LEFT); /* a hold is enough */
    OK(warm_unpin(&second, slots[0]));
    for (int at = 0; at < HOLDS + 2; at++) MUST(warm_unpin(&second, slots[at]) == WARM_STALE_SLOT);
    no_pins(&first);
    close_two(&first, &second);
}

/* Hits by holds are counted, also those of a handle that is closed; pins by C itself are not. The
 * holds of that handle are used again. */
static void test_counting(void) {
    warm first = {0}, second = {0};
    open_two(&first, &second, 2);
    pin_twice(&first, 0);
    pin_twice(&first, 1);
    uint64_t before = hits(&first);
    for (int time = 1; time <= 3; time++) {
        OK(warm_unpin(&second, hold_page(&second, 0)));
        OK(warm_unpin(&first, hold_page(&first, 0)));
    }
    MUST(hits(&first) == before + 6 && hits(&second) == before + 6);
    holds *its = ((opened *)second.at)->holds;
    OK(warm_close(&second));
    MUST(hits(&first) == before + 6);
    int there = blocks;
    for (granted = 1; granted < 5; granted++) { /* for the handle, but not for all that it has */
        size_t grants = granted;
        MUST(warm_attach(&first, &second) == WARM_MEMORY && second.at == NULL && blocks == there);
        granted = grants;
    }
    OK(warm_attach(&first, &second));
    granted = SIZE_MAX;
    MUST(((opened *)second.at)->holds == its && blocks == there + 5);
    warm_slot slot = hold_page(&second, 0);
    uint8_t byte;
    OK(warm_mark_dirty(&second, slot));
    OK(warm_read(&first, slot, 0, &byte, 1));
    /* also of what is said to leave */
    MUST(victim(&first) == 1 && ((opened *)first.at)->shards[0].table.pins == 4);
    MUST(hits(&first) == before + 7);
    OK(warm_unpin(&second, slot));
    close_two(&first, &second);
}

/* Pages that share their records; the last one has none at first. */
static uint64_t sharing[NEAR + 1];

static void find_sharing(const table *of) {
    size_t count = 0;
    for (uint64_t no = 0; no < FAKE_PAGES && count <= NEAR; no++) {
        if (first_record(of, page_in(page_at(no))) == of->records) sharing[count++] = no;
    }
    MUST(count == NEAR + 1);
}

/* How many pages of a full shard find none of the records free that they may have, if their numbers
 * are at this distance. */
static size_t without_record(size_t frames, size_t distance) {
    static record records[2 * 65536 + NEAR];
    const table of = {.records = records, .mask = frames - 1};
    size_t without = 0;
    memset(records, 0, sizeof records);
    for (uint64_t at = 0; at < frames; at++) {
        record *first = first_record(&of, page_in(page_at(at * distance))), *to = first;
        while (to < first + NEAR && state_of(to) != 0) to++;
        if (to == first + NEAR) without++;
        else open_record(to);
    }
    return without;
}

/* Pages that follow each other have records: of one in fifty at most is there none, in shards of
 * each size. */
static void test_spreading(void) {
    for (size_t frames = 1; frames <= 65536 / FEWER; frames *= 2) {
        for (size_t distance = 1; distance <= 128; distance *= 2)
            MUST(without_record(frames, distance) <= frames / 50 + 2);
    }
}

/* More pages share their records than there are. */
static void test_full_table(void) {
    warm first = {0}, second = {0};
    open_two(&first, &second, FAKE_FRAMES);
    find_sharing(&((opened *)first.at)->shards[0].table);
    for (size_t at = 0; at < NEAR; at++) {
        pin_twice(&first, sharing[at]);
        OK(warm_unpin(&first, hold_page(&first, sharing[at])));
    }
    warm_slot slot = hold_page(&second, sharing[0]);
    OK(warm_unpin(&first, pin(&first, sharing[NEAR])));
    /* so that it wants the record of the first */
    MUST(node_of(&first, 0)->at[NEAR].page.no == sharing[NEAR] && NEAR % NEAR == slot.index);
    pin_twice(&first, sharing[NEAR]);
    OK(warm_unpin(&first, hold_page(&first, sharing[0])));
    int before = taken;
    OK(warm_unpin(&first, pin(&first, sharing[NEAR])));
    MUST(taken > before); /* it got none */
    OK(warm_unpin(&second, slot));
    pin_twice(&first, sharing[NEAR]);
    OK(warm_unpin(&first, hold_page(&first, sharing[NEAR])));
    pin_twice(&first, sharing[0]);
    close_two(&first, &second);
}

/* If pages that are passed over have no room, calls are refused, and all is as before. */
static void test_no_room(void) {
    warm first = {0}, second = {0};
    warm_slot slot, held_slots[3];
    bool found;
    const warm_reference seen = {.replica = 1};
    open_two(&first, &second, 4);
    for (int page = 1; page <= 9; page++)
        OK(warm_absorb(&first, &seen, 1)); /* so that page 9 is next */
    table *of = &((opened *)first.at)->shards[0].table;
    for (uint64_t no = 0; no < 4; no++) pin_twice(&first, no);
    for (uint64_t no = 0; no < 3; no++) held_slots[no] = hold_page(&second, no);
    size_t room = of->room;
    MUST(room == 2 * HOLDS);
    of->room = 2;
    MUST(warm_pin(&first, page_at(9), &slot) == WARM_ALL_PINNED &&
         warm_pin_zeroed(&first, page_at(9), &slot) == WARM_ALL_PINNED);
    MUST(warm_step(&first, &found, &(warm_page){0}) == WARM_ALL_PINNED);
    no_pins(&first);
    for (uint64_t no = 0; no < 4; no++) OK(warm_unpin(&first, hold_page(&first, no)));
    of->room = 3;
    MUST(pin(&first, 9).index == 3);
    of->room = room;
    OK(warm_unpin(&first, (warm_slot){.generation = 2, .index = 3}));
    for (int at = 0; at < 3; at++) OK(warm_unpin(&second, held_slots[at]));
    no_pins(&first);
    close_two(&first, &second);
}

/* What the other handle does while a node is asked for the next victim: before some question it
 * lets a page go, or takes one. */
static warm *other;
static warm_slot to_let_go;
static uint64_t to_take;
static int questions, at_question;

static void let_go(void) {
    if (++questions == at_question) OK(warm_unpin(other, to_let_go));
}

static void let_go_and_take(void) {
    if (++questions != at_question) return;
    OK(warm_unpin(other, to_let_go));
    to_let_go = hold_page(other, to_take);
}

/* A page that was passed over and is let go before the choice is made is chosen, even if there was
 * no room to pass it over. */
static void test_letting_go(void) {
    for (int round = 0; round < 5; round++) {
        warm first = {0}, second = {0};
        open_two(&first, &second, 4);
        other = &second;
        at_question = round % 3 + 1;
        if (round > 2) ((opened *)first.at)->shards[0].table.room = 1;
        for (uint64_t no = 0; no < 4; no++) pin_twice(&first, no);
        to_let_go = hold_page(&second, 1);
        warm_slot kept = hold_page(&second, 0);
        questions = 0;
        at_victim = let_go;
        warm_slot slot = pin(&first, 9);
        at_victim = NULL;
        MUST(questions >= at_question && slot.index == 1 && !is_in(&first, 1));
        OK(warm_unpin(&first, slot));
        OK(warm_unpin(&second, hold_page(&second, 0)));
        for (uint64_t no = 2; no < 4; no++) OK(warm_unpin(&second, hold_page(&second, no)));
        OK(warm_unpin(&second, kept));
        no_pins(&first);
        close_two(&first, &second);
    }
}

/* A page that would have been chosen is taken, while the one before it is let go: the call finds
 * the one that is free in the end. */
static void test_taking(void) {
    for (at_question = 1; at_question <= 3; at_question++) {
        for (size_t room = 1; room <= 2; room++) {
            warm first = {0}, second = {0};
            open_two(&first, &second, 2);
            other = &second;
            pin_twice(&first, 0);
            pin_twice(&first, 1);
            ((opened *)first.at)->shards[0].table.room = room;
            to_let_go = hold_page(&second, 0);
            to_take = 1;
            questions = 0;
            at_victim = let_go_and_take;
            MUST(at_question == 3 || pin(&first, 9).index == 0);
            at_victim = NULL;
            if (at_question < 3) OK(warm_unpin(&first, (warm_slot){.generation = 2}));
            OK(warm_unpin(&second, to_let_go));
            no_pins(&first);
            ((opened *)first.at)->shards[0].table.room = 2 * HOLDS;
            close_two(&first, &second);
        }
    }
}

/* The other handle pins another page within a pin of page 0 by a hold, before or after the hold is
 * there; twice, so that the page has a record, which is that of page 0 if this one left. */
static int steps, at_step;
static bool forgets;
static warm_slot taken_slot;
static uint64_t same_record;
static int taken_status;

static void find_same_record(const table *of) {
    const record *wanted = first_record(of, page_in(page_at(0)));
    same_record = 2;
    while (first_record(of, page_in(page_at(same_record))) != wanted) same_record++;
}

static void take_frame(void) {
    if (++steps != at_step) return;
    if (forgets) OK(warm_forget_pages(other, 0, 0));
    for (int time = 0; time < 2; time++)
        taken_status = warm_pin(other, page_at(same_record), &taken_slot);
}

/* A frame that is given away before the hold is there is not that of the page any more. After that
 * it is not given away. */
static void test_steps(void) {
    for (at_step = 1; at_step <= 2; at_step++) {
        warm first = {0}, second = {0};
        open_two(&first, &second, 2);
        other = &second;
        table *of = &((opened *)first.at)->shards[0].table;
        find_same_record(of);
        pin_twice(&first, 0);
        OK(warm_unpin(&first, pin(&first, 1)));
        if (at_step == 2) OK(warm_forget_pages(&first, 0, 1));
        warm_slot kept = at_step == 1 ? pin(&first, 1) : (warm_slot){0};
        steps = 0;
        at_pause = take_frame;
        warm_slot slot;
        int status = warm_pin(&first, page_at(0), &slot);
        at_pause = NULL;
        MUST(steps == 2 && taken_status == WARM_OK);
        if (at_step == 1) {
            MUST(taken_slot.index == 0 && taken_slot.generation == 2 && status == WARM_ALL_PINNED);
            OK(warm_unpin(&first, kept));
            MUST(pin(&first, 0).index == 1);
            slot = (warm_slot){.generation = 2, .index = 1};
        } else {
            MUST(taken_slot.index == 1 && status == WARM_OK && slot.index == 0 &&
                 slot.generation == 1);
        }
        for (int at = 0; at < HOLDS; at++)
            MUST((((opened *)first.at)->holds->words[at] != 0) == (at_step == 2 && at == 0));
        OK(warm_unpin(&first, slot));
        for (int time = 0; time < 2; time++) OK(warm_unpin(&second, taken_slot));
        no_pins(&first);
        close_two(&first, &second);
    }
}

/* The same, if the page is forgotten before the hold is there. */
static void test_step_of_forgetting(void) {
    warm first = {0}, second = {0};
    warm_slot slot;
    open_two(&first, &second, 2);
    other = &second;
    pin_twice(&first, 0);
    steps = 0;
    at_step = 1;
    forgets = true;
    at_pause = take_frame;
    OK(warm_pin(&first, page_at(0), &slot));
    at_pause = NULL;
    forgets = false;
    MUST(taken_slot.index == 0 && slot.index == 1 && slot.generation == 1);
    OK(warm_unpin(&first, slot));
    for (int time = 0; time < 2; time++) OK(warm_unpin(&second, taken_slot));
    close_two(&first, &second);
}

static void take_its_record(void) {
    const table *of = &((opened *)other->at)->shards[0].table;
    uint32_t state;
    at_pause = NULL;
    pin_twice(other, sharing[NEAR]);
    MUST(find_record(of, page_in(page_at(sharing[NEAR])), &state) == of->records);
}

/* Within a pin by a hold another page takes the record, and the page stays where it is: the hold
 * comes too late, and names nothing. */
static void test_taken_record(void) {
    warm first = {0}, second = {0};
    uint32_t state;
    open_two(&first, &second, FAKE_FRAMES);
    other = &second;
    table *of = &((opened *)first.at)->shards[0].table;
    find_sharing(of);
    for (size_t at = 0; at < NEAR; at++) pin_twice(&first, sharing[at]);
    OK(warm_unpin(&first, pin(&first, sharing[NEAR])));
    for (uint64_t no = FAKE_PAGES - 1; of->filled < of->frames; no--)
        OK(warm_unpin(&first, pin(&first, no)));
    MUST(find_record(of, page_in(page_at(sharing[0])), &state) == of->records);
    at_pause = take_its_record;
    warm_slot slot = pin(&first, sharing[0]);
    MUST(at_pause == NULL);
    for (int at = 0; at < HOLDS; at++) MUST(((opened *)first.at)->holds->words[at] == 0);
    /* which takes the first frame that it can */
    OK(warm_unpin(&second, pin(&second, FAKE_PAGES / 2)));
    look_at(&first, slot, sharing[0]);
    OK(warm_unpin(&first, slot));
    no_pins(&first);
    close_two(&first, &second);
}

/* ---- a handle that is alone ---- */

/* It pins by holds as others do: what it holds stays, and a page that left has no record. */
static void test_alone(void) {
    warm handle = {0};
    warm_slot slot;
    OK(open_with(&handle, 1, 2, 2, devices, FAKE_DEVICES));
    const opened *its = handle.at;
    for (uint64_t round = 1; round < 20; round++) {
        uint64_t no = 2 * (round % 3);
        for (int time = 0; time < 3; time++) {
            slot = pin(&handle, no);
            look_at(&handle, slot, no);
            MUST(slot.generation == round && (its->used != 0) == (time == 2));
            OK(warm_unpin(&handle, slot));
        }
    }
    pin_twice(&handle, 1);
    warm_slot kept = hold_page(&handle, 1); /* in the other shard */
    OK(warm_unpin(&handle, pin(&handle, 6)));
    MUST(its->used != 0);
    MUST(warm_pin(&handle, page_at(3), &slot) == WARM_ALL_PINNED &&
         warm_pin_zeroed(&handle, page_at(3), &slot) == WARM_ALL_PINNED);
    look_at(&handle, kept, 1);
    OK(warm_unpin(&handle, kept));
    OK(warm_unpin(&handle, pin(&handle, 3)));
    slot = pin(&handle, 1);
    MUST(slot.generation == 3 && its->used == 0);
    OK(warm_unpin(&handle, slot));
    no_pins(&handle);
    OK(warm_abandon(&handle));
    nothing_left();
}

/* Pages that leave while several handles are open, and then while one is, and the other way
 * round. */
static void test_alone_again(void) {
    warm first = {0}, second = {0};
    OK(open_with(&first, 1, 1, 2, devices, FAKE_DEVICES));
    for (uint64_t no = 0; no < 64; no++) {
        bool is_shared = no % 5 > 2;
        if (is_shared) OK(warm_attach(&first, &second));
        for (int time = 0; time < 3; time++) {
            warm_slot slot = pin(is_shared ? &second : &first, no % 7);
            look_at(&first, slot, no % 7);
            OK(warm_unpin(is_shared ? &second : &first, slot));
        }
        if (no % 3 == 0) OK(warm_forget_pages(&first, 0, no % 7));
        if (is_shared) OK(warm_close(&second));
        no_pins(&first);
    }
    OK(warm_abandon(&first));
    nothing_left();
}

/* Handles hold the first pages of a full pool, in this many words, and the page behind them would
 * leave. */
static void hold_words(warm *handles, size_t words, size_t pages) {
    warm_slot slots[5 * HOLDS];
    for (size_t at = 0; at < words; at++) slots[at] = hold_page(&handles[at / HOLDS], at % pages);
    MUST(victim(&handles[4]) == pages);
    no_pins(&handles[0]);
    for (size_t at = 0; at < words; at++) OK(warm_unpin(&handles[at / HOLDS], slots[at]));
}

/* Of more words than are looked for one by one, each is found, and no other, even if several are of
 * one page. */
static void test_many_words(void) {
    warm handles[5] = {{0}};
    OK(open_with(&handles[0], 1, 1, FAKE_FRAMES, devices, FAKE_DEVICES));
    for (int by = 1; by < 5; by++) OK(warm_attach(&handles[0], &handles[by]));
    for (uint64_t no = 0; no < FAKE_FRAMES; no++) pin_twice(&handles[0], no);
    for (size_t words = 1; words < 5 * HOLDS; words += 1 + FEWER / 8) {
        for (size_t pages = 1; pages <= words && pages < FAKE_FRAMES; pages++)
            hold_words(handles, words, pages);
    }
    for (int by = 5; by-- > 0;) OK(warm_close(&handles[by]));
    nothing_left();
}

/* Words that are looked for by their bits, even if these are the same. */
static void test_sorted_words(void) {
    table of = {0};
    MUST(make_room(&of, 64));
    for (uint64_t at = 0; at < 64; at++)
        of.seen[of.seen_count++] = (at + 1) * (at + 1) * 0xD1B54A32D192ED03u;
    sort_seen(&of);
    for (uint64_t at = 0; at < 128; at++)
        MUST(is_seen(&of, (at + 1) * (at + 1) * 0xD1B54A32D192ED03u) == (at < 64));
    test_free(of.passed);
    nothing_left();
}

/* A page is held, and one of another shard has a record and a slot of the same numbers: nobody pins
 * that one. */
static void test_same_numbers(void) {
    warm first = {0}, second = {0};
    uint8_t byte;
    OK(open_with(&first, 1, 2, 2, devices, FAKE_DEVICES));
    OK(warm_attach(&first, &second));
    const shard *shards = ((opened *)first.at)->shards;
    const table *of = &shards[0].table, *beside = &shards[1].table;
    uint64_t no = 1;
    while (first_record(beside, page_in(page_at(no))) - beside->records !=
           first_record(of, page_in(page_at(0))) - of->records)
        no += 2;
    pin_twice(&first, 0);
    pin_twice(&first, no);
    warm_slot slot = hold_page(&second, no), same = slot;
    same.shard = 0;
    for (int time = 0; time < 2; time++) {
        MUST(warm_read(time == 0 ? &first : &second, same, 0, &byte, 1) == WARM_STALE_SLOT);
        OK(warm_read(time == 0 ? &first : &second, slot, 0, &byte, 1));
    }
    OK(warm_unpin(&second, slot));
    close_two(&first, &second);
}

/* Before the hold is there another page gets the frame and the record; when it is there nobody pins
 * that page. */
static void read_taken(void) {
    uint8_t byte;
    taken_status = warm_read(other, taken_slot, 0, &byte, 1);
}

static void leave_frame(void) {
    at_pause = NULL;
    pin_twice(other, same_record);
    taken_slot = pin(other, same_record);
    OK(warm_unpin(other, taken_slot));
    at_pause = read_taken;
}

static void test_late_hold(void) {
    warm first = {0}, second = {0};
    open_two(&first, &second, 1);
    other = &second;
    const table *of = &((opened *)first.at)->shards[0].table;
    find_same_record(of);
    pin_twice(&first, 0);
    taken_status = WARM_OK;
    at_pause = leave_frame;
    warm_slot slot = pin(&first, 0);
    at_pause = NULL;
    MUST(taken_status == WARM_STALE_SLOT && slot.generation == 3);
    OK(warm_unpin(&first, slot));
    close_two(&first, &second);
}

/* A handle that is abandoned leaves no page that it held. */
static void test_abandoning(void) {
    warm first = {0}, second = {0};
    open_two(&first, &second, 3);
    for (uint64_t no = 0; no < 3; no++) {
        pin_twice(&first, no);
        hold_page(&second, no);
    }
    MUST(warm_forget_pages(&first, 0, 0) == WARM_PINNED);
    OK(warm_abandon(&second));
    OK(warm_forget_pages(&first, 0, 0));
    close_two(&first, &second);
}

/* ---- threads ---- */

enum { THREADS = 6, PINS = 20000 / FEWER, PAGES = 12 };

static uint64_t draw(uint64_t *drawn) {
    *drawn ^= *drawn << 13;
    *drawn ^= *drawn >> 7;
    *drawn ^= *drawn << 17;
    return *drawn * 2685821657736338717u >> 33;
}

static void *work(void *of) {
    warm *handle = of;
    uint64_t drawn = (uintptr_t)of | 1, kept_no = 0;
    warm_slot kept, slot;
    bool has_kept = false;
    for (int time = 0; time < PINS; time++) {
        uint64_t no = draw(&drawn) % PAGES;
        int status = warm_pin(handle, page_at(no), &slot);
        MUST(status == WARM_OK || status == WARM_ALL_PINNED);
        if (status != WARM_OK) continue;
        look_at(handle, slot, no);
        if (!has_kept && draw(&drawn) % 8 == 0) {
            kept = slot;
            kept_no = no;
            has_kept = true;
            continue;
        }
        OK(warm_unpin(handle, slot));
        if (!has_kept) continue;
        look_at(handle, kept, kept_no);
        if (draw(&drawn) % 8 != 0) continue;
        OK(warm_unpin(handle, kept));
        has_kept = false;
        status =
            draw(&drawn) % 4 != 0 ? WARM_OK : warm_forget_pages(handle, 0, draw(&drawn) % PAGES);
        MUST(status == WARM_OK || status == WARM_PINNED);
    }
    if (has_kept) OK(warm_unpin(handle, kept));
    OK(warm_abandon(handle));
    return NULL;
}

static void test_threads(void) {
    for (size_t count = 1; count <= 2; count++) {
        warm first = {0}, attached[THREADS] = {{0}};
        pthread_t threads[THREADS];
        open_shards(&first, count);
        is_paused = true;
        for (int at = 0; at < THREADS; at++) {
            OK(warm_attach(&first, &attached[at]));
            MUST(pthread_create(&threads[at], NULL, work, &attached[at]) == 0);
        }
        for (int at = 0; at < THREADS; at++) MUST(pthread_join(threads[at], NULL) == 0);
        is_paused = false;
        no_pins(&first);
        OK(warm_forget_pages(&first, 0, 0));
        OK(warm_abandon(&first));
        nothing_left();
    }
}

int main(void) {
    test_staying();
    test_leaving_record();
    test_devices();
    test_slots();
    test_forgetting();
    test_many();
    test_counting();
    test_spreading();
    test_full_table();
    test_no_room();
    test_letting_go();
    test_taking();
    test_steps();
    test_step_of_forgetting();
    test_taken_record();
    test_alone();
    test_alone_again();
    test_many_words();
    test_sorted_words();
    test_same_numbers();
    test_late_hold();
    test_abandoning();
    test_threads();
    puts("holds_test: as expected");
    return 0;
}

/*
 * Tests handles (opening.c) over fake_library.h: what a replica is opened with, who attaches, and
 * what a close or an abandoned handle leaves behind. shards_test.c tests pins, whole_calls_test.c
 * the calls on a whole replica, and syncs_test.c what is done to devices.
 */
#include "fake_library.h"

/* ---- options ---- */

/* All is wrong. */
static const warm_options wrong = {.size = sizeof wrong - 1,
    .replica = 65,
    .shards = 3,
    .frames = 3,
    .page_size = 65537,
    .devices = devices,
    .device_count = SIZE_MAX};

/* What is refused, in the order of warm.h: each options have what comes later wrong, too. */
static void test_options(void) {
    static const size_t bad[] = {3, 63, 65, 128, SIZE_MAX};
    warm_options options = wrong;
    warm handle = {0};
    MUST(warm_open(&handle, &options) == WARM_BAD_OPTIONS);
    options.size = sizeof wrong + 1;
    MUST(warm_open(&handle, &options) == WARM_BAD_OPTIONS);
    options.size = sizeof wrong;
    options.flags = 1;
    MUST(warm_open(&handle, &options) == WARM_BAD_OPTIONS);
    options.flags = 0;
    for (size_t at = 0; at < sizeof bad / sizeof *bad; at++) {
        options.shards = bad[at];
        MUST(warm_open(&handle, &options) == WARM_BAD_SHARDS);
    }
    options.shards = 64;
    MUST(warm_open(&handle, &options) == WARM_UNEVEN_FRAMES);
    options.frames = 64 * 65537;
    MUST(warm_open(&handle, &options) == WARM_BAD_REPLICA);
    options.replica = 0;
    MUST(warm_open(&handle, &options) == WARM_BAD_REPLICA);
    options.replica = 64;
    MUST(warm_open(&handle, &options) == WARM_BAD_FRAMES);
    options.frames = 64 * 65536;
    MUST(warm_open(&handle, &options) == WARM_BAD_PAGE_SIZE); /* this many frames are not bad */
    options.frames = 64;
    options.page_size = 2;
    MUST(warm_open(&handle, &options) == WARM_BAD_DEVICE); /* which are too many */
    nothing_left();
}

/* The same of devices. */
static void test_options_of_devices(void) {
    static const warm_device too_large[] = {{.pages = 1}, {.pages = INT64_MAX / 2 + 1, .fd = 12}};
    static const warm_device many[WARM_MAX_DEVICES + 1];
    warm_options options = {
        .size = sizeof options, .replica = 64, .shards = 64, .frames = 64, .page_size = 2};
    warm handle = {0};
    options.devices = many;
    options.device_count = WARM_MAX_DEVICES + 1;
    MUST(warm_open(&handle, &options) == WARM_BAD_DEVICE);
    options.device_count--;
    MUST(warm_open(&handle, &options) == WARM_SAME_FILE); /* what a fake node says of this many */
    options.device_count = 2;
    options.devices = too_large;
    for (appending = 0; appending <= 12; appending += 12)
        MUST(warm_open(&handle, &options) == WARM_BAD_DEVICE); /* also of another device */
    appending = 12;
    options.page_size = 1;
    MUST(warm_open(&handle, &options) == WARM_APPENDS);
    appending = -77;
    OK(warm_open(&handle, &options));
    MUST(warm_open(&handle, &wrong) == WARM_ALREADY_OPEN);
    OK(warm_close(&handle));
    nothing_left();
}

static void has_settings(
    const warm_options *options, uint32_t replica, size_t shards, size_t frames, size_t page_size) {
    warm handle = {0};
    warm_options got = {.size = sizeof got};
    OK(warm_open(&handle, options));
    OK(warm_settings(&handle, &got));
    MUST(got.size == sizeof got && got.replica == replica && got.flags == 0 &&
         got.shards == shards && got.frames == frames);
    MUST(got.page_size == page_size && got.devices == NULL &&
         got.device_count == options->device_count);
    got.size--;
    MUST(warm_settings(&handle, &got) == WARM_BAD_OPTIONS && got.replica == replica);
    OK(warm_close(&handle));
    MUST(warm_settings(&handle, &got) == WARM_CLOSED);
    nothing_left();
}

/* Zeros are defaults. A fake node has few frames. */
static void test_settings(void) {
    warm_options options = {.size = sizeof options, .replica = 3};
    has_settings(&options, 3, 1, 1, 4096);
    options.shards = 64;
    has_settings(&options, 3, 64, 64, 4096);
    options.devices = devices;
    options.device_count = 2;
    has_settings(&options, 3, 64, 1024, 4096);
    options = (warm_options){.size = sizeof options,
        .replica = 64,
        .shards = 2,
        .frames = 6,
        .page_size = 65536,
        .devices = devices,
        .device_count = 1};
    has_settings(&options, 64, 2, 6, 65536);
}

static void test_opening(void) {
    static const warm_device many[FAKE_DEVICES + 1];
    warm handle = {0};
    /* what the node says */
    MUST(open_with(&handle, 1, 4, 4, many, FAKE_DEVICES + 1) == WARM_SAME_FILE);
    appending = 12;
    MUST(open_with(&handle, 1, 4, 4, devices, FAKE_DEVICES) == WARM_APPENDS);
    appending = -77;
    MUST(handle.at == NULL);
    nothing_left();
    for (size_t count = 1; count <= 64; count *= 2) {
        EACH_REFUSED(open_with(&handle, 1, count, 2 * count, devices, FAKE_DEVICES),
            (nothing_left(), handle.at == NULL));
        MUST(locks_there == 2 * (int)count + FAKE_DEVICES);
        void *was = handle.at;
        MUST(open_with(&handle, 1, 3, 1, devices, 1) == WARM_ALREADY_OPEN && handle.at == was);
        opened *its = was;
        for (size_t number = 0; number < count; number++)
            MUST((uintptr_t)&its->shards[number] % LINE == 0);
        MUST((uintptr_t)its % LINE == 0 && (uintptr_t)its->of % LINE == 0);
        OK(warm_close(&handle));
        OK(warm_close(&handle));
        nothing_left();
    }
    OK(open_with(&handle, 1, 2, 2, devices, 0)); /* no device */
    OK(warm_close(&handle));
    nothing_left();
}

/* A close loses nothing: what would be lost is said, in order, and the replica goes on. */
static void close_with(size_t count) {
    warm first = {0}, second = {0};
    warm_slot slot, other;
    open_shards(&first, count);
    write_to(&first, (warm_page){.no = count - 1}, 'a');
    OK(warm_attach(&first, &second));
    OK(warm_pin(&first, (warm_page){.no = count - 1}, &slot));
    MUST(warm_close(&first) == WARM_ATTACHED && warm_abandon(&first) == WARM_ATTACHED);
    OK(warm_close(&second));
    MUST(warm_close(&first) == WARM_PINS_LEFT && first.at != NULL);
    OK(warm_pin(&first, (warm_page){.no = count - 1}, &other)); /* by a hold */
    OK(warm_unpin(&first, slot));
    MUST(warm_close(&first) == WARM_PINS_LEFT);
    OK(warm_unpin(&first, slot));
    MUST(warm_close(&first) == WARM_DIRTY && syncs == 0);
    syncs = 0;
    OK(warm_write_back_all(&first));
    write_to(&first, (warm_page){.no = 0}, 'a');
    size_t left;
    OK(warm_write_back_some(&first, 1, &left));
    MUST(left == 0 && syncs == 1);
    sync_errors[10] = EIO;
    MUST(warm_close(&first) == WARM_WRITE_FAULT && warm_close(&first) == WARM_WRITE_FAULT &&
         syncs == 2);
    must_have_failed(&first, 0, 0, WARM_FAILED_FLUSH, EIO);
    OK(warm_abandon(&first));
    OK(warm_abandon(&first));
    nothing_left();
    syncs = 0;
}

/* What was flushed is not flushed again; what waits for it is. */
static void test_closing(void) {
    warm handle = {0};
    size_t left;
    for (size_t count = 1; count <= 4; count *= 4) {
        syncs = 0;
        close_with(count);
        open_shards(&handle, count);
        write_each(&handle, 0, count);
        OK(warm_write_back_some(&handle, SIZE_MAX, &left));
        MUST(syncs == 0);
        OK(warm_close(&handle));
        MUST(syncs == 1 && handle.at == NULL);
        nothing_left();
    }
    MUST(warm_close(&handle) == WARM_OK && warm_abandon(&handle) == WARM_OK);
}

/* An attached handle that is abandoned holds nothing back: what it pinned may leave, be it by a
 * hold or in a node. */
static void test_abandoning(void) {
    warm first = {0}, second = {0}, third = {0};
    warm_slot slot, other;
    OK(open_with(&first, 1, 1, 2, devices, FAKE_DEVICES));
    OK(warm_attach(&first, &second));
    OK(warm_attach(&first, &third)); /* so that nobody is alone */
    pin_twice(&second, 0);
    hold_page(&second, 0);
    pin(&second, 1);
    MUST(warm_close(&second) == WARM_PINS_LEFT &&
         warm_pin(&first, page_at(2), &slot) == WARM_ALL_PINNED);
    OK(warm_abandon(&second));
    MUST(second.at == NULL && warm_unpin(&second, slot) == WARM_CLOSED);
    OK(warm_pin(&first, page_at(2), &slot));
    OK(warm_pin(&first, page_at(3), &other));
    MUST(slot.index == 0 && other.index == 1);
    OK(warm_unpin(&first, slot));
    OK(warm_unpin(&first, other));
    no_pins(&first);
    OK(warm_close(&third));
    OK(warm_close(&first));
    nothing_left();
}

/* A thread ends with pins, and another one abandons its handle. */
static void *end_with_pins(void *handle) {
    pin_twice(handle, 0);
    hold_page(handle, 0);
    for (int time = 0; time < 3; time++) pin(handle, 1);
    pin(handle, 2);
    return NULL;
}

static void test_ended_thread(void) {
    for (size_t count = 1; count <= 4; count *= 4) {
        warm first = {0}, second = {0};
        pthread_t thread;
        open_shards(&first, 2 * count);
        OK(warm_attach(&first, &second));
        MUST(pthread_create(&thread, NULL, end_with_pins, &second) == 0);
        MUST(pthread_join(thread, NULL) == 0);
        MUST(warm_close(&first) == WARM_ATTACHED && warm_close(&second) == WARM_PINS_LEFT);
        MUST(warm_forget_pages(&first, 0, 2) == WARM_PINNED);
        OK(warm_abandon(&second));
        no_pins(&first);
        OK(warm_forget_pages(&first, 0, 0));
        OK(warm_replace(&first, 0, &devices[0]));
        OK(warm_close(&first));
        nothing_left();
    }
}

/* How many pins callers have in the nodes, as the shards know and as the nodes have them. */
static size_t pins_in_nodes(warm *handle) {
    opened *its = handle->at;
    size_t counted = 0, pins = 0;
    for (size_t number = 0; number < its->count; number++) {
        counted += its->shards[number].table.pinned;
        for (size_t at = 0; at < FAKE_FRAMES; at++) pins += node_of(handle, number)->at[at].pins;
    }
    MUST(counted == pins);
    return pins;
}

enum { MANY_PINS = 3 * KNOWN_PINS };

/* Of more pins than it knows an abandoned handle takes back these alone, and none of another
 * handle. The first ones were unpinned and made again. */
static void abandoning_many(size_t pins, size_t unpinned, size_t pages) {
    warm first = {0}, second = {0};
    warm_slot slots[MANY_PINS], other;
    OK(open_with(&first, 1, 4, 4 * FAKE_FRAMES, devices, FAKE_DEVICES));
    OK(warm_attach(&first, &second));
    OK(warm_pin(&first, page_at(0), &other));
    for (size_t at = 0; at < pins; at++)
        OK(warm_pin_zeroed(&second, page_at(at % pages), &slots[at]));
    for (size_t at = 0; at < unpinned; at++) OK(warm_unpin(&second, slots[at]));
    for (size_t at = 0; at < unpinned; at++)
        OK(warm_pin_zeroed(&second, page_at(at % pages), &slots[at]));
    MUST(pins_in_nodes(&first) == 1 + pins);
    OK(warm_abandon(&second));
    MUST(pins_in_nodes(&first) == 1 + (pins > KNOWN_PINS ? pins - KNOWN_PINS : 0));
    OK(warm_unpin(&first, other));
    OK(warm_abandon(&first));
    nothing_left();
}

static void test_abandoning_many(void) {
    for (size_t pins = 0; pins <= KNOWN_PINS + 8; pins += 8) {
        for (size_t unpinned = 0; unpinned <= pins; unpinned += 7) {
            abandoning_many(pins, unpinned, 7);
            abandoning_many(pins, unpinned, 4 * FAKE_FRAMES);
        }
    }
}

/* What is unpinned as it should be leaves no place behind, in whichever order. */
static void test_known_pins(void) {
    static const size_t steps[] = {1, 5, 7, MANY_PINS - 1};
    warm handle = {0};
    warm_slot slots[MANY_PINS];
    OK(open_with(&handle, 1, 4, 4 * FAKE_FRAMES, devices, FAKE_DEVICES));
    const opened *its = handle.at;
    for (int round = 0; round < 4; round++) {
        for (size_t at = 0; at < MANY_PINS; at++)
            OK(warm_pin_zeroed(&handle, page_at(at % 100), &slots[at]));
        MUST(its->pins == MANY_PINS && its->known_count == KNOWN_PINS);
        for (size_t at = 0; at < MANY_PINS; at++) {
            warm_slot *slot = &slots[at * steps[round] % MANY_PINS];
            slot->hit ^= (uint16_t)(at % 2); /* as that of another pin of the page */
            OK(warm_unpin(&handle, *slot));
        }
        MUST(its->pins == 0 && its->known_count == 0);
    }
    OK(warm_abandon(&handle));
    nothing_left();
}

/* So of each of its holds. The next handle has these. */
static void test_abandoning_all_holds(void) {
    warm first = {0}, second = {0}, third = {0};
    OK(open_with(&first, 1, 1, HOLDS, devices, FAKE_DEVICES));
    OK(warm_attach(&first, &second));
    for (uint64_t no = 0; no < HOLDS; no++) pin_twice(&second, no);
    for (uint64_t no = 0; no < HOLDS; no++) hold_page(&second, no);
    MUST(warm_forget_pages(&first, 0, 0) == WARM_PINNED);
    OK(warm_abandon(&second));
    OK(warm_attach(&first, &third));
    OK(warm_forget_pages(&first, 0, 0));
    OK(warm_close(&third));
    OK(warm_close(&first));
    nothing_left();
}

static void test_attaching(void) {
    warm first = {0}, second = {0}, third = {0};
    warm_slot slot, other;
    MUST(warm_attach(&first, &second) == WARM_CLOSED && warm_attach(&first, &first) == WARM_CLOSED);
    open_shards(&first, 4);
    MUST(warm_attach(&first, &first) == WARM_ALREADY_OPEN);
    int there = blocks;
    EACH_REFUSED(warm_attach(&first, &second), second.at == NULL && blocks == there);
    MUST(warm_attach(&first, &second) == WARM_ALREADY_OPEN &&
         warm_attach(&third, &second) == WARM_CLOSED);
    OK(warm_attach(&second, &third));
    MUST(warm_close(&first) == WARM_ATTACHED);
    OK(warm_pin(&second, (warm_page){.no = 6}, &slot));
    MUST(slot.shard == 2 && slot.index == 0 && slot.generation == 1);
    MUST(warm_unpin(&third, slot) == WARM_STALE_SLOT);
    MUST(warm_close(&second) == WARM_PINS_LEFT);
    OK(warm_pin_zeroed(&second, (warm_page){.no = 6, .dev = 3}, &other));
    MUST(other.shard == 1);
    OK(warm_unpin(&second, slot));
    MUST(warm_unpin(&second, slot) == WARM_STALE_SLOT && warm_close(&second) == WARM_PINS_LEFT);
    slot = other;
    slot.shard = 4;
    MUST(warm_unpin(&second, slot) == WARM_STALE_SLOT);
    slot.shard = 2;
    MUST(warm_unpin(&second, slot) == WARM_STALE_SLOT);
    OK(warm_unpin(&second, other));
    OK(warm_close(&second));
    MUST(second.at == NULL && warm_unpin(&second, other) == WARM_CLOSED &&
         warm_close(&first) == WARM_ATTACHED);
    OK(warm_close(&third));
    OK(warm_pin(&first, (warm_page){.no = 6}, &slot));
    MUST(warm_close(&first) == WARM_PINS_LEFT);
    OK(warm_abandon(&first));
    nothing_left();
}

/* A handle that is open has both of its visits. */
static void call_whole(warm *handle) {
    uint8_t answer;
    uint64_t horizon;
    size_t length;
    OK(warm_raise(handle, 1, &horizon));
    OK(warm_next_answer(handle, &answer, 1, &length));
    MUST(horizon == 1 && length == 0);
}

/* One allocation alone fails, or one lock: those after it do not hide that. */
static void test_one_failure(void) {
    for (size_t count = 1; count <= 4; count *= 4) {
        warm first = {0}, second = {0};
        fails_once = true;
        EACH_REFUSED(open_with(&first, 1, count, 2 * count, devices, FAKE_DEVICES),
            (nothing_left(), first.at == NULL));
        int there = blocks;
        EACH_REFUSED(warm_attach(&first, &second), second.at == NULL && blocks == there);
        fails_once = false;
        call_whole(&first);
        call_whole(&second);
        OK(warm_close(&second));
        OK(warm_close(&first));
        nothing_left();
    }
}

int main(void) {
    test_options();
    test_options_of_devices();
    test_settings();
    if (FEWER == 1) test_opening();
    test_closing();
    test_abandoning();
    test_abandoning_all_holds();
    test_ended_thread();
    if (FEWER == 1) test_abandoning_many();
    test_known_pins();
    test_attaching();
    test_one_failure();
    puts("handles_test: as expected");
    return 0;
}

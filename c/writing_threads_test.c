/*
 * Threads that use pages of a few frames, most of which are dirty, over fake_library.h, against a
 * model: what they read and what is on the devices in the end is what was written; a device is
 * asked about a page, and writes it, by one call at a time, which writes what it was asked about,
 * and nobody reads it meanwhile.
 */
#include "fake_library.h"

enum { THREADS = 4, ROUNDS = 3000 / FEWER, PAGES = 8, DISKS = 3 };

/* A device, and what its pages are to hold, each under its lock. Of the first one before_write
 * tries that lock; pages of the last one do not change, and are forgotten. */
static struct disk {
    uint8_t bytes[PAGES], asked[PAGES], model[PAGES];
    pthread_mutex_t locks[PAGES];
    atomic_int readers[PAGES], writers[PAGES];
} disks[DISKS];

static atomic_bool are_refusing;

static uint64_t draw(uint64_t below) {
    static _Thread_local uint64_t drawn;
    if (drawn == 0) drawn = (uintptr_t)&drawn | 1;
    drawn ^= drawn << 13;
    drawn ^= drawn >> 7;
    drawn ^= drawn << 17;
    return (drawn * 2685821657736338717u >> 33) % below;
}

static void yield_now_and_then(void) {
    if (draw(3) == 0) give_turn();
}

/* Nobody writes a page meanwhile, and one call at a time reads it. */
static int read_disk(void *context, uint64_t no, void *into, size_t length) {
    struct disk *its = context;
    MUST(length == 1 && held == 0 && its->readers[no]++ == 0 && its->writers[no] == 0);
    yield_now_and_then();
    *(uint8_t *)into = its->bytes[no];
    MUST(--its->readers[no] == 0 && its->writers[no] == 0);
    return 0;
}

static int refuse(struct disk *its, uint64_t no, int error) {
    MUST(--its->writers[no] == 0);
    return error;
}

/* One call at a time is asked for a page, and writes it. Nobody changes it meanwhile. */
static int ask_disk(void *context, uint64_t no, const void *bytes, size_t length) {
    struct disk *its = context;
    MUST(length == 1 && its->readers[no] == 0 && its->writers[no]++ == 0);
    uint64_t drawn = draw(32);
    if (are_refusing && drawn < 4) return refuse(its, no, drawn == 0 ? ENOSPC : EAGAIN);
    if (its == disks && pthread_mutex_trylock(&its->locks[no]) != 0) return refuse(its, no, EAGAIN);
    its->asked[no] = *(const uint8_t *)bytes;
    yield_now_and_then();
    MUST(its->asked[no] == *(const uint8_t *)bytes);
    return 0;
}

static int write_disk(void *context, uint64_t no, const void *bytes, size_t length) {
    struct disk *its = context;
    MUST(length == 1 && its->asked[no] == *(const uint8_t *)bytes && its->readers[no] == 0);
    yield_now_and_then();
    if (are_refusing && draw(32) == 0) return EIO;
    its->bytes[no] = *(const uint8_t *)bytes;
    return 0;
}

static void tell_disk(void *context, uint64_t no, int error) {
    struct disk *its = context;
    (void)error;
    if (its == disks) MUST(pthread_mutex_unlock(&its->locks[no]) == 0);
    MUST(--its->writers[no] == 0);
}

static int sync_disk(void *context) { return context == NULL; }

static const warm_device_ops disk_calls = {.size = sizeof disk_calls,
    .read = read_disk,
    .write = write_disk,
    .sync = sync_disk,
    .before_write = ask_disk,
    .after_write = tell_disk};

static warm_device disk_at(uint16_t dev) {
    return (warm_device){.pages = PAGES, .ops = &disk_calls, .context = &disks[dev]};
}

/* Under the page's lock. A page of the first device is changed by a pointer, too. */
static void change_page(warm *handle, warm_page page, warm_slot slot, uint8_t byte) {
    uint8_t *bytes;
    if (byte == 0) {
        warm_slot other;
        OK(warm_pin_zeroed(handle, page, &other));
        OK(warm_unpin(handle, other));
    } else if (page.dev == 0 && byte % 2 == 0) {
        OK(warm_bytes_mut(handle, slot, &bytes));
        *bytes = byte;
        if (byte % 4 == 0) OK(warm_mark_dirty(handle, slot));
    } else {
        OK(warm_write(handle, slot, 0, &byte, 1));
    }
}

static bool is_refused(int status) {
    return status == WARM_ALL_PINNED || status == WARM_EVICT_FAULT;
}

static void use_page(warm *handle, warm_page page) {
    struct disk *its = &disks[page.dev];
    warm_slot slot;
    uint8_t byte;
    int status = warm_pin(handle, page, &slot);
    MUST(status == WARM_OK || is_refused(status));
    if (status != WARM_OK) return;
    pthread_mutex_lock(&its->locks[page.no]);
    OK(warm_read(handle, slot, 0, &byte, 1));
    MUST(byte == its->model[page.no]);
    if (page.dev == DISKS - 1) {
        if (draw(2) == 0) OK(warm_mark_dirty(handle, slot));
    } else if (draw(2) == 0) {
        its->model[page.no] = (uint8_t)draw(256);
        change_page(handle, page, slot, its->model[page.no]);
    }
    pthread_mutex_unlock(&its->locks[page.no]);
    OK(warm_unpin(handle, slot));
}

static int write_back(warm *handle, warm_page page) {
    size_t left;
    bool written;
    switch (draw(4)) {
    case 0: return warm_write_back_all(handle);
    case 1: return warm_flush_device(handle, page.dev);
    case 2: return warm_write_back_some(handle, 1 + draw(4), &left);
    default: return warm_write_back_page(handle, page, &written);
    }
}

static void *work(void *of) {
    warm *handle = of;
    for (int round = 0; round < ROUNDS; round++) {
        const warm_page page = {.no = draw(PAGES), .dev = (uint16_t)draw(DISKS)};
        const warm_device itself = disk_at(DISKS - 1);
        uint64_t what = draw(32);
        int status = WARM_OK;
        if (what < 20) use_page(handle, page);
        else if (what < 22) status = warm_prefetch(handle, page);
        else if (what < 28) status = write_back(handle, page);
        else if (what < 31) status = warm_forget_pages(handle, DISKS - 1, page.no);
        else status = warm_replace(handle, DISKS - 1, &itself);
        MUST(status == WARM_OK || is_refused(status) || status == WARM_PINNED ||
             status == WARM_WRITE_FAULT || status == WARM_SKIPPED);
    }
    OK(warm_close(handle));
    return NULL;
}

static void play_threads(size_t shards, size_t frames) {
    warm attached[THREADS] = {{0}}, handle = {0};
    warm_device made[DISKS];
    pthread_t threads[THREADS];
    are_refusing = true;
    for (uint16_t dev = 0; dev < DISKS; dev++) made[dev] = disk_at(dev);
    OK(open_with(&handle, 1, shards, frames, made, DISKS));
    for (int at = 0; at < THREADS; at++) {
        OK(warm_attach(&handle, &attached[at]));
        MUST(pthread_create(&threads[at], NULL, work, &attached[at]) == 0);
    }
    for (int at = 0; at < THREADS; at++) MUST(pthread_join(threads[at], NULL) == 0);
    no_pins(&handle);
    are_refusing = false;
    OK(warm_write_back_all(&handle));
    for (int dev = 0; dev < DISKS; dev++)
        MUST(memcmp(disks[dev].bytes, disks[dev].model, PAGES) == 0);
    OK(warm_close(&handle));
    nothing_left();
}

int main(void) {
    alarm(600);
    for (int dev = 0; dev < DISKS; dev++) {
        for (int no = 0; no < PAGES; no++) {
            disks[dev].bytes[no] = disks[dev].model[no] = (uint8_t)(no + 1);
            MUST(pthread_mutex_init(&disks[dev].locks[no], NULL) == 0);
        }
    }
    play_threads(1, 1);
    play_threads(1, 4);
    play_threads(2, 8);
    puts("writing_threads_test: as expected");
    return 0;
}

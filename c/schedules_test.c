/*
 * Tests pins, reads, writes and write-backs that meet in any order, over fake_library.h: up to five
 * threads make random calls of a replica, in schedules that are drawn (schedules.h). The devices
 * fail and skip pages by chance, and know all bytes that each page had: so what is read, written
 * and durable is compared at each call. must-fail/ has faults that this finds.
 *
 *     schedules_test plain            plays the schedules 1 to 2,000, in seconds
 *     schedules_test FIRST COUNT      plays these; one that fails prints its number
 */
#include "schedules.h"

enum { PAGES = 6, ROUNDS = 25, KEPT = 2, NOBODY = -1, SCHEDULES = 2000 };

/* What the devices do: the first has a latch for each page, which before_write tries; the second is
 * asked nothing before a write; the last one is replaced and its pages are forgotten: they have the
 * number of their storage. */
enum { LATCHED, PLAIN, ASKED, REPLACED, DISKS };

/* Each change of a page is a version, from 1 on. Its byte is one more, unless the page is set to
 * zeros. */
typedef struct page {
    int begun, done; /* the versions of the last change, and of the last one that is over */
    int zeros;       /* the version that is zeros, or 0 */
    int latch;       /* the thread that has it, or NOBODY */
} page;

/* Where the pages of a device are, and what is under way there. */
typedef struct storage {
    int dev, number, calls;
    bool is_used;
    uint8_t bytes[PAGES], asked[PAGES];
    int written[PAGES], durable[PAGES]; /* the versions that are so */
    int readers[PAGES], writers[PAGES], asker[PAGES];
} storage;

static page pages[DISKS][PAGES];
static storage disks[DISKS + 1];
static int replaced_by; /* the storage of the last device */
static bool fails, fails_syncs, is_replacing, has_limits;
static long written;
static warm opener, attached[THREADS];

/* If all threads change and write one page alone: how many writes of it have ended while a
 * write-back of a thread waited; NOBODY if it is in none. */
static bool is_hot;
static int waited[THREADS];
static const node_page hot = {.dev = PLAIN};

/* If threads want frames while one page is written: how many they are, and how many have one, for
 * all of which the write waits; whether it has begun; how many are to hold pages, and do. */
static int wanters, got, holders, holding;
static bool is_being_written;

static uint8_t byte_of(const page *of, int version) {
    MUST(version < 255);
    return version > 0 && version == of->zeros ? 0 : (uint8_t)(version + 1);
}

static int version_of(const page *of, uint8_t byte) {
    int version = byte == 0 ? of->zeros : byte - 1;
    MUST(version <= of->begun && byte_of(of, version) == byte);
    return version;
}

static void take_latch(page *of) {
    while (of->latch != NOBODY) await_wake(of);
    of->latch = running;
}

static void release_latch(page *of) {
    MUST(of->latch == running);
    of->latch = NOBODY;
    wake(of);
}

/* ---- the devices ---- */

static storage *begin_call(void *context) {
    storage *of = context;
    MUST(of->is_used);
    of->calls++;
    may_switch();
    return of;
}

static int end_call(storage *of, int error) {
    may_switch();
    of->calls--;
    return error;
}

/* Nobody writes what is read. */
static int read_page(void *context, uint64_t no, void *into, size_t length) {
    storage *of = begin_call(context);
    MUST(length == 1 && held == 0 && of->readers[no]++ == 0 && of->writers[no] == 0);
    *(uint8_t *)into = of->bytes[no];
    may_switch();
    MUST(--of->readers[no] == 0 && of->writers[no] == 0);
    return end_call(of, fails && drawn(40) == 0 ? EIO : 0);
}

static storage *begin_write_of(void *context, uint64_t no) {
    storage *of = begin_call(context);
    MUST(of->readers[no] == 0 && of->writers[no]++ == 0);
    return of;
}

/* No write-back waits for more than two writes of a page. */
static void count_waits(void) {
    const void *over = &shard_of(opener.at, hot)->call_over;
    for (int at = 0; at < thread_count; at++)
        if (waited[at] != NOBODY && threads[at].awaits == over) MUST(++waited[at] <= 2);
}

static int end_write_of(storage *of, uint64_t no, int error) {
    MUST(--of->writers[no] == 0);
    if (is_hot) count_waits();
    return end_call(of, error);
}

static int refusal(void) {
    uint64_t chance = drawn(24);
    return !fails || chance > 2 ? 0 : chance == 0 ? ENOSPC : EAGAIN;
}

/* What is asked about does not change meanwhile. */
static int may_write_page(void *context, uint64_t no, const void *bytes, size_t length) {
    storage *of = begin_write_of(context, no);
    page *its = &pages[of->dev][no];
    int error = of->dev == LATCHED && its->latch != NOBODY ? EAGAIN : refusal();
    MUST(length == 1);
    if (error != 0) return end_write_of(of, no, error);
    if (of->dev == LATCHED) its->latch = running;
    of->asker[no] = running;
    of->asked[no] = *(const uint8_t *)bytes;
    may_switch();
    may_switch();
    MUST(of->asked[no] == *(const uint8_t *)bytes);
    return 0;
}

/* A write that fails may leave anything on the device. No version is written behind a later one. */
static int put_version(storage *of, uint64_t no, uint8_t byte) {
    int version = version_of(&pages[of->dev][no], byte);
    int error = fails && drawn(25) == 0 ? EIO : 0;
    MUST(version >= of->written[no]);
    of->bytes[no] = error == 0 ? byte : 0xEE;
    if (error == 0) of->written[no] = version;
    return error;
}

static int write_asked(void *context, uint64_t no, const void *bytes, size_t length) {
    storage *of = context;
    uint8_t byte = *(const uint8_t *)bytes;
    MUST(length == 1 && of->is_used && of->asker[no] == running && of->asked[no] == byte);
    may_switch();
    may_switch();
    MUST(of->writers[no] == 1 && byte == *(const uint8_t *)bytes);
    MUST(of->dev != REPLACED || byte == of->number);
    int error = of->dev == REPLACED ? 0 : put_version(of, no, byte);
    written += error == 0;
    return error;
}

static void await_wanters(void) {
    is_being_written = true;
    wake(&is_being_written);
    while (got < wanters) await_wake(&got);
}

static int write_unasked(void *context, uint64_t no, const void *bytes, size_t length) {
    storage *of = begin_write_of(context, no);
    if (wanters > 0 && no == 0) await_wanters();
    of->asker[no] = running;
    of->asked[no] = *(const uint8_t *)bytes;
    return end_write_of(of, no, write_asked(context, no, bytes, length));
}

static void page_was_written(void *context, uint64_t no, int error) {
    storage *of = context;
    (void)error;
    MUST(of->asker[no] == running);
    of->asker[no] = NOBODY;
    if (of->dev == LATCHED) release_latch(&pages[LATCHED][no]);
    end_write_of(of, no, 0);
}

/* What was written before it is durable after it. */
static int sync_disk(void *context) {
    storage *of = begin_call(context);
    int before[PAGES];
    memcpy(before, of->written, sizeof before);
    may_switch();
    int error = end_call(of, fails_syncs && drawn(6) == 0 ? EIO : 0);
    for (int no = 0; no < PAGES && error == 0; no++)
        if (of->durable[no] < before[no]) of->durable[no] = before[no];
    return error;
}

static warm_device device_over(storage *of) {
    static const warm_device_ops asked = {.size = sizeof asked,
        .read = read_page,
        .write = write_asked,
        .sync = sync_disk,
        .before_write = may_write_page,
        .after_write = page_was_written};
    static const warm_device_ops unasked = {.size = sizeof unasked,
        .read = read_page,
        .write = write_unasked,
        .sync = sync_disk};
    return (warm_device){
        .pages = PAGES, .ops = of->dev == PLAIN ? &unasked : &asked, .context = of};
}

/* ---- the calls of a thread ---- */

/* A page that a thread has pinned. */
typedef struct kept {
    warm_page page;
    warm_slot slot;
} kept;

typedef struct user {
    warm *handle;
    kept all[KEPT];
    size_t count;
} user;

static page *page_of_kept(const kept *its) { return &pages[its->page.dev][its->page.no]; }

static bool may_be_refused(int status) {
    return status == WARM_OK || status == WARM_ALL_PINNED || status == WARM_EVICT_FAULT ||
           status == WARM_READ_FAULT || (status == WARM_BUSY && has_limits);
}

/* A call that changes a page that the thread has pinned is refused only if its time is over:
 * nothing has changed then. */
#define UNTIL_OK(call)                                                  \
    for (int status = WARM_BUSY; status != WARM_OK;) {                  \
        status = (call);                                                \
        MUST(status == WARM_OK || (status == WARM_BUSY && has_limits)); \
    }

/* A pinned page has the bytes of its last change, or of the device that it is on. */
static void look_at_bytes(warm *by, const kept *its) {
    page *of = page_of_kept(its);
    uint8_t byte;
    take_latch(of);
    OK(warm_read(by, its->slot, 0, &byte, 1));
    if (its->page.dev != REPLACED) MUST(byte == byte_of(of, of->done));
    else MUST(byte == disks[replaced_by].number || is_replacing);
    release_latch(of);
}

static void write_in_place(page *of, uint8_t *bytes) {
    int version = ++of->begun;
    may_switch();
    *bytes = byte_of(of, version);
    may_switch();
}

static void fill_with_zeros(warm *by, const kept *its, page *of) {
    warm_slot slot;
    of->zeros = ++of->begun;
    UNTIL_OK(warm_pin_zeroed(by, its->page, &slot));
    OK(warm_unpin(by, slot));
}

static void write_byte(warm *by, const kept *its, page *of) {
    int version = ++of->begun;
    uint8_t byte = byte_of(of, version);
    UNTIL_OK(warm_write(by, its->slot, 0, &byte, 1));
}

/* Changes a page under its latch. By a pointer alone if before_write tries that latch. */
static void change_page(warm *by, const kept *its) {
    page *of = page_of_kept(its);
    uint64_t way = drawn(its->page.dev == LATCHED ? 5 : 3);
    uint8_t *bytes;
    if (its->page.dev == REPLACED) {
        UNTIL_OK(warm_mark_dirty(by, its->slot));
        return;
    }
    if (way == 4) UNTIL_OK(warm_bytes_mut(by, its->slot, &bytes));
    take_latch(of);
    if (way < 2 || (way == 2 && of->zeros != 0)) write_byte(by, its, of);
    else if (way == 2) fill_with_zeros(by, its, of);
    if (way == 3) UNTIL_OK(warm_bytes_mut(by, its->slot, &bytes));
    if (way > 2) write_in_place(of, bytes);
    if (way == 4) UNTIL_OK(warm_mark_dirty(by, its->slot));
    of->done = of->begun;
    release_latch(of);
}

/* Pins a page, by zeros if it had none before: a pin that is refused changes nothing. */
static int pin_any(warm *by, kept *its) {
    page *of = page_of_kept(its);
    if (its->page.dev == REPLACED || drawn(12) != 0)
        return warm_pin(by, its->page, &its->slot);
    take_latch(of);
    int status, before = of->zeros;
    if (before == 0) of->zeros = ++of->begun;
    status = before == 0 ? warm_pin_zeroed(by, its->page, &its->slot)
                         : warm_pin(by, its->page, &its->slot);
    if (before == 0 && status != WARM_OK) {
        of->zeros = 0;
        of->begun--;
    }
    of->done = of->begun;
    release_latch(of);
    return status;
}

static void use_page(user *its, warm_page which) {
    kept made = {.page = which};
    int status = pin_any(its->handle, &made);
    MUST(may_be_refused(status));
    if (status != WARM_OK) return;
    look_at_bytes(its->handle, &made);
    if (drawn(2) == 0) change_page(its->handle, &made);
    if (its->count < KEPT && drawn(3) == 0) its->all[its->count++] = made;
    else OK(warm_unpin(its->handle, made.slot));
}

static void let_go(user *its) {
    kept last = its->all[--its->count];
    look_at_bytes(its->handle, &last);
    if (drawn(2) == 0) change_page(its->handle, &last);
    OK(warm_unpin(its->handle, last.slot));
}

/* After a write-back that succeeds all changes are on their devices that were over before it. */
static void write_back(warm *by, warm_page which) {
    int done[DISKS][PAGES];
    size_t left;
    bool is_written;
    uint64_t way = drawn(5);
    for (int dev = 0; dev < DISKS; dev++)
        for (int no = 0; no < PAGES; no++) done[dev][no] = pages[dev][no].done;
    waited[running] = 0;
    int status = way == 0   ? warm_write_back_all(by)
                 : way == 1 ? warm_flush_device(by, which.dev)
                 : way == 2 ? warm_write_back_some(by, SIZE_MAX, &left)
                 : way == 3 ? warm_write_back_page(by, which, &is_written)
                            : warm_write_back_some(by, drawn(3), &left);
    waited[running] = NOBODY;
    MUST(status == WARM_OK || status == WARM_WRITE_FAULT || status == WARM_SKIPPED);
    for (int dev = 0; dev < REPLACED && status == WARM_OK; dev++) {
        for (int no = 0; no < PAGES; no++) {
            bool is_one = which.dev == dev && (way == 1 || which.no == (uint64_t)no);
            const int *version = way < 2 ? disks[dev].durable : disks[dev].written;
            MUST(way == 4 || (way % 2 == 1 && !is_one) || version[no] >= done[dev][no]);
        }
    }
}

/* The old device is let go when the call returns, or the new one. */
static void replace_device(warm *by) {
    storage *old = &disks[replaced_by], *new = &disks[REPLACED + DISKS - replaced_by];
    warm_device to = device_over(new);
    if (is_replacing) return;
    is_replacing = new->is_used = true;
    int status = warm_replace(by, REPLACED, &to);
    MUST(status == WARM_OK || status == WARM_PINNED || status == WARM_WRITE_FAULT);
    storage *let_go = status == WARM_OK ? old : new;
    MUST(let_go->calls == 0);
    let_go->is_used = is_replacing = false;
    if (status == WARM_OK) replaced_by = (int)(new - disks);
}

/* A page that the thread has pinned is no victim. */
static void look_at_victims(const user *its) {
    warm_page next[8];
    size_t count;
    OK(warm_victims(its->handle, drawn(((opened *)its->handle->at)->count), next, 8, &count));
    for (size_t at = 0; at < count; at++)
        for (size_t own = 0; own < its->count; own++)
            MUST(next[at].dev != its->all[own].page.dev || next[at].no != its->all[own].page.no);
}

static void look_at_counts(warm *by, warm_page which) {
    warm_counters counters;
    bool is_resident;
    OK(warm_counts(by, &counters));
    OK(warm_resident(by, which, &is_resident));
}

static void make_any_call(user *its) {
    warm_page which = {.dev = (uint16_t)drawn(DISKS), .no = drawn(PAGES)};
    uint64_t way = drawn(32);
    int status = WARM_OK;
    if (is_hot) {
        which = page_out(hot);
        way = 8 + way % 20;
    }
    if (way < 16) use_page(its, which);
    else if (way < 22 && its->count > 0) let_go(its);
    else if (way < 24) status = warm_prefetch(its->handle, which);
    else if (way < 28) write_back(its->handle, which);
    else if (way == 28) status = warm_forget_pages(its->handle, REPLACED, which.no);
    else if (way == 29) replace_device(its->handle);
    else if (way == 30) look_at_victims(its);
    else look_at_counts(its->handle, which);
    MUST(may_be_refused(status) || (way == 28 && status == WARM_PINNED));
}

/* ---- threads ---- */

static bool is_lonely;             /* the opener is a thread, and at times the only one */
static bool wants_handle[THREADS]; /* a thread that has none, and waits until it is attached */

/* A thread may end with pins, and its handle is abandoned. */
static void end_user(user *its) {
    bool abandons = seed % 8 == 6 && its->handle != &opener;
    while (its->count > 0 && !abandons) let_go(its);
    its->count = 0;
    if (its->handle != &opener) OK(abandons ? warm_abandon(its->handle) : warm_close(its->handle));
}

static void attach_one(int at) {
    OK(warm_attach(&opener, &attached[at]));
    if (has_limits) OK(warm_limit_waits(&attached[at], (uint64_t)at % 3));
}

static void attach_some(void) {
    for (int at = 1; at < thread_count; at++) {
        if (!wants_handle[at] || drawn(2) == 0) continue;
        attach_one(at);
        wants_handle[at] = false;
    }
}

static void play_thread(void) {
    bool is_opener = is_lonely && running == 0;
    user its = {.handle = is_opener ? &opener : &attached[running]};
    for (int round = 0; round < ROUNDS; round++) {
        if (is_opener && round % 3 == 0) attach_some();
        if (!wants_handle[running]) make_any_call(&its);
        if (is_lonely && !is_opener && !wants_handle[running] && drawn(4) == 0) {
            end_user(&its);
            wants_handle[running] = true;
        }
        switch_threads();
    }
    if (!wants_handle[running]) end_user(&its);
    end_thread();
}

static void draw_schedule(void) {
    draws = seed * 0x9E3779B97F4A7C15u + 1;
    for (int at = 0; at < 10; at++) drawn(2);
    fails = seed % 3 != 0;
    fails_syncs = seed % 16 == 5;
    wakes_for_nothing = seed % 4 == 1;
    is_lonely = seed % 5 == 0;
    is_hot = seed % 7 == 3;
    has_limits = seed % 6 == 4;
    is_replacing = false;
    written = 0;
    memset(pages, 0, sizeof pages);
    memset(disks, 0, sizeof disks);
    for (int at = 0; at < THREADS; at++) waited[at] = NOBODY;
    for (int dev = 0; dev < DISKS; dev++)
        for (int no = 0; no < PAGES; no++) pages[dev][no].latch = NOBODY;
    for (int at = 0; at <= DISKS; at++) {
        disks[at].dev = at < DISKS ? at : REPLACED;
        disks[at].number = at >= REPLACED ? 100 + at : 1;
        disks[at].is_used = at < DISKS;
        memset(disks[at].bytes, disks[at].number, PAGES);
    }
    replaced_by = REPLACED;
}

static void open_drawn(void) {
    size_t shards = 1 + drawn(2), frames = shards * (1 + drawn(4));
    warm_device made[DISKS];
    for (int dev = 0; dev < DISKS; dev++) made[dev] = device_over(&disks[dev]);
    OK(open_with(&opener, 1, shards, frames, made, DISKS));
}

/* Nothing is pinned, under way, or counted wrongly. */
static void nothing_under_way(void) {
    opened *its = opener.at;
    long by_nodes = 0;
    MUST(open_handles(its->of) == 1);
    no_pins(&opener);
    for (size_t number = 0; number < its->count; number++) {
        shard *in = &its->shards[number];
        node_counters counted = {0};
        OK(node_counts(&in->node, &counted));
        MUST(in->table.pinned == 0 && in->reads == NULL && in->table.filled == counted.resident);
        by_nodes += (long)node_of(&opener, number)->writes;
    }
    MUST(by_nodes == written);
}

/* Once nothing fails, each page is durable as it was last changed. */
static void write_and_close(void) {
    fails = false;
    bool is_all = !fails_syncs;
    fails_syncs = false;
    int status = warm_write_back_all(&opener);
    MUST(status == WARM_OK || !is_all);
    for (int dev = 0; dev < REPLACED && is_all; dev++) {
        for (int no = 0; no < PAGES; no++) {
            const page *its = &pages[dev][no];
            MUST(its->latch == NOBODY && disks[dev].bytes[no] == byte_of(its, its->done) &&
                 disks[dev].durable[no] == its->done);
        }
    }
    OK(is_all ? warm_close(&opener) : warm_abandon(&opener));
    nothing_left();
}

static void play_schedule(void) {
    draw_schedule();
    open_drawn();
    int count = 2 + (int)drawn(THREADS - 1);
    for (int at = 0; at < count; at++) {
        wants_handle[at] = is_lonely && at > 0;
        if (!is_lonely) attach_one(at);
    }
    run_threads(count, play_thread);
    for (int at = 0; at < count; at++) OK(warm_close(&attached[at]));
    nothing_under_way();
    write_and_close();
}

/* ---- frames that are wanted while a page is written ---- */

static warm_page plain_page(int no) { return (warm_page){.dev = PLAIN, .no = (uint64_t)no}; }

/* A dirty page, and clean ones that have records. */
static void fill_frames(void) {
    kept dirty = {.page = plain_page(0)};
    page *of = page_of_kept(&dirty);
    OK(warm_pin(&opener, dirty.page, &dirty.slot));
    write_byte(&opener, &dirty, of);
    of->done = of->begun;
    OK(warm_unpin(&opener, dirty.slot));
    for (int time = 0; time < 2; time++)
        for (int no = 1; no <= holders; no++) read_from(&opener, plain_page(no));
}

static void hold_for_a_while(warm *by) {
    warm_slot slot;
    OK(warm_pin(by, plain_page(running), &slot));
    MUST(((opened *)by->at)->used != 0);
    holding++;
    wake(&holding);
    for (uint64_t left = drawn(20); left > 0; left--) switch_threads();
    if (drawn(4) == 0) OK(warm_abandon(by));
    else OK(warm_unpin(by, slot));
}

static void zero_page(warm *by, warm_page which, warm_slot *slot) {
    page *of = &pages[PLAIN][which.no];
    of->done = of->zeros = ++of->begun;
    OK(warm_pin_zeroed(by, which, slot));
}

/* It has its frame before the write is over, of a page that is let go. */
static void want_frame(warm *by) {
    warm_page which = plain_page(running);
    warm_slot slot;
    uint64_t way = drawn(3);
    while (holding < holders) await_wake(&holding);
    while (!is_being_written) await_wake(&is_being_written);
    if (way == 0) OK(warm_prefetch(by, which));
    else if (way == 1) zero_page(by, which, &slot);
    else OK(warm_pin(by, which, &slot));
    got++;
    wake(&got);
    while (got < wanters) await_wake(&got);
    if (way > 0) OK(warm_unpin(by, slot));
}

static void play_wanting(void) {
    warm *by = &attached[running];
    bool is_written;
    if (running == 0) OK(warm_write_back_page(by, plain_page(0), &is_written));
    else if (running <= holders) hold_for_a_while(by);
    else want_frame(by);
    end_thread();
}

/* Nobody waits by chance or for some time alone, so that a wake-up that is missed is seen. */
static void play_frames(void) {
    draw_schedule();
    fails = fails_syncs = wakes_for_nothing = is_hot = has_limits = is_being_written = false;
    got = holding = 0;
    holders = 1 + (int)drawn(2);
    wanters = 1 + (int)drawn((uint64_t)holders);
    system_orders = drawn(2) == 0;
    warm_device made[DISKS];
    for (int dev = 0; dev < DISKS; dev++) made[dev] = device_over(&disks[dev]);
    OK(open_with(&opener, 1, 1, 1 + (size_t)holders, made, DISKS));
    for (int at = 0; at <= holders + wanters; at++) attach_one(at);
    fill_frames();
    run_threads(1 + holders + wanters, play_wanting);
    for (int at = 0; at < THREADS; at++) OK(warm_close(&attached[at]));
    wanters = 0;
    system_orders = true;
    nothing_under_way();
    write_and_close();
}

/* If a test fails, exit is called. */
static void say_seed(void) {
    if (seed != 0) fprintf(stderr, "in schedule %llu\n", (unsigned long long)seed);
}

int main(int count, char **words) {
    uint64_t first = 1, schedules = SCHEDULES;
    if (count == 3) first = strtoull(words[1], NULL, 10), schedules = strtoull(words[2], NULL, 10);
    atexit(say_seed);
    for (uint64_t played = 0; played < schedules; played++) {
        seed = first + played;
        play_schedule();
        play_frames();
    }
    seed = 0;
    for (int at = 0; at < THREADS; at++) free(threads[at].stack);
    printf("schedules_test: as expected, %ld switches\n", switches);
    return 0;
}

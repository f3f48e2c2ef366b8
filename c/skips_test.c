/*
 * Tests what write_back.c and writes.c do with pages that before_write skips, over fake_library.h:
 * they are passed over, and stay dirty; and latches of pages, by which they are skipped.
 */
#include "own_devices.h"

/* ---- pages that are skipped ---- */

static bool is_dirty_in(warm *handle, uint64_t no) {
    opened *of = handle->at;
    const fake *its = node_of(handle, no % of->count);
    for (size_t at = 0; at < its->frames; at++) {
        if (its->at[at].is_in && its->at[at].page.no == no && its->at[at].page.dev == 0)
            return its->at[at].is_dirty;
    }
    MUST(false);
    return false;
}

/* The set of pages from 0 on that are dirty. */
static uint64_t dirty_set(warm *handle, uint64_t count) {
    uint64_t set = 0;
    for (uint64_t no = 0; no < count; no++) set |= (uint64_t)is_dirty_in(handle, no) << no;
    return set;
}

/* A fake node's counts of a device are fixed numbers; what is skipped is counted beside them if it
 * was not the node that asked for it. */
static void has_written(warm *handle, uint64_t writes, uint64_t skips, uint64_t flushes) {
    warm_device_counters of_device;
    warm_counters counters;
    OK(warm_counts(handle, &counters));
    OK(warm_device_counts(handle, 0, &of_device));
    size_t count = ((opened *)handle->at)->count;
    MUST(counters.written_back == writes && of_device.flushes == flushes);
    MUST(of_device.failures == count + skips && of_device.writes == 2 * count + skips);
}

/* A write-back of all goes on behind what is skipped; that stays dirty, and unpinned. */
static void skip_some(
    size_t shards, const warm_device_ops *ops, uint64_t skips, bool by_device, bool is_shared) {
    enum { MANY = 32 };
    own its = {.skips = skips};
    const warm_device made[] = {own_device_of(&its, ops, 50), {.pages = PAGES, .fd = 51}};
    warm handle = {0}, other = {0};
    OK(open_with(&handle, 1, shards, FAKE_FRAMES * (shards > 1 ? 2 : 1), made, 2));
    if (is_shared) OK(warm_attach(&handle, &other));
    write_each(&handle, 0, MANY);
    syncs = 0;
    put = 0;
    int status = by_device ? warm_flush_device(&handle, 0) : warm_write_back_all(&handle);
    uint64_t all = (UINT64_C(1) << MANY) - 1, skipped = skips & all;
    MUST(status == (skipped != 0 ? WARM_SKIPPED : WARM_OK));
    int skipped_count = __builtin_popcountll(skipped), written = MANY - skipped_count;
    MUST(dirty_set(&handle, MANY) == skipped && its.afters == written && its.asked == all &&
         its.befores == MANY);
    MUST((ops == &hooks ? put : its.writes) == written);
    has_written(&handle, (uint64_t)written, is_shared ? (uint64_t)skipped_count : 0, written > 0);
    no_pins(&handle);
    MUST((ops == &hooks ? syncs : its.syncs) == (written > 0));
    if (skipped != 0)
        must_have_failed(&handle, (uint64_t)__builtin_ctzll(skipped), 0, WARM_FAILED_WRITE, EAGAIN);
    size_t left;
    OK(warm_write_back_some(&handle, 0, &left));
    MUST(left == (size_t)skipped_count);
    if (is_shared) OK(warm_close(&other));
    MUST(warm_close(&handle) == (skipped != 0 ? WARM_DIRTY : WARM_OK));
    its.skips = 0;
    if (skipped != 0) OK(warm_write_back_all(&handle));
    if (skipped != 0) OK(warm_close(&handle));
    MUST(its.told == all && its.inside == 0);
    nothing_left();
}

static void test_skipping(void) {
    static const uint64_t sets[] = {0, 1, UINT64_C(1) << 31, 6, 0x1111, 0xFFFF, 0x80000001,
        0xFFFF0000, 0x1FFFF, 0xFFFFFFFF};
    for (size_t at = 0; at < sizeof sets / sizeof *sets; at++) {
        for (int way = 0; way < 8; way++) {
            const warm_device_ops *ops = way % 2 == 0 ? &all_calls : &hooks;
            skip_some(1, ops, sets[at], way / 2 % 2, way > 3);
            skip_some(4, ops, sets[at], way / 2 % 2, way > 3);
        }
    }
}

/* A portion has as many pages as it says, but for what is skipped, and what is left counts that. */
static void skip_portions(size_t shards, bool is_shared) {
    enum { MANY = 12 };
    own its = {.skips = 0x5}; /* pages 0 and 2 */
    const warm_device device = own_device_of(&its, &all_calls, 50);
    warm handle = {0}, other = {0};
    size_t left = 77;
    bool written = true;
    OK(open_with(&handle, 1, shards, 16 * shards, &device, 1));
    if (is_shared) OK(warm_attach(&handle, &other));
    write_each(&handle, 0, MANY);
    OK(warm_write_back_some(&handle, 0, &left));
    MUST(left == MANY && its.befores == 0);
    MUST(warm_write_back_some(&handle, 3, &left) == WARM_SKIPPED && left == MANY &&
         its.writes == 3);
    must_have_failed(&handle, 0, 0, WARM_FAILED_WRITE, EAGAIN);
    MUST(__builtin_popcountll(dirty_set(&handle, MANY)) == MANY - 3 &&
         is_dirty_in(&handle, 0) && is_dirty_in(&handle, 2));
    left = 77;
    MUST(warm_write_back_some(&handle, SIZE_MAX, &left) == WARM_SKIPPED && left == 77 &&
         its.writes == MANY - 2);
    MUST(dirty_set(&handle, MANY) == 5 && its.syncs == 0);
    has_written(&handle, MANY - 2, is_shared ? (uint64_t)its.befores - (MANY - 2) : 0, 0);
    MUST(warm_write_back_page(&handle, page_at(2), &written) == WARM_SKIPPED && written &&
         dirty_set(&handle, MANY) == 5);
    must_have_failed(&handle, 2, 0, WARM_FAILED_WRITE, EAGAIN);
    its.skips = 1; /* of several shards, that of page 2 is the first now, and page 0 is not met */
    int status = warm_write_back_some(&handle, 1, &left);
    MUST(shards == 1 ? status == WARM_SKIPPED && left == 77 : status == WARM_OK && left == 1);
    MUST(dirty_set(&handle, MANY) == 1);
    its.skips = 0;
    OK(warm_write_back_page(&handle, page_at(0), &written));
    MUST(written && !is_dirty_in(&handle, 0) && its.syncs == 0);
    OK(warm_write_back_page(&handle, page_at(0), &written));
    MUST(!written);
    OK(warm_write_back_some(&handle, SIZE_MAX, &left));
    MUST(left == 0 && dirty_set(&handle, MANY) == 0);
    no_pins(&handle);
    if (is_shared) OK(warm_close(&other));
    OK(warm_close(&handle));
    MUST(its.syncs == 1);
    nothing_left();
}

/* A failure comes before a page that was skipped, whichever is met first: the call says so, and
 * which it was. */
static void test_skips_and_failures(void) {
    for (int is_first = 0; is_first < 2; is_first++) {
        own its[2] = {{.skips = is_first ? 0 : 1, .write_error = is_first ? EIO : 0},
            {.skips = is_first ? 1 : 0, .write_error = is_first ? 0 : EIO}};
        const warm_device made[] = {
            own_device_of(&its[0], &all_calls, 0), own_device_of(&its[1], &all_calls, 0)};
        warm handle = {0};
        size_t left;
        OK(open_with(&handle, 1, 1, 16, made, 2));
        write_each(&handle, 0, 2);
        write_each(&handle, 1, 2);
        uint16_t bad = is_first ? 0 : 1;
        MUST(warm_write_back_all(&handle) == WARM_WRITE_FAULT);
        must_have_failed(&handle, 0, bad, WARM_FAILED_WRITE, EIO);
        MUST(its[bad].syncs == 0 && its[1 - bad].syncs == 1 && its[1 - bad].bytes[1] == 'a' &&
             its[1 - bad].bytes[0] == 0);
        MUST(warm_write_back_some(&handle, SIZE_MAX, &left) == WARM_WRITE_FAULT);
        MUST(warm_flush_device(&handle, bad) == WARM_WRITE_FAULT &&
             warm_flush_device(&handle, 1 - bad) == WARM_SKIPPED);
        its[0].write_error = its[1].write_error = 0;
        its[bad].sync_error = ENOSPC; /* a flush that fails, behind a page that was skipped */
        MUST(warm_write_back_all(&handle) == WARM_WRITE_FAULT);
        must_have_failed(&handle, 0, bad, WARM_FAILED_FLUSH, ENOSPC);
        MUST(warm_flush_device(&handle, bad) == WARM_WRITE_FAULT && its[bad].syncs == 1);
        its[bad].write_error = EIO; /* a write that fails comes before a flush that does */
        its[1 - bad].sync_error = ENOSPC;
        for (uint16_t dev = 0; dev < 2; dev++)
            write_to(&handle, (warm_page){.no = 1, .dev = dev}, 'b');
        int before = its[1 - bad].syncs;
        MUST(warm_write_back_all(&handle) == WARM_WRITE_FAULT && its[1 - bad].syncs == before + 1);
        must_have_failed(&handle, 1, bad, WARM_FAILED_WRITE, EIO);
        OK(warm_abandon(&handle));
        nothing_left();
    }
}

/* Two pages are skipped, three writes of the other device fail, and then a sync: a call says how
 * many it met, of which not each is noted. */
static void count_failures_of(size_t shards, bool is_shared) {
    own its[2] = {{.skips = 10}, {.write_error = EIO}};
    const warm_device made[] = {
        own_device_of(&its[0], &all_calls, 0), own_device_of(&its[1], &all_calls, 0)};
    warm handle = {0}, other = {0};
    size_t left;
    bool written;
    OK(open_with(&handle, 1, shards, 16 * shards, made, 2));
    if (is_shared) OK(warm_attach(&handle, &other));
    write_each(&handle, 0, 6);
    write_each(&handle, 1, 3);
    MUST(warm_write_back_some(&handle, SIZE_MAX, &left) == WARM_WRITE_FAULT);
    MUST(failures(&handle) == 5 && its[0].writes == 4 && its[1].writes == 3);
    MUST(warm_write_back_page(&handle, page_at(3), &written) == WARM_SKIPPED);
    must_have_failed(&handle, 3, 0, WARM_FAILED_WRITE, EAGAIN);
    MUST(failures(&handle) == 1);
    MUST(warm_write_back_all(&handle) == WARM_WRITE_FAULT && failures(&handle) == 5);
    MUST(warm_flush_device(&handle, 0) == WARM_SKIPPED && failures(&handle) == 2);
    MUST(warm_flush_device(&handle, 1) == WARM_WRITE_FAULT && failures(&handle) == 3);
    MUST(warm_replace(&handle, 1, &made[1]) == WARM_WRITE_FAULT && failures(&handle) == 1);
    its[1].write_error = 0;
    its[1].sync_error = ENOSPC;
    MUST(warm_write_back_all(&handle) == WARM_WRITE_FAULT && failures(&handle) == 3);
    must_have_failed(&handle, 0, 1, WARM_FAILED_FLUSH, ENOSPC);
    its[0].skips = 0;
    OK(warm_flush_device(&handle, 0));
    MUST(failures(&handle) == 3); /* as the failure, until another call has one */
    if (is_shared) OK(warm_close(&other));
    MUST(warm_close(&handle) == WARM_WRITE_FAULT && failures(&handle) == 1);
    OK(warm_abandon(&handle));
    nothing_left();
}

static void test_counted_failures(void) {
    for (size_t shards = 1; shards <= 4; shards *= 4) {
        count_failures_of(shards, false);
        count_failures_of(shards, true);
    }
}

/* A miss passes over two pages, even if none is left then; and a read fails. */
static void test_counted_misses(void) {
    for (int is_shared = 0; is_shared < 2; is_shared++) {
        own its = {.skips = 3};
        const warm_device device = own_device_of(&its, &all_calls, 0);
        warm handle = {0}, other = {0};
        warm_slot slot;
        OK(open_with(&handle, 1, 1, 3, &device, 1));
        if (is_shared) OK(warm_attach(&handle, &other));
        write_each(&handle, 0, 3);
        OK(warm_pin(&handle, page_at(5), &slot));
        MUST(slot.index == 2 && failures(&handle) == 2);
        must_have_failed(&handle, 0, 0, WARM_FAILED_WRITE, EAGAIN);
        MUST(warm_prefetch(&handle, page_at(6)) == WARM_EVICT_FAULT && failures(&handle) == 2);
        its.read_error = EIO;
        MUST(warm_prefetch(&handle, page_at(7)) == WARM_READ_FAULT && failures(&handle) == 1);
        must_have_failed(&handle, 7, 0, WARM_FAILED_READ, EIO);
        its.read_error = 0;
        OK(warm_unpin(&handle, slot));
        its.skips = 1;
        OK(warm_prefetch(&handle, page_at(6)));
        must_have_failed(&handle, 0, 0, WARM_FAILED_WRITE, EAGAIN);
        MUST(failures(&handle) == 1 && is_in(&handle, 5) && its.bytes[1] == 'a');
        if (is_shared) OK(warm_close(&other));
        OK(warm_abandon(&handle));
        nothing_left();
    }
}

/* What a call counted stays until another one has a failure: a miss that writes a page first, and
 * succeeds, has none. */
static void test_counts_behind_a_miss(void) {
    own its = {.write_error = EIO};
    const warm_device device = own_device_of(&its, &all_calls, 0);
    warm handle = {0}, other = {0};
    OK(open_with(&handle, 1, 1, 2, &device, 1));
    OK(warm_attach(&handle, &other));
    write_each(&handle, 0, 2);
    MUST(warm_prefetch(&handle, page_at(5)) == WARM_EVICT_FAULT && failures(&handle) == 2);
    its.write_error = 0;
    OK(warm_prefetch(&handle, page_at(5)));
    MUST(its.writes == 3 && failures(&handle) == 2);
    must_have_failed(&handle, 0, 0, WARM_FAILED_WRITE, EIO);
    OK(warm_close(&other));
    OK(warm_abandon(&handle));
    nothing_left();
}

static void test_skipping_portions(void) {
    for (size_t shards = 1; shards <= 4; shards *= 4) {
        skip_portions(shards, false);
        skip_portions(shards, true);
    }
}

/* A page that the node cannot pin once more is written by the node, and what is skipped is passed
 * over. */
static void test_full_pins(void) {
    own its = {.skips = 2};
    const warm_device device = own_device_of(&its, &all_calls, 0);
    warm handle = {0}, other = {0};
    size_t left;
    OK(open_with(&handle, 1, 1, 4, &device, 1));
    OK(warm_attach(&handle, &other));
    write_each(&handle, 0, 3);
    pins_are_full = true;
    MUST(warm_write_back_all(&handle) == WARM_SKIPPED && dirty_set(&handle, 3) == 2);
    must_have_failed(&handle, 1, 0, WARM_FAILED_WRITE, EAGAIN);
    its.skips = 0;
    OK(warm_write_back_some(&handle, SIZE_MAX, &left));
    pins_are_full = false;
    MUST(dirty_set(&handle, 3) == 0 && left == 0 && its.writes == 3);
    has_written(&handle, 3, 0, 1);
    no_pins(&handle);
    OK(warm_close(&other));
    OK(warm_close(&handle));
    nothing_left();
}

/* A page that is skipped stays when another page comes, and the next one leaves. */
static void test_skipped_victims(void) {
    own its = {.skips = 1};
    const warm_device device = own_device_of(&its, &all_calls, 0);
    warm handle = {0};
    warm_slot slot;
    OK(open_with(&handle, 1, 1, 2, &device, 1));
    write_each(&handle, 0, 2);
    OK(warm_pin(&handle, page_at(5), &slot));
    MUST(slot.index == 1 && its.writes == 1 && its.bytes[1] == 'a' && is_in(&handle, 0));
    must_have_failed(&handle, 0, 0, WARM_FAILED_WRITE, EAGAIN);
    MUST(warm_pin(&handle, page_at(6), &(warm_slot){0}) == WARM_EVICT_FAULT);
    OK(warm_unpin(&handle, slot));
    MUST(warm_replace(&handle, 0, &device) == WARM_WRITE_FAULT);
    OK(warm_forget_pages(&handle, 0, 0));
    OK(warm_close(&handle));
    MUST(its.told == 2 && its.syncs == 1);
    nothing_left();
}

/* ---- latches ---- */

enum { THREADS = 4, LATCHED = 8, ROUNDS = 2000 / FEWER / LATCHED * LATCHED };

/* Each page has a latch, which before_write tries and after_write releases. */
static pthread_mutex_t latches[LATCHED];
static uint8_t stored[LATCHED];

static int try_latch(void *context, uint64_t no, const void *bytes, size_t length) {
    (void)context, (void)bytes, (void)length;
    return pthread_mutex_trylock(&latches[no]) == 0 ? 0 : EAGAIN;
}

static void release_latch(void *context, uint64_t no, int error) {
    (void)context;
    MUST(error == 0 && pthread_mutex_unlock(&latches[no]) == 0);
}

static int store(void *context, uint64_t no, const void *bytes, size_t length) {
    (void)context;
    memcpy(&stored[no], bytes, length);
    return 0;
}

static int fetch(void *context, uint64_t no, void *into, size_t length) {
    (void)context;
    memcpy(into, &stored[no], length);
    return 0;
}

static int sync_nothing(void *context) { return context == NULL; }

/* Writes in place under the latch alone, while others write back. */
static void *write_latched(void *of) {
    warm *handle = of;
    size_t left;
    for (uint64_t round = 0; round < ROUNDS; round++) {
        uint64_t no = round * 7 % LATCHED;
        warm_slot slot;
        uint8_t *bytes;
        OK(warm_pin(handle, page_at(no), &slot));
        pthread_mutex_lock(&latches[no]);
        OK(warm_bytes_mut(handle, slot, &bytes));
        ++*bytes;
        OK(warm_mark_dirty(handle, slot));
        pthread_mutex_unlock(&latches[no]);
        OK(warm_unpin(handle, slot));
        int status = round % 4 == 0   ? warm_write_back_all(handle)
                     : round % 4 == 1 ? warm_write_back_some(handle, 2, &left)
                                      : WARM_OK;
        MUST(status == WARM_OK || status == WARM_SKIPPED);
    }
    OK(warm_close(handle));
    return NULL;
}

static void test_latches(void) {
    static const warm_device_ops calls = {.size = sizeof calls,
        .read = fetch,
        .write = store,
        .sync = sync_nothing,
        .before_write = try_latch,
        .after_write = release_latch};
    const warm_device device = {.pages = LATCHED, .ops = &calls, .context = latches};
    warm first = {0}, attached[THREADS] = {{0}};
    pthread_t threads[THREADS];
    for (int at = 0; at < LATCHED; at++) MUST(pthread_mutex_init(&latches[at], NULL) == 0);
    OK(open_with(&first, 1, 2, 2 * LATCHED, &device, 1));
    for (int at = 0; at < THREADS; at++) {
        OK(warm_attach(&first, &attached[at]));
        MUST(pthread_create(&threads[at], NULL, write_latched, &attached[at]) == 0);
    }
    for (int at = 0; at < THREADS; at++) MUST(pthread_join(threads[at], NULL) == 0);
    OK(warm_write_back_all(&first));
    for (int at = 0; at < LATCHED; at++) MUST(stored[at] == (uint8_t)(THREADS * ROUNDS / LATCHED));
    OK(warm_close(&first));
    for (int at = 0; at < LATCHED; at++) MUST(pthread_mutex_destroy(&latches[at]) == 0);
    nothing_left();
}

int main(void) {
    if (FEWER == 1) test_skipping();
    test_skipping_portions();
    test_skips_and_failures();
    test_counted_failures();
    test_counted_misses();
    test_counts_behind_a_miss();
    test_full_pins();
    test_skipped_victims();
    test_latches();
    puts("skips_test: as expected");
    return 0;
}

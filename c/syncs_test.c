/*
 * Tests sync_once.c, and what shards.c and whole_calls.c do to devices, over fake_library.h: what
 * is synced, once and with no shard entered, what is written if something fails, what leaves
 * then, and devices that are replaced.
 */
#include "fake_library.h"

/* ---- devices ---- */

static void test_syncs(void) {
    warm handle = {0};
    size_t left;
    for (size_t count = 1; count <= 64; count *= 4) {
        open_shards(&handle, count);
        syncs = 0;
        OK(warm_write_back_all(&handle));
        MUST(syncs == 0);
        write_each(&handle, 0, count);
        write_each(&handle, 1, count);
        interruptions = 2;
        OK(warm_write_back_all(&handle));
        MUST(syncs == 2 && interruptions == 0);
        OK(warm_write_back_all(&handle));
        MUST(syncs == 2);
        write_each(&handle, 0, 1);
        OK(warm_flush_device(&handle, 0));
        MUST(syncs == 3);
        write_each(&handle, 0, count);
        OK(warm_write_back_some(&handle, SIZE_MAX, &left));
        MUST(left == 0 && syncs == 3);
        OK(warm_abandon(&handle)); /* what was written and not synced is synced once */
        MUST(syncs == 4);
        nothing_left();
    }
}

/* What a device has counted: failures beside those of its nodes, which have 1 each. */
static void has_counted(warm *handle, uint16_t dev, uint64_t flushes, uint64_t failures) {
    size_t count = ((opened *)handle->at)->count;
    warm_device_counters counters;
    OK(warm_device_counts(handle, dev, &counters));
    MUST(counters.flushes == flushes && counters.failures == count + failures);
}

static void test_failed_syncs(void) {
    warm handle = {0};
    for (size_t count = 1; count <= 64; count *= 4) {
        open_shards(&handle, count);
        write_each(&handle, 0, count);
        syncs = 0;
        sync_errors[10] = EIO;
        MUST(warm_write_back_all(&handle) == WARM_WRITE_FAULT && syncs == 1);
        for (size_t number = 0; number < count; number++) {
            /* each shard by itself: the system would not fail again */
            write_to(&handle, (warm_page){.no = number}, 'b');
            node *its = &((opened *)handle.at)->shards[number].node;
            MUST(node_flush_device(its, 0) == WARM_WRITE_FAULT && errno == EIO);
        }
        has_counted(&handle, 0, 1, 1);
        MUST(warm_flush_device(&handle, 0) == WARM_WRITE_FAULT &&
             warm_write_back_all(&handle) == WARM_WRITE_FAULT && syncs == 1);
        has_counted(&handle, 0, 3, 3);
        has_counted(&handle, 1, 0, 0);
        MUST(warm_replace(&handle, 0, &devices[0]) == WARM_WRITE_FAULT);
        write_each(&handle, 1, 1);
        OK(warm_flush_device(&handle, 1)); /* another descriptor has not failed */
        has_counted(&handle, 1, 1, 0);
        MUST(syncs == 2);
        OK(warm_abandon(&handle));
        MUST(syncs == 2);
        nothing_left();
        open_shards(&handle, count); /* what failed before is forgotten */
        write_each(&handle, 0, count);
        OK(warm_write_back_all(&handle));
        MUST(syncs == 3);
        OK(warm_abandon(&handle));
    }
}

static void each_has(warm *handle, uint16_t dev, int fd) {
    opened *its = handle->at;
    for (size_t number = 0; number < its->count; number++)
        MUST(((fake *)its->shards[number].node.at)->devices[dev].number == fd);
}

/* A device is replaced in all shards or in none. */
static void test_replacing(void) {
    const warm_device in_place = {.pages = FAKE_PAGES, .fd = 20};
    warm handle = {0};
    warm_slot slot;
    open_shards(&handle, 4);
    write_each(&handle, 1, 8);
    MUST(warm_replace(&handle, FAKE_DEVICES, &in_place) == WARM_NO_DEVICE);
    OK(warm_pin(&handle, (warm_page){.no = 1, .dev = 1}, &slot)); /* in shard 2 */
    appending = 20;
    MUST(warm_replace(&handle, 1, &in_place) == WARM_APPENDS);
    appending = -77;
    MUST(warm_replace(&handle, 1, &in_place) == WARM_PINNED);
    each_has(&handle, 1, 11);
    MUST(*place_of(20) == NULL && (*place_of(11))->devices == 1);
    OK(warm_unpin(&handle, slot));
    EACH_REFUSED(warm_replace(&handle, 1, &in_place),
        *place_of(20) == NULL && (*place_of(11))->devices == 1);
    each_has(&handle, 1, 20);
    MUST(*place_of(11) == NULL && (*place_of(20))->devices == 1);
    OK(warm_replace(&handle, 1, &in_place)); /* by itself */
    MUST((*place_of(20))->devices == 1);
    syncs = 0;
    write_each(&handle, 1, 4);
    OK(warm_write_back_all(&handle));
    MUST(syncs == 1);
    OK(warm_abandon(&handle));
    nothing_left();
}

/* One shard alone finds no memory: all have the old device. */
static void test_going_back(void) {
    const warm_device in_place = {.pages = FAKE_PAGES, .fd = 21};
    warm handle = {0};
    int status = WARM_MEMORY;
    open_shards(&handle, 8);
    fails_once = true;
    for (size_t grants = 0; status != WARM_OK; grants++) {
        granted = grants;
        status = warm_replace(&handle, 2, &in_place);
        granted = SIZE_MAX;
        MUST(status == WARM_OK || (status == WARM_MEMORY && grants < 100));
        each_has(&handle, 2, status == WARM_OK ? 21 : 12);
    }
    fails_once = false;
    OK(warm_abandon(&handle));
    nothing_left();
}

/* The sync of a later shard fails: no page of the first has left its frame. */
static void test_settling(void) {
    const warm_device in_place = {.pages = FAKE_PAGES, .fd = 22};
    warm handle = {0};
    bool resident = false;
    open_shards(&handle, 4);
    MUST(read_from(&handle, (warm_page){.no = 0}) == 0);
    write_to(&handle, (warm_page){.no = 2}, 'a');
    sync_errors[10] = EIO;
    MUST(warm_replace(&handle, 0, &in_place) == WARM_WRITE_FAULT);
    OK(warm_resident(&handle, (warm_page){.no = 0}, &resident));
    MUST(resident);
    each_has(&handle, 0, 10);
    OK(warm_abandon(&handle));
    nothing_left();
}

/* A flush that fails is counted, be it the node's of a replica of one shard or made for all. */
static void test_counting_refused(void) {
    const warm_device in_place = {.pages = FAKE_PAGES, .fd = 22};
    for (size_t count = 1; count <= 4; count *= 4) {
        warm handle = {0};
        open_shards(&handle, count);
        write_to(&handle, page_at(0), 'a');
        sync_errors[10] = EIO;
        syncs = 0;
        MUST(warm_replace(&handle, 0, &in_place) == WARM_WRITE_FAULT && syncs == 1);
        must_have_failed(&handle, 0, 0, WARM_FAILED_FLUSH, EIO);
        has_counted(&handle, 0, 1, count > 1); /* a fake node's own count does not change */
        MUST(warm_replace(&handle, 0, &in_place) == WARM_WRITE_FAULT && syncs == 1);
        has_counted(&handle, 0, 2, count > 1 ? 2 : 0); /* since one has failed */
        OK(warm_abandon(&handle));
        nothing_left();
    }
}

/* A page that is pinned in one shard keeps those of all. */
static void test_forgetting(void) {
    warm handle = {0};
    warm_slot slot;
    open_shards(&handle, 4);
    write_each(&handle, 0, 8);
    MUST(warm_forget_pages(&handle, FAKE_DEVICES, 0) == WARM_NO_DEVICE);
    OK(warm_pin(&handle, (warm_page){.no = 6}, &slot)); /* in shard 2 */
    MUST(warm_forget_pages(&handle, 0, 4) == WARM_PINNED);
    for (uint64_t no = 4; no < 8; no++) MUST(read_from(&handle, (warm_page){.no = no}) == 'a');
    OK(warm_unpin(&handle, slot));
    OK(warm_forget_pages(&handle, 0, 4));
    MUST(read_from(&handle, (warm_page){.no = 4}) == 0 &&
         read_from(&handle, (warm_page){.no = 7}) == 0 &&
         read_from(&handle, (warm_page){.no = 3}) == 'a');
    OK(warm_abandon(&handle));
    nothing_left();
}

/* ---- descriptors ---- */

static void test_descriptors(void) {
    syncs = 0;
    MUST(sync_once(30) == 0 && sync_once(30) == 0 && syncs == 2); /* one that is not counted */
    sync_errors[30] = EIO;
    errno = 0;
    MUST(sync_once(30) == -1 && errno == EIO && sync_once(30) == 0);
    EACH_REFUSED(sync_add(30) ? WARM_OK : WARM_MEMORY, chains[30] == NULL && blocks == 0);
    /* three of one chain */
    MUST(sync_add(30) && sync_add(30 + CHAINS) && sync_add(30 - CHAINS) && sync_add(-1) &&
         sync_add(INT32_MIN));
    syncs = 0;
    sync_wrote(30);
    MUST(sync_once(30 - CHAINS) == 0 && sync_once(-1) == 0 && syncs == 0 && sync_once(30) == 0 &&
         syncs == 1);
    sync_wrote(30);
    sync_errors[30] = ENOSPC;
    errno = 0;
    MUST(sync_once(30) == -1 && errno == ENOSPC);
    sync_wrote(30);
    errno = 0;
    MUST(sync_once(30) == -1 && errno == ENOSPC && syncs == 2);
    sync_drop(30); /* one of two */
    MUST(sync_once(30) == -1 && syncs == 2);
    sync_drop(30);
    MUST(sync_add(30) && sync_once(30) == 0 && syncs == 2);
    sync_wrote(30);
    MUST(sync_once(30) == 0 && syncs == 3);
    sync_drop(30);
    sync_drop(30); /* which is there no more */
    sync_drop(30 + CHAINS);
    sync_drop(-1);
    sync_drop(INT32_MIN);
    sync_drop(30 - CHAINS);
    nothing_left();
}

/* Syncs that are left for later are made by who has left them. What was taken and let go before is
 * not synced. */
static void test_later_syncs(void) {
    bool is_made;
    MUST(sync_add(30) && sync_take(30) == NULL);
    syncs = 0;
    sync_wrote(30);
    MUST(!sync_later(true) && sync_once(30) == 0 && syncs == 0);
    MUST(sync_once(31) == 0 && syncs == 1); /* one that is not counted is synced */
    MUST(sync_later(true) && sync_later(false));
    sync_use *taken = sync_take(30);
    MUST(taken != NULL && sync_taken(taken, &is_made) == 0 && is_made && syncs == 2 &&
         sync_take(30) == NULL);
    sync_wrote(30);
    sync_use *early = sync_take(30), *late = sync_take(30);
    MUST(sync_taken(early, &is_made) == 0 && is_made && sync_taken(late, &is_made) == 0 &&
         !is_made && syncs == 3);
    sync_wrote(30);
    sync_errors[30] = EIO;
    errno = 0;
    MUST(sync_taken(sync_take(30), &is_made) == -1 && is_made && errno == EIO && syncs == 4);
    errno = 0;
    MUST(sync_taken(sync_take(30), &is_made) == -1 && !is_made && errno == EIO && syncs == 4);
    early = sync_take(30);
    sync_drop(30);
    MUST(*place_of(30) == NULL && sync_add(30));
    sync_wrote(30);
    late = sync_take(30);
    MUST(late != early);
    sync_drop(30);
    MUST(sync_taken(early, &is_made) == 0 && !is_made && sync_taken(late, &is_made) == 0 &&
         !is_made && syncs == 4);
    nothing_left();
}

/* While a thread syncs a descriptor, another one lets its last device go: it waits. */
static atomic_bool is_gone;
static pthread_t letting_go;

static void *let_go_of(void *fd) {
    sync_drop(*(int *)fd);
    atomic_store(&is_gone, true);
    return NULL;
}

static void let_go_meanwhile(int fd) {
    static int of;
    of = fd;
    MUST(pthread_create(&letting_go, NULL, let_go_of, &of) == 0);
    usleep(20000);
    MUST(!atomic_load(&is_gone));
}

static void test_waiting_for_a_sync(void) {
    bool is_made;
    MUST(sync_add(30));
    sync_wrote(30);
    at_sync = let_go_meanwhile;
    MUST(sync_taken(sync_take(30), &is_made) == 0 && is_made);
    MUST(pthread_join(letting_go, NULL) == 0 && atomic_load(&is_gone));
    nothing_left();
}

/* ---- syncs, and calls meanwhile ---- */

static warm *beside;

/* A writer in each shard, of whose pages some leave their frames. */
static void write_meanwhile(int fd) {
    (void)fd;
    for (uint64_t no = 0; no < 64; no++) write_to(beside, (warm_page){.no = no}, 'm');
}

/* No shard is entered during a sync, and a file is synced once, whatever is written meanwhile; also
 * if one handle is open. */
static void test_syncs_without_shards(void) {
    for (size_t count = 1; count <= 16; count *= 4) {
        warm first = {0}, second = {0};
        open_shards(&first, count);
        OK(warm_attach(&first, &second));
        beside = &second;
        for (int time = 0; time < 2; time++) {
            write_each(&first, 0, 2 * count);
            write_each(&first, 2, count);
            most_in_sync = syncs = 0;
            at_sync = write_meanwhile;
            OK(time == 0 ? warm_write_back_all(&first) : warm_flush_device(&first, 0));
            MUST(at_sync == NULL && syncs == 2 - time && most_in_sync == 0);
            OK(warm_write_back_all(&second));
            MUST(syncs == 3 - time + time && most_in_sync == 0);
        }
        OK(warm_close(&second));
        OK(warm_abandon(&first));
        nothing_left();
    }
}

/* A device that is replaced while it is synced, by another one or by itself: who replaces it waits
 * until the sync is over, and has a descriptor that nobody syncs. */
static const warm_device *in_its_place;
static atomic_bool is_replaced;

static void *replace_it(void *handle) {
    OK(warm_replace(handle, 0, in_its_place));
    atomic_store(&is_replaced, true);
    return NULL;
}

static void replace_meanwhile(int fd) {
    MUST(fd == 10 && pthread_create(&letting_go, NULL, replace_it, beside) == 0);
    usleep(20000);
    MUST(!atomic_load(&is_replaced));
}

static void replacing_in_a_sync(const warm_device *by) {
    warm first = {0}, second = {0};
    open_shards(&first, 4);
    OK(warm_attach(&first, &second));
    beside = &second;
    in_its_place = by;
    atomic_store(&is_replaced, false);
    write_each(&first, 0, 4);
    syncs = 0;
    at_sync = replace_meanwhile;
    OK(warm_write_back_all(&first));
    MUST(pthread_join(letting_go, NULL) == 0 && atomic_load(&is_replaced) && syncs == 1);
    MUST((*place_of(by->fd))->devices == 1 && (by->fd == 10 || *place_of(10) == NULL));
    write_each(&first, 0, 4);
    OK(warm_write_back_all(&first));
    MUST(syncs == 2);
    OK(warm_close(&second));
    OK(warm_abandon(&first));
    nothing_left();
}

static void test_replacing_in_a_sync(void) {
    const warm_device another = {.pages = FAKE_PAGES, .fd = 20};
    replacing_in_a_sync(&another);
    replacing_in_a_sync(&devices[0]);
}

/* One shard: what is refused, in order, whether its node alone would say so or not. */
static void test_replacing_in_one(void) {
    const warm_device in_place = {.pages = FAKE_PAGES, .fd = 20};
    warm handle = {0}, second = {0};
    warm_slot slot, held_slot;
    for (int time = 0; time < 4; time++) {
        open_shards(&handle, 1);
        OK(warm_attach(&handle, &second));
        write_each(&handle, 0, 1);
        if (time % 2 == 1) { /* a sync that failed, of which the node does not know */
            sync_errors[10] = EIO;
            MUST(warm_write_back_all(&second) == WARM_WRITE_FAULT);
        }
        OK(warm_pin(&handle, (warm_page){.no = 0}, &slot));
        OK(warm_pin(&second, (warm_page){.no = 0}, &held_slot));
        MUST(((opened *)second.at)->used != 0);
        OK(warm_unpin(&handle, slot)); /* a hold alone is left */
        granted = 0;
        MUST(warm_replace(&handle, 0, &in_place) == WARM_MEMORY);
        granted = SIZE_MAX;
        appending = 20;
        MUST(warm_replace(&handle, 0, &in_place) == WARM_APPENDS);
        appending = -77;
        MUST(warm_replace(&handle, 0, &in_place) == WARM_PINNED);
        OK(warm_unpin(&second, held_slot));
        appending = time > 1 ? 20 : -77;
        int status = warm_replace(&handle, 0, &in_place);
        MUST(status == (time > 1 ? WARM_APPENDS : time == 1 ? WARM_WRITE_FAULT : WARM_OK));
        appending = -77;
        if (time == 1) must_have_failed(&handle, 0, 0, WARM_FAILED_FLUSH, EIO);
        each_has(&handle, 0, time == 0 ? 20 : 10);
        OK(warm_close(&second));
        OK(warm_abandon(&handle));
        nothing_left();
    }
}

/* ---- pages that cannot be written ---- */

static warm_page stuck[3];
static int failed_writes;

static bool is_one_of_stuck(node_page page) {
    bool is_so = false;
    for (int at = 0; at < 3; at++)
        is_so = is_so || (stuck[at].no == page.no && stuck[at].dev == page.dev);
    failed_writes += is_so;
    return is_so;
}

static bool is_dirty(warm *handle, warm_page page) {
    opened *all = handle->at;
    const fake *its = all->shards[(page.no + page.dev) % all->count].node.at;
    for (size_t at = 0; at < its->frames; at++)
        if (its->at[at].is_in && its->at[at].page.no == page.no && its->at[at].page.dev == page.dev)
            return its->at[at].is_dirty;
    return false;
}

/* A page that fails keeps no other from being written; none is tried twice. The first failure is
 * that of the call. A device is not synced if a write has failed. */
static void write_stuck(warm *handle, int call, int32_t error) {
    static const int by_call[3] = {1, 0, 0}, failures[3] = {3, 2, 3};
    size_t left = 77;
    write_each(handle, 0, 16);
    write_each(handle, 1, 16);
    write_each(handle, 3, 4);
    is_stuck = is_one_of_stuck;
    stuck_error = error;
    syncs = failed_writes = 0;
    int status = call == 0   ? warm_write_back_all(handle)
                 : call == 1 ? warm_flush_device(handle, 0)
                             : warm_write_back_some(handle, SIZE_MAX, &left);
    MUST(status == WARM_WRITE_FAULT && left == 77 && syncs == by_call[call]);
    must_have_failed(handle, 1, 0, WARM_FAILED_WRITE, error);
    MUST(failed_writes == failures[call]);
    is_stuck = NULL;
    for (uint64_t no = 0; no < 16; no++) {
        for (uint16_t dev = 0; dev < 2; dev++) {
            const warm_page page = {.no = no, .dev = dev};
            bool is_left = is_one_of_stuck(page_in(page)) || (dev == 1 && call == 1);
            MUST(is_dirty(handle, page) == is_left);
        }
        MUST(is_dirty(handle, (warm_page){.no = no, .dev = 3}) == (no < 4 && call == 1));
    }
    stuck_error = EIO;
    OK(warm_write_back_all(handle));
    for (int at = 0; at < 3; at++) MUST(!is_dirty(handle, stuck[at]));
    MUST(syncs == 3);
}

static void test_stuck_pages(void) {
    warm handle = {0}, other = {0};
    stuck[0] = (warm_page){.no = 1};
    stuck[1] = (warm_page){.no = 2, .dev = 1};
    stuck[2] = (warm_page){.no = 3};
    for (int is_shared = 0; is_shared < 2; is_shared++) {
        OK(open_with(&handle, 1, 4, 64, devices, FAKE_DEVICES));
        if (is_shared) OK(warm_attach(&handle, &other));
        written_locked = 0;
        for (int call = 0; call < 3; call++) {
            write_stuck(&handle, call, ENOSPC);
            write_stuck(&handle, call, EIO);
        }
        MUST(written_locked == 0);
        if (is_shared) OK(warm_close(&other));
        OK(warm_abandon(&handle));
        nothing_left();
    }
}

/* What a write-back left unsynced, since a page of the device failed, the close syncs. */
static void test_closing_after_failure(void) {
    warm handle = {0};
    open_shards(&handle, 4);
    write_each(&handle, 0, 4);
    stuck[0] = stuck[1] = stuck[2] = (warm_page){.no = 1};
    is_stuck = is_one_of_stuck;
    stuck_error = EIO;
    syncs = 0;
    MUST(warm_write_back_all(&handle) == WARM_WRITE_FAULT && syncs == 0);
    is_stuck = NULL;
    OK(warm_abandon(&handle));
    MUST(syncs == 1);
    nothing_left();
}

/* Portions go on from shard to shard; one that is refused has its turn, too, and its pages
 * count. */
static void test_turns_of_portions(void) {
    warm handle = {0};
    size_t left = 77;
    open_shards(&handle, 4);
    write_each(&handle, 0, 8);
    for (uint64_t no = 0; no < 4; no++) {
        OK(warm_write_back_some(&handle, 1, &left));
        MUST(left == 7 - no && !is_dirty(&handle, (warm_page){.no = no}) &&
             is_dirty(&handle, (warm_page){.no = no + 4}));
    }
    stuck[0] = stuck[1] = stuck[2] = (warm_page){.no = 4};
    is_stuck = is_one_of_stuck;
    left = 77;
    MUST(warm_write_back_some(&handle, 2, &left) == WARM_WRITE_FAULT && left == 77);
    MUST(is_dirty(&handle, (warm_page){.no = 4}) && !is_dirty(&handle, (warm_page){.no = 5}) &&
         !is_dirty(&handle, (warm_page){.no = 6}));
    MUST(is_dirty(&handle, (warm_page){.no = 7}));
    OK(warm_write_back_some(&handle, 1, &left));
    MUST(left == 1 && !is_dirty(&handle, (warm_page){.no = 7}));
    is_stuck = NULL;
    OK(warm_abandon(&handle));
    nothing_left();
}

/* So they do from frame to frame of a shard: a page that is changed again, or fails, is met once
 * others were. None is tried twice by a call. */
static void turns_in_shard(warm *handle) {
    size_t left = 77;
    write_each(handle, 0, 4);
    for (uint64_t no = 0; no < 4; no++) {
        OK(warm_write_back_some(handle, 1, &left));
        write_to(handle, page_at(0), 'b');
        MUST(left == (no == 0 ? 3 : 4 - no) && is_dirty(handle, page_at(0)));
        for (uint64_t other = 1; other < 4; other++)
            MUST(is_dirty(handle, page_at(other)) == (other > no));
    }
    OK(warm_write_back_some(handle, 1, &left));
    MUST(left == 0 && !is_dirty(handle, page_at(0)));
    write_each(handle, 0, 4);
    stuck[0] = stuck[1] = stuck[2] = (warm_page){.no = 2};
    is_stuck = is_one_of_stuck;
    failed_writes = 0;
    MUST(warm_write_back_some(handle, 2, &left) == WARM_WRITE_FAULT && failed_writes == 1);
    MUST(is_dirty(handle, page_at(0)) && is_dirty(handle, page_at(2)));
    OK(warm_write_back_some(handle, 1, &left));
    MUST(left == 1 && !is_dirty(handle, page_at(0)) && failed_writes == 1);
    write_to(handle, page_at(1), 'b');
    MUST(warm_write_back_some(handle, SIZE_MAX, &left) == WARM_WRITE_FAULT && failed_writes == 2);
    MUST(!is_dirty(handle, page_at(1)) && is_dirty(handle, page_at(2)));
    is_stuck = NULL;
    OK(warm_write_back_all(handle));
}

static void test_turns_in_shard(void) {
    for (int is_shared = 0; is_shared < 2; is_shared++) {
        warm handle = {0}, other = {0};
        OK(open_with(&handle, 1, 1, 4, devices, FAKE_DEVICES));
        if (is_shared) OK(warm_attach(&handle, &other));
        turns_in_shard(&handle);
        OK(warm_close(&other));
        OK(warm_close(&handle));
        nothing_left();
    }
}

/* One page is written if it is dirty, with no sync; if it cannot be, it is dirty as
 * before. */
static void write_one(size_t count) {
    const warm_page page = {.no = 2 * count - 2}, last = {.no = 2 * count - 1};
    bool written = true;
    warm handle = {0};
    MUST(warm_write_back_page(&handle, page, &written) == WARM_CLOSED && written);
    syncs = 0;
    open_shards(&handle, count);
    OK(warm_write_back_page(&handle, page, &written));
    MUST(!written);
    write_each(&handle, 0, 2 * count);
    OK(warm_write_back_page(&handle, page, &written));
    MUST(written);
    for (uint64_t no = 0; no <= last.no; no++)
        MUST(is_dirty(&handle, page_at(no)) == (no != page.no));
    OK(warm_write_back_page(&handle, page, &written));
    MUST(!written);
    stuck[0] = stuck[1] = stuck[2] = last;
    is_stuck = is_one_of_stuck;
    MUST(warm_write_back_page(&handle, last, &written) == WARM_WRITE_FAULT);
    MUST(!written && is_dirty(&handle, last));
    must_have_failed(&handle, last.no, 0, WARM_FAILED_WRITE, EIO);
    is_stuck = NULL;
    OK(warm_write_back_page(&handle, last, &written));
    MUST(written && !is_dirty(&handle, last) && syncs == 0);
    OK(warm_abandon(&handle));
    nothing_left();
}

static void test_one_page(void) {
    write_one(1);
    write_one(4);
}

/* ---- pages that are to leave, and cannot be written ---- */

static uint64_t stuck_from, stuck_until;
static int tries;

static bool is_between(node_page page) {
    bool is_so = page.no >= stuck_from && page.no < stuck_until;
    tries += is_so;
    return is_so;
}

/* How a page is pinned for which others would leave; the other handle holds a page that comes
 * before those that cannot be written, or after. */
typedef struct way {
    bool is_zeroed, is_shared;
    enum { HELD_NONE, HELD_BEFORE, HELD_AFTER } held;
} way;

/* The page was held without a break, and its record is as it was. */
static void let_held_go(warm *handle, warm_slot slot, uint64_t no) {
    look_at(handle, slot, no);
    OK(warm_unpin(handle, hold_page(handle, no)));
    OK(warm_unpin(handle, slot));
}

/* Pages that cannot be written stay, and others leave for a page that is loaded: up to some number.
 * Each stays dirty, and unpinned. */
static void stuck_victims(size_t frames, uint64_t count, way how) {
    warm first = {0}, second = {0};
    warm_slot slot, held_slot;
    warm_failure failure = {0};
    bool found, has_held = how.held != HELD_NONE;
    OK(open_with(&first, 1, 1, frames, devices, FAKE_DEVICES));
    if (how.is_shared) OK(warm_attach(&first, &second));
    for (uint64_t no = 0; no < frames; no++) write_to(&first, page_at(no), 'd');
    stuck_from = how.held == HELD_BEFORE ? 1 : 0;
    stuck_until = stuck_from + count;
    uint64_t held_no = how.held == HELD_BEFORE ? 0 : count;
    if (has_held) {
        pin_twice(&second, held_no);
        held_slot = hold_page(&second, held_no);
    }
    tries = 0;
    is_stuck = is_between;
    int status = how.is_zeroed ? warm_pin_zeroed(&first, page_at(400), &slot)
                               : warm_pin(&first, page_at(400), &slot);
    is_stuck = NULL;
    bool is_loaded = count <= STUCK && count + has_held < frames;
    MUST(status == (is_loaded ? WARM_OK : count > 0 ? WARM_EVICT_FAULT : WARM_ALL_PINNED));
    MUST(tries == (int)(count > STUCK ? STUCK + 1 : count));
    OK(warm_last_failure(&first, &found, &failure));
    MUST(found == (count > 0) &&
         (count == 0 || (failure.no == stuck_from && failure.what == WARM_FAILED_WRITE &&
                            failure.count == (uint64_t)tries)));
    for (uint64_t no = stuck_from; no < stuck_until; no++)
        MUST(is_in(&first, no) && node_of(&first, 0)->at[no].is_dirty);
    if (is_loaded) {
        MUST(slot.index == count + has_held);
        OK(warm_unpin(&first, slot));
    }
    if (has_held) let_held_go(&second, held_slot, held_no);
    no_pins(&first);
    for (uint64_t no = stuck_from; no < stuck_until; no++) OK(warm_unpin(&first, pin(&first, no)));
    if (how.is_shared) OK(warm_close(&second));
    OK(warm_abandon(&first));
    nothing_left();
}

static void test_stuck_victims(void) {
    for (size_t frames = 1; frames <= STUCK + 4; frames++) {
        for (int at = 0; at < 8; at++) {
            way how = {.is_zeroed = at % 2 == 1,
                .is_shared = at > 1,
                .held = at < 4   ? HELD_NONE
                        : at < 6 ? HELD_BEFORE
                                 : HELD_AFTER};
            for (uint64_t count = 0; count + (how.held != HELD_NONE) <= frames; count++)
                stuck_victims(frames, count, how);
        }
    }
}

/* The page that is to come cannot be read any more once another one could not be written: that is
 * what failed then. */
static bool fails_then(node_page page) {
    unreadable = 0;
    return page.no == 0;
}

static void test_failing_read(void) {
    warm handle = {0};
    warm_slot slot;
    warm_failure failure;
    bool found;
    OK(open_with(&handle, 1, 1, 2, devices, FAKE_DEVICES));
    write_to(&handle, page_at(0), 'd');
    write_to(&handle, page_at(1), 'd');
    is_stuck = fails_then;
    MUST(warm_pin(&handle, page_at(7), &slot) == WARM_READ_FAULT);
    is_stuck = NULL;
    unreadable = INT64_MAX;
    OK(warm_last_failure(&handle, &found, &failure));
    MUST(found && failure.no == 7 && failure.what == WARM_FAILED_READ && failure.count == 2);
    no_pins(&handle);
    OK(warm_abandon(&handle));
    nothing_left();
}

int main(void) {
    test_syncs();
    test_failed_syncs();
    test_one_page();
    test_replacing();
    test_going_back();
    test_settling();
    test_counting_refused();
    test_forgetting();
    test_descriptors();
    test_later_syncs();
    test_waiting_for_a_sync();
    test_syncs_without_shards();
    test_replacing_in_a_sync();
    test_replacing_in_one();
    test_stuck_pages();
    test_closing_after_failure();
    test_turns_of_portions();
    test_turns_in_shard();
    if (FEWER == 1) test_stuck_victims();
    test_failing_read();
    puts("syncs_test: as expected");
    return 0;
}

/*
 * Tests devices.c with devices that have calls of their own, over fake_library.h. skips_test.c
 * tests pages that such a device skips, and fd_calls_test.c devices that are files. */
#include "own_devices.h"

/* ---- numbers ---- */

static void test_good_devices(void) {
    own its = {.reads = 0};
    warm_device_ops ops = all_calls;
    warm_device device = own_device_of(&its, &ops, INT32_MIN);
    MUST(device_is_good(&device)); /* its descriptor is not looked at */
    ops.size--;
    MUST(!device_is_good(&device));
    ops.size += 2;
    MUST(!device_is_good(&device));
    for (int missing = 0; missing < 6; missing++) { /* one or two of three calls */
        ops = all_calls;
        if (missing % 3 == 0) ops.read = NULL;
        if (missing % 3 == 1) ops.write = NULL;
        if (missing % 3 == 2 || missing == 3) ops.sync = NULL;
        if (missing == 4) ops.read = NULL;
        MUST(!device_is_good(&device));
    }
    ops = hooks;
    MUST(!device_is_good(&device));
    device.fd = INT32_MIN + MADE_UP;
    MUST(device_is_good(&device));
    device.ops = NULL;
    MUST(device_is_good(&device));
    device.fd--;
    MUST(!device_is_good(&device));
}

/* Each device has a number of its own, which another one has after it; the last one takes the
 * table. */
static void test_numbers(void) {
    enum { MANY = 1000 };
    static own all[MANY];
    static int32_t numbers[MANY];
    const warm_device file = {.pages = 1, .fd = 7};
    int32_t number;
    MUST(device_add(&file, 1, &number) && number == 7 && own_devices == NULL &&
         device_synced_as(7) == 7);
    device_drop(7);
    for (int at = 0; at < MANY; at++) {
        warm_device device = own_device_of(&all[at], &plain, 0);
        all[at].read_error = at + 1;
        MUST(device_add(&device, 1, &numbers[at]) && numbers[at] == INT32_MIN + at);
    }
    for (int at = 0; at < MANY; at += 3) device_drop(numbers[at]);
    for (int at = 0; at < MANY; at++) {
        uint8_t byte;
        errno = 0;
        ssize_t got = device_read(numbers[at], &byte, 1, 0);
        int wanted = at % 3 == 0 ? EBADF : at + 1 == EINTR || at + 1 == EAGAIN ? EIO : at + 1;
        MUST(got == -1 && errno == wanted);
    }
    for (int at = 0; at < MANY; at += 3) {
        warm_device device = own_device_of(&all[at], &plain, 0);
        MUST(device_add(&device, 1, &number) && number == numbers[at]); /* the lowest first */
    }
    for (int at = MANY; at-- > 0;) device_drop(numbers[at]);
    nothing_left();
}

static void test_no_numbers(void) {
    own its[5] = {{.reads = 0}};
    int32_t numbers[5];
    for (int at = 0; at < 5; at++) {
        warm_device device = own_device_of(&its[at], &plain, 0);
        bool is_grown = at % 4 == 0;
        granted = 0;
        MUST(device_add(&device, 1, &numbers[at]) == !is_grown);
        granted = SIZE_MAX;
        if (is_grown) MUST(device_add(&device, 1, &numbers[at]));
    }
    for (int at = 0; at < 5; at++) device_drop(numbers[at]);
    nothing_left();
    own_count = own_room = MADE_UP; /* each number is taken */
    warm_device device = own_device_of(its, &plain, 0);
    MUST(!device_add(&device, 1, numbers));
    own_count = own_room = 0;
}

/* ---- one device ---- */

static void test_identities(void) {
    own its[2] = {{.reads = 0}};
    uint8_t first[DEVICE_IDENTITY], other[DEVICE_IDENTITY];
    int32_t numbers[4];
    int file = open("/tmp", O_RDONLY);
    const warm_device made[] = {own_device_of(&its[0], &plain, file),
        own_device_of(&its[0], &all_calls, 3), own_device_of(&its[1], &plain, file),
        own_device_of(&its[1], &hooks, file)};
    for (int at = 0; at < 4; at++) MUST(device_add(&made[at], 1, &numbers[at]));
    MUST(device_identity(numbers[0], first) &&
         memcmp(first, "\xFF\xFF\xFF\xFF\xFF\xFF\xFF\xFF", 8) == 0);
    MUST(device_identity(numbers[0], first) && device_identity(numbers[1], other) &&
         memcmp(first, other, 16) == 0);
    MUST(device_identity(numbers[2], other) && memcmp(first, other, 16) != 0);
    MUST(device_identity(file, first) && memcmp(first, other, 16) != 0);
    MUST(device_identity(numbers[3], other) && memcmp(first, other, 16) == 0);
    MUST(device_synced_as(numbers[3]) == file && device_synced_as(numbers[2]) == numbers[2]);
    appending = file;
    MUST(device_appends(&made[3]) && !device_appends(&made[2]) && !device_appends(&made[0]));
    appending = -77;
    for (int at = 0; at < 4; at++) device_drop(numbers[at]);
    MUST(!device_identity(numbers[3], other));
    close(file);
    nothing_left();
}

static void fails_with(ssize_t result, int error) { MUST(result == -1 && errno == error); }

/* Each call, and what comes of its answer. An answer that means something else here is EIO. */
static void test_own_calls(void) {
    own its = {.bytes = {[2] = 'b'}};
    warm_device device = own_device_of(&its, &all_calls, 99);
    uint8_t byte = 'a';
    int32_t number;
    MUST(device_add(&device, 4, &number)); /* place 8 is page 2 */
    MUST(device_read(number, &byte, 1, 8) == 1 && byte == 'b' && its.reads == 1);
    byte = 'c';
    MUST(device_write(number, &byte, 1, 12) == 1 && its.bytes[3] == 'c' && its.befores == 1 &&
         its.last_after == 0);
    MUST(device_sync(number) == 0 && its.syncs == 1 && syncs == 0 && put == 0);
    static const int errors[][2] = {
        {EIO, EIO}, {EBADMSG, EBADMSG}, {EINTR, EIO}, {EAGAIN, EIO}, {-5, -5}};
    for (int at = 0; at < 5; at++) {
        its.read_error = its.write_error = its.sync_error = errors[at][0];
        fails_with(device_read(number, &byte, 1, 8), errors[at][1]);
        fails_with(device_write(number, &byte, 1, 8), errors[at][1]);
        MUST(its.last_after == errors[at][1] && its.bytes[2] == 'b');
        fails_with(device_sync(number), errors[at][1]);
    }
    its = (own){.skips = 1 << 2};
    fails_with(device_write(number, &byte, 1, 8), EAGAIN);
    its.skips = 0;
    its.before_error = ENOSPC;
    fails_with(device_write(number, &byte, 1, 8), ENOSPC);
    its.before_error = EINTR;
    fails_with(device_write(number, &byte, 1, 8), EIO);
    MUST(its.befores == 3 && its.writes == 0 && its.afters == 0);
    device_drop(number);
    nothing_left();
}

/* No write of a descriptor fails as if its page was skipped. */
static void test_failing_descriptor(void) {
    own its = {.reads = 0};
    const warm_device devices_of_one[] = {own_device_of(&its, &hooks, 40), {.pages = 1, .fd = 41}};
    uint8_t byte = 'a';
    int32_t number;
    for (int at = 0; at < 2; at++) {
        MUST(device_add(&devices_of_one[at], 1, &number));
        put_error = EAGAIN;
        fails_with(device_write(number, &byte, 1, 0), EIO);
        put_error = ENOSPC;
        fails_with(device_write(number, &byte, 1, 0), ENOSPC);
        put_error = 0;
        MUST(device_write(number, &byte, 1, 0) == 1);
        device_drop(number);
    }
    MUST(its.befores == 3 && its.afters == 3 && its.inside == 0);
    nothing_left();
}

/* After a write has returned, its sync is counted before after_write is called. A write that is not
 * made is not counted. */
static int32_t told_number;

static void look_after(void *context, uint64_t no, int error) {
    (void)context, (void)no, (void)error;
    MUST(!sync_is_settled(device_synced_as(told_number)));
}

static void test_counted_writes(void) {
    for (int is_own = 0; is_own < 2; is_own++) {
        own its = {.skips = 1 << 1};
        warm_device_ops ops = is_own ? all_calls : hooks;
        ops.after_write = look_after;
        warm_device device = own_device_of(&its, &ops, 40);
        uint8_t byte = 'a';
        put = 0;
        MUST(device_add(&device, 1, &told_number) && sync_add(device_synced_as(told_number)));
        fails_with(device_write(told_number, &byte, 1, 1), EAGAIN);
        MUST(sync_is_settled(device_synced_as(told_number)) && put == 0);
        MUST(device_write(told_number, &byte, 1, 0) == 1 && put == !is_own);
        its.inside = 0;
        its.write_error = EIO;
        MUST(sync_once(device_synced_as(told_number)) == 0 &&
             sync_is_settled(device_synced_as(told_number)));
        if (is_own) fails_with(device_write(told_number, &byte, 1, 0), EIO);
        MUST(sync_is_settled(device_synced_as(told_number)) == !is_own);
        sync_drop(device_synced_as(told_number));
        device_drop(told_number);
    }
    syncs = 0;
    nothing_left();
}

/* ---- calls that use other replicas ---- */

static warm inner;

static void use_inner(own *its) {
    (void)its;
    MUST(!sync_later(false));
    syncs = 0;
    write_to(&inner, page_at(1), 'i');
    OK(warm_write_back_all(&inner));
    MUST(syncs == 1);
}

/* They sync at once, whatever the call is in that makes them; and that call goes on as before. */
static void test_inner_calls(void) {
    own its = {.at_before = use_inner, .skips = 1 << 3};
    const warm_device device = own_device_of(&its, &all_calls, 0);
    size_t left;
    warm outer = {0};
    OK(open_with(&outer, 1, 1, 8, &device, 1));
    OK(open_with(&inner, 1, 1, 8, devices, 1));
    for (uint64_t no = 2; no < 5; no++) write_to(&outer, page_at(no), 'o');
    MUST(warm_write_back_some(&outer, 1, &left) == WARM_OK && left == 2 && its.writes == 1);
    MUST(warm_write_back_some(&outer, 1, &left) == WARM_SKIPPED && its.writes == 2 &&
         its.befores == 3);
    its.at_before = NULL;
    its.skips = 0;
    OK(warm_write_back_all(&outer));
    MUST(its.syncs == 1);
    OK(warm_close(&outer));
    OK(warm_close(&inner));
    nothing_left();
}

/* ---- devices of replicas ---- */

/* Devices of each kind, and each allocation refused; what is refused leaves no number. */
static void test_opening_devices(void) {
    own its[2] = {{.reads = 0}};
    warm_device_ops bad = all_calls;
    bad.sync = NULL;
    warm_device made[] = {own_device_of(&its[0], &all_calls, 0), {.pages = 1, .fd = 50},
        own_device_of(&its[1], &hooks, 51)};
    warm handle = {0};
    EACH_REFUSED(open_with(&handle, 1, 2, 4, made, 3), (nothing_left(), handle.at == NULL));
    MUST(own_count == 2);
    MUST(warm_save(&handle, INT32_MIN) ==
         WARM_DUMP_NOT_WRITTEN); /* the number of a device is no descriptor */
    MUST(warm_load(&handle, INT32_MIN, 9) == WARM_DUMP_NOT_READ &&
         its[0].reads + its[0].writes == 0);
    OK(warm_close(&handle));
    made[0].ops = &bad;
    MUST(open_with(&handle, 1, 2, 4, made, 3) == WARM_BAD_DEVICE);
    made[0] = (warm_device){.pages = 1, .fd = INT32_MIN};
    MUST(open_with(&handle, 1, 2, 4, made, 3) == WARM_BAD_DEVICE);
    appending = 50; /* the next one, or the one before: either is refused after a bad one */
    MUST(open_with(&handle, 1, 2, 4, made, 3) == WARM_BAD_DEVICE);
    made[0] = made[1];
    made[1].fd = INT32_MIN;
    MUST(open_with(&handle, 1, 2, 4, made, 3) == WARM_BAD_DEVICE);
    MUST(open_with(&handle, 1, 2, 4, made, 1) == WARM_APPENDS);
    appending = -77;
    nothing_left();
    OK(open_with(&handle, 1, 1, 1, NULL, 0));
    MUST(warm_save(&handle, INT32_MIN) == WARM_DUMP_NOT_WRITTEN &&
         warm_load(&handle, INT32_MIN, 9) == WARM_DUMP_NOT_READ);
    OK(warm_close(&handle));
    nothing_left();
}

/* A write to a device that has no file yet fails, and there is nothing to sync: neither by its
 * replica nor by another one, whose device has no file either. Each gets its file. */
static void test_no_files(void) {
    for (int is_hooked = 0; is_hooked < 2; is_hooked++) {
        own its = {.reads = 0};
        const warm_device none = {
            .pages = PAGES, .fd = -1, .ops = is_hooked ? &hooks : NULL, .context = &its};
        const warm_device file = {.pages = PAGES, .fd = 50};
        warm first = {0}, other = {0};
        OK(open_with(&first, 1, 2, 4, &none, 1));
        OK(open_with(&other, 2, 1, 4, &none, 1));
        write_to(&first, page_at(1), 'a');
        MUST(warm_write_back_all(&first) == WARM_WRITE_FAULT);
        must_have_failed(&first, 1, 0, WARM_FAILED_WRITE, EBADF);
        OK(warm_write_back_all(&other));
        OK(warm_forget_pages(&first, 0, 0));
        OK(warm_flush_device(&first, 0));
        OK(warm_replace(&first, 0, &file));
        OK(warm_replace(&other, 0, &file));
        OK(warm_close(&first));
        OK(warm_close(&other));
        nothing_left();
    }
}

/* Dumps by a device's own calls, whose numbers are places, and to a descriptor that is asked before
 * each piece. */
static uint64_t put_until;

static int put_piece(void *context, uint64_t no, const void *bytes, size_t length) {
    MUST(no == put_until && length == 2 && memcmp(bytes, "du", 2) == 0);
    put_until += length;
    return *(int *)context;
}

static int get_piece(void *context, uint64_t no, void *into, size_t length) {
    MUST(no == 3 && length == 1);
    memset(into, 'u', 1);
    return *(int *)context;
}

static int sync_dump(void *context) { return *(int *)context; }

static int end_at_second(void *context, uint64_t no, const void *bytes, size_t length) {
    (void)bytes, (void)length;
    ++*(int *)context;
    return no > 0;
}

static void test_dumps(void) {
    static const warm_device_ops calls = {
        .size = sizeof calls, .read = get_piece, .write = put_piece, .sync = sync_dump};
    static const warm_device_ops ending = {.size = sizeof ending, .before_write = end_at_second};
    int answer = 0, asked = 0;
    const warm_device file = {.ops = &calls, .context = &answer},
                      stopped = {.fd = 50, .ops = &ending, .context = &asked};
    const warm_device bad = {.fd = INT32_MIN}, descriptor = {.fd = 51};
    const warm_reference seen[] = {{.no = 0, .replica = 1}, {.no = 1, .replica = 1}};
    warm handle = {0};
    size_t known;
    MUST(warm_save_to(&handle, &bad) == WARM_CLOSED &&
         warm_load_from(&handle, &bad, 1) == WARM_CLOSED);
    for (size_t shards = 1; shards <= 4; shards *= 4) {
        OK(open_with(&handle, 1, shards, shards, NULL, 0));
        OK(warm_absorb(&handle, seen, 2));
        MUST(warm_save_to(&handle, &bad) == WARM_BAD_DEVICE &&
             warm_load_from(&handle, &bad, 1) == WARM_BAD_DEVICE);
        EACH_REFUSED((put_until = 0, warm_save_to(&handle, &file)), own_devices == NULL);
        MUST(put_until == 4 && own_devices == NULL);
        EACH_REFUSED(warm_load_from(&handle, &file, 4), own_devices == NULL);
        OK(warm_history_length(&handle, &known));
        MUST(known > 2);
        answer = EIO;
        put_until = 0;
        MUST(warm_save_to(&handle, &file) == WARM_DUMP_NOT_WRITTEN &&
             warm_load_from(&handle, &file, 4) == WARM_DUMP_NOT_READ);
        answer = asked = syncs = 0;
        put = 0;
        MUST(warm_save_to(&handle, &stopped) == WARM_DUMP_NOT_WRITTEN && asked == 2 && put == 1 &&
             syncs == 0);
        OK(warm_save_to(&handle, &descriptor));
        MUST(put == 1 + (int)known && syncs == 1);
        OK(warm_close(&handle));
        nothing_left();
    }
    syncs = 0;
}

/* A fake node says that it made two. */
static uint64_t counted_writes(warm *handle) {
    warm_device_counters counters;
    OK(warm_device_counts(handle, 0, &counters));
    return counters.writes;
}

/* From one kind to another, with the pages of the old one written to it, and its calls made no
 * more. */
static void test_replacing_devices(void) {
    for (size_t shards = 1; shards <= 4; shards *= 4) {
        own its[2] = {{.reads = 0}};
        warm_device made = own_device_of(&its[0], &all_calls, 0),
                    next = own_device_of(&its[1], &all_calls, 0);
        const warm_device file = {.pages = PAGES, .fd = 52},
                          bad = {.pages = INT64_MAX, .fd = INT32_MIN};
        warm handle = {0}, other = {0};
        OK(open_with(&handle, 1, shards, 16, &made, 1));
        write_each(&handle, 0, 4);
        MUST(warm_replace(&handle, 0, &bad) == WARM_BAD_DEVICE &&
             warm_replace(&handle, 1, &bad) == WARM_NO_DEVICE);
        int there = own_count;
        EACH_REFUSED(warm_replace(&handle, 0, &next), own_count == (size_t)there);
        MUST(own_count == 1 && its[0].writes == 4 && its[0].syncs == 1);
        write_each(&handle, 0, 4);
        its[1].skips = 2;
        OK(warm_attach(&handle, &other)); /* so that it is not the nodes that write */
        MUST(warm_flush_device(&handle, 0) == WARM_SKIPPED &&
             counted_writes(&handle) == 2 * shards + 1);
        OK(warm_close(&other));
        its[1].skips = 0;
        OK(warm_replace(&handle, 0, &file));
        MUST(counted_writes(&handle) == 2 * shards); /* what was skipped was the other device's */
        MUST(own_count == 0 && its[1].writes == 4 && its[1].syncs == 2 && its[0].writes == 4);
        write_each(&handle, 0, 4);
        put = syncs = 0;
        OK(warm_replace(&handle, 0, &made));
        MUST(own_count == 1 && put == 4 && syncs == 1);
        OK(warm_close(&handle));
        nothing_left();
    }
}

int main(void) {
    test_good_devices();
    test_numbers();
    test_no_numbers();
    test_identities();
    test_own_calls();
    test_failing_descriptor();
    test_counted_writes();
    test_inner_calls();
    test_opening_devices();
    test_no_files();
    test_dumps();
    test_replacing_devices();
    puts("devices_test: as expected");
    return 0;
}

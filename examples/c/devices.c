/* Two devices of one handle: each page goes to the file of its device, and two devices of one file are refused. And what reaches a file for
 * certain: a close and a replacement sync what was written, and a sync that failed is not forgotten. The program has an fsync of its own, which counts.
 * And no device: a history alone. */
#define _GNU_SOURCE /* mkstemp, syscall */
#include <errno.h>
#include <fcntl.h>
#include <sys/syscall.h>

#define PROGRAM "devices"
#include "expect.h"

enum { PAGE_SIZE = 512, MANY = 65536 };

/* What fsync was called for, in place of the C library's. */
static struct {
    int calls, last;
    bool fails_next;
} syncs;

int fsync(int fd) {
    syncs.calls++;
    syncs.last = fd;
    if (syncs.fails_next) {
        syncs.fails_next = false;
        errno = EIO;
        return -1;
    }
    return (int)syscall(SYS_fsync, fd);
}

static void write_to(warm *handle, warm_page page, uint8_t byte) {
    warm_slot slot;
    OK(warm_pin(handle, page, &slot));
    OK(warm_write(handle, slot, 0, &byte, 1));
    OK(warm_unpin(handle, slot));
}

static uint8_t read_from(warm *handle, warm_page page) {
    warm_slot slot;
    uint8_t byte;
    OK(warm_pin(handle, page, &slot));
    OK(warm_read(handle, slot, 0, &byte, 1));
    OK(warm_unpin(handle, slot));
    return byte;
}

static uint8_t byte_at(int fd, off_t at) {
    uint8_t byte = 0;
    MUST(pread(fd, &byte, 1, at) == 1);
    return byte;
}

/* Pages of two files through a pool of one frame, so that each goes to its file and comes back from there. */
static void two_files(void) {
    int first = temporary(), second = temporary();
    const warm_device devices[] = {{.pages = 2, .fd = first}, {.pages = 8, .fd = second}};
    warm handle = {0};
    warm_slot slot;
    MUST(pwrite(second, "s", 1, 5 * PAGE_SIZE) == 1);
    OK(open_with(&handle, 1, 1, 1, PAGE_SIZE, devices, 2));
    write_to(&handle, (warm_page){.dev = 0, .no = 0}, 'a');
    write_to(&handle, (warm_page){.dev = 1, .no = 0}, 'b');
    MUST(read_from(&handle, (warm_page){.dev = 0, .no = 0}) == 'a');
    MUST(read_from(&handle, (warm_page){.dev = 1, .no = 0}) == 'b');
    MUST(read_from(&handle, (warm_page){.dev = 1, .no = 5}) == 's');
    EXPECT(WARM_NO_PAGE, warm_pin(&handle, (warm_page){.dev = 0, .no = 5}, &slot));
    EXPECT(WARM_NO_PAGE, warm_pin(&handle, (warm_page){.dev = 1, .no = 8}, &slot));
    EXPECT(WARM_NO_DEVICE, warm_pin(&handle, (warm_page){.dev = 2, .no = 0}, &slot));
    OK(warm_write_back_all(&handle));
    MUST(byte_at(first, 0) == 'a' && byte_at(second, 0) == 'b');
    MUST(lseek(first, 0, SEEK_END) == PAGE_SIZE && lseek(second, 0, SEEK_END) == 5 * PAGE_SIZE + 1);
    OK(warm_abandon(&handle));
    close(first);
    close(second);
}

static void open_two(int wanted, int first, int second) {
    const warm_device devices[] = {{.pages = 8, .fd = first}, {.pages = 8, .fd = second}};
    warm handle = {0};
    expect(wanted, open_with(&handle, 1, 1, 1, PAGE_SIZE, devices, 2), "warm_open of two devices");
    MUST((handle.at != NULL) == (wanted == WARM_OK));
    OK(warm_abandon(&handle));
}

/* One file under two descriptors: the same, a copy, another one by the same path, and by a hard link. */
static void same_file(void) {
    char path[] = "/tmp/warm-devices-XXXXXX", link_path[sizeof path + 5];
    int fd = mkstemp(path), other = temporary(), ends[2];
    snprintf(link_path, sizeof link_path, "%s.link", path);
    MUST(fd >= 0 && link(path, link_path) == 0 && pipe(ends) == 0);
    int copy = dup(fd), again = open(path, O_RDWR), linked = open(link_path, O_RDWR);
    MUST(copy >= 0 && again >= 0 && linked >= 0 && unlink(path) == 0 && unlink(link_path) == 0);
    open_two(WARM_SAME_FILE, fd, fd);
    open_two(WARM_SAME_FILE, fd, copy);
    open_two(WARM_SAME_FILE, again, fd);
    open_two(WARM_SAME_FILE, fd, linked);
    open_two(WARM_OK, fd, other);
    const warm_device three[] = {{.pages = 1, .fd = fd}, {.pages = 1, .fd = other}, {.pages = 1, .fd = linked}};
    warm handle = {0};
    EXPECT(WARM_SAME_FILE, open_with(&handle, 1, 1, 1, PAGE_SIZE, three, 3));
    OK(open_with(&handle, 1, 1, 1, PAGE_SIZE, three, 2));
    OK(warm_abandon(&handle));
    /* A descriptor without a file is the same as itself alone. */
    MUST(close(copy) == 0);
    open_two(WARM_OK, fd, copy);
    open_two(WARM_OK, copy, -1);
    open_two(WARM_OK, -1, INT32_MIN + (1 << 20));
    open_two(WARM_BAD_DEVICE, -1, INT32_MIN); /* the library's own numbers begin there */
    open_two(WARM_SAME_FILE, copy, copy);
    open_two(WARM_SAME_FILE, -1, -1);
    open_two(WARM_OK, ends[0], fd);
    open_two(WARM_SAME_FILE, ends[0], ends[1]); /* both ends are of one pipe */
    close(ends[0]);
    close(ends[1]);
    close(linked);
    close(again);
    close(other);
    close(fd);
}

/* What is checked first where more than one thing is wrong. */
static void order_of_refusals(void) {
    int fd = temporary();
    warm handle = {0};
    const warm_device twice[] = {{.pages = 8, .fd = fd}, {.pages = 8, .fd = fd}};
    const warm_device large[] = {{.pages = 8, .fd = fd}, {.pages = UINT64_MAX, .fd = fd}};
    EXPECT(WARM_BAD_REPLICA, open_with(&handle, 0, 1, 65537, 65537, large, 2));
    EXPECT(WARM_BAD_FRAMES, open_with(&handle, 1, 1, 65537, 65537, large, 2));
    EXPECT(WARM_BAD_PAGE_SIZE, open_with(&handle, 1, 1, 1, 65537, large, 2));
    EXPECT(WARM_BAD_DEVICE, open_with(&handle, 1, 1, 1, PAGE_SIZE, large, 2));
    MUST(fcntl(fd, F_SETFL, O_APPEND) == 0);
    EXPECT(WARM_APPENDS, open_with(&handle, 1, 1, 1, PAGE_SIZE, twice, 2));
    MUST(fcntl(fd, F_SETFL, 0) == 0);
    EXPECT(WARM_SAME_FILE, open_with(&handle, 1, 1, 1, PAGE_SIZE, twice, 2));
    close(fd);
}

/* As many devices as a pool takes: their descriptors are closed, and no two are equal but where one is changed. */
static void many_devices(void) {
    static warm_device devices[MANY + 1];
    warm handle = {0};
    for (int at = 0; at <= MANY; at++) devices[at] = (warm_device){.pages = 1, .fd = -1 - at};
    OK(open_with(&handle, 1, 1, 1, PAGE_SIZE, devices, MANY));
    OK(warm_abandon(&handle));
    devices[MANY - 1].fd = devices[0].fd;
    EXPECT(WARM_SAME_FILE, open_with(&handle, 1, 1, 1, PAGE_SIZE, devices, MANY));
    EXPECT(WARM_BAD_DEVICE, open_with(&handle, 1, 1, 1, PAGE_SIZE, devices, MANY + 1));
}

/* A sync that fails once: the system may have dropped what was written, so no later flush says that all is well. */
static void failed_sync(void) {
    int first = temporary(), second = temporary();
    const warm_device devices[] = {{.pages = 8, .fd = first}, {.pages = 8, .fd = second}};
    warm handle = {0};
    OK(open_with(&handle, 1, 1, 2, PAGE_SIZE, devices, 2));
    OK(warm_write_back_all(&handle)); /* nothing was written, and nothing is synced */
    MUST(syncs.calls == 0);
    write_to(&handle, (warm_page){.no = 1}, 'c');
    syncs.fails_next = true;
    EXPECT(WARM_WRITE_FAULT, warm_write_back_all(&handle));
    MUST(syncs.calls == 1 && syncs.last == first);
    EXPECT(WARM_WRITE_FAULT, warm_write_back_all(&handle)); /* a sync would succeed now */
    write_to(&handle, (warm_page){.no = 2}, 'd');
    EXPECT(WARM_WRITE_FAULT, warm_write_back_all(&handle));
    MUST(syncs.calls == 1 && read_from(&handle, (warm_page){.no = 2}) == 'd');
    EXPECT(WARM_WRITE_FAULT, warm_replace(&handle, 0, &(warm_device){.pages = 8, .fd = -1})); /* nor is it got rid of by another file */
    OK(warm_abandon(&handle));
    MUST(syncs.calls == 1);
    OK(open_with(&handle, 1, 1, 2, PAGE_SIZE, devices, 2)); /* it knows nothing of what failed before */
    write_to(&handle, (warm_page){.no = 1}, 'e');
    OK(warm_write_back_all(&handle));
    MUST(syncs.calls == 2 && byte_at(first, PAGE_SIZE) == 'e');
    OK(warm_abandon(&handle));
    close(first);
    close(second);
}

/* A page that was evicted is in its file, and waits for a sync: the close makes it, of that file alone. */
static void close_syncs(void) {
    int first = temporary(), second = temporary();
    const warm_device devices[] = {{.pages = 8, .fd = first}, {.pages = 8, .fd = second}};
    warm handle = {0};
    OK(open_with(&handle, 1, 1, 1, PAGE_SIZE, devices, 2));
    write_to(&handle, (warm_page){.dev = 1, .no = 1}, 'f');
    syncs.calls = 0;
    MUST(read_from(&handle, (warm_page){.dev = 0, .no = 1}) == 0); /* 1:1 leaves */
    MUST(byte_at(second, PAGE_SIZE) == 'f' && syncs.calls == 0);
    OK(warm_abandon(&handle));
    MUST(syncs.calls == 1 && syncs.last == second);
    OK(open_with(&handle, 1, 1, 1, PAGE_SIZE, devices, 2));
    write_to(&handle, (warm_page){.dev = 1, .no = 1}, 'g');
    OK(warm_write_back_all(&handle));
    MUST(syncs.calls == 2);
    OK(warm_abandon(&handle)); /* nothing waits */
    MUST(syncs.calls == 2);
    close(first);
    close(second);
}

/* A file that is replaced is synced where it waits for that, and no other is. */
static void replace_syncs(void) {
    int first = temporary(), second = temporary(), third = temporary();
    const warm_device devices[] = {{.pages = 8, .fd = first}, {.pages = 8, .fd = second}};
    warm handle = {0};
    OK(open_with(&handle, 1, 1, 2, PAGE_SIZE, devices, 2));
    write_to(&handle, (warm_page){.dev = 0, .no = 1}, 'h');
    write_to(&handle, (warm_page){.dev = 1, .no = 1}, 'i');
    syncs.calls = 0;
    OK(warm_replace(&handle, 1, &(warm_device){.pages = 8, .fd = third}));
    MUST(syncs.calls == 1 && syncs.last == second && byte_at(second, PAGE_SIZE) == 'i');
    OK(warm_replace(&handle, 1, &devices[1])); /* nothing was written to the third */
    MUST(syncs.calls == 1);
    OK(warm_abandon(&handle));
    MUST(syncs.calls == 1); /* page 0:1 was never written back */
    close(first);
    close(second);
    close(third);
}

/* What the first knows, bucket by bucket, at the second, which then answers nothing to the first's digests. */
static void tell_all(warm *first, warm *second) {
    static uint8_t frame[32768];
    const warm_page none = {0};
    size_t length;
    for (uint8_t bucket = 0; bucket < 64; bucket++) {
        OK(send_behind(first, bucket, false, none, frame, sizeof frame, &length));
        OK(warm_receive(second, frame, length));
    }
    OK(warm_offer(first, frame, sizeof frame, &length));
    OK(warm_receive(second, frame, length));
    OK(warm_next_answer(second, frame, sizeof frame, &length));
    MUST(length == 0);
}

/* A pool that can have no page: none is pinned, loaded, named or written. */
static void has_no_pages(warm *handle, warm_page known) {
    warm_slot slot = {.generation = 1};
    warm_page page = {.no = 99, .dev = 9};
    uint8_t byte = 'h';
    bool found = true;
    EXPECT(WARM_NO_DEVICE, warm_pin(handle, known, &slot));
    EXPECT(WARM_STALE_SLOT, warm_read(handle, slot, 0, &byte, 1));
    EXPECT(WARM_STALE_SLOT, warm_write(handle, slot, 0, &byte, 1));
    EXPECT(WARM_STALE_SLOT, warm_unpin(handle, slot));
    OK(warm_step(handle, &found, &page));
    MUST(!found);
    found = true;
    OK(next_victim(handle, 0, &found, &page));
    MUST(!found && page.no == 99 && page.dev == 9 && byte == 'h' && slot.generation == 1);
    OK(warm_write_back_all(handle));
}

/* No device, and one frame of one byte: a history alone, which hears of pages, lists them, passes them on, is saved and loaded. */
static void history_alone(void) {
    const warm_reference references[] = {
        {.time = 10, .no = 7, .replica = 1}, {.time = 20, .no = 7, .replica = 1}, {.time = 30, .no = 3, .dev = 5, .replica = 1}};
    const warm_device none = {0};
    warm first = {0}, second = {0}, restarted = {0};
    warm_page listed[4];
    size_t count = 0;
    uint64_t horizon = 0;
    int fd = temporary();
    OK(open_with(&first, 1, 1, 1, 1, &none, 0));
    OK(open_with(&second, 2, 1, 1, 1, &none, 0));
    OK(open_with(&restarted, 2, 1, 1, 1, &none, 0));
    OK(warm_absorb(&first, references, 3));
    tell_all(&first, &second);
    OK(warm_list(&second, listed, 4, &count));
    MUST(count == 2 && listed[0].no == 7 && listed[0].dev == 0 && listed[1].no == 3 && listed[1].dev == 5);
    has_no_pages(&second, listed[0]);
    OK(warm_save(&second, fd));
    OK(warm_load(&restarted, fd, (uint64_t)lseek(fd, 0, SEEK_END)));
    OK(warm_history_length(&restarted, &count));
    MUST(count == 2);
    tell_all(&restarted, &first);
    OK(warm_raise(&restarted, 25, &horizon));
    OK(warm_history_length(&restarted, &count));
    MUST(horizon == 25 && count == 1);
    OK(warm_abandon(&first));
    OK(warm_abandon(&second));
    OK(warm_abandon(&restarted));
    close(fd);
}

int main(void) {
    two_files();
    same_file();
    order_of_refusals();
    many_devices();
    syncs.calls = 0;
    failed_sync();
    close_syncs();
    replace_syncs();
    history_alone();
    return end_as_expected();
}

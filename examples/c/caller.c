/* Two replicas over a file each: they exchange what they know, one warms up, and a page goes to the file and comes back. Then one saves its
 * history to a file, and a replica that starts again loads it. */
#define _GNU_SOURCE /* mkstemp, mkdtemp, openat */
#include <fcntl.h>
#include <stdio.h>
#include <stdlib.h>
#include <string.h>
#include <sys/stat.h>
#include <unistd.h>

#include "warm.h"

enum { FRAMES = 4, PAGE_SIZE = 512, PAGES = 32 };

/* Ends the program with a status that is not WARM_OK, and with the call that answered it. */
static void check(int status, const char *call) {
    if (status == WARM_OK) return;
    fprintf(stderr, "%s: %s\n", call, warm_strerror(status));
    exit(1);
}
#define DO(call) check(call, #call)

static int open_replica(warm *handle, uint16_t number) {
    char path[] = "/tmp/warm-caller-XXXXXX";
    int fd = mkstemp(path);
    warm_device device = {.pages = PAGES, .fd = fd};
    warm_options options = {.size = sizeof options, .replica = number, .frames = FRAMES, .page_size = PAGE_SIZE, .devices = &device, .device_count = 1};
    if (fd < 0 || unlink(path) != 0) exit(1);
    DO(warm_open(handle, &options));
    return fd;
}

/* Carries every answer that waits at one replica to another. The transport is yours: here it is a buffer. */
static void carry_answers(warm *from, warm *to, uint8_t *message, size_t room) {
    size_t length;
    for (;;) {
        DO(warm_next_answer(from, message, room, &length));
        if (length == 0) return;
        DO(warm_receive(to, message, length));
    }
}

/* One round of gossip: the first offers its digests, the second answers with what differs and a request, the first answers that. */
static void gossip(warm *first, warm *second) {
    static uint8_t message[WARM_MESSAGE_ROOM];
    size_t length;
    DO(warm_offer(first, message, sizeof message, &length));
    DO(warm_receive(second, message, length));
    carry_answers(second, first, message, sizeof message); /* the last of these is the request, and its answers wait at first */
    carry_answers(first, second, message, sizeof message);
}

static void must_be_equal(warm *first, warm *second) {
    uint8_t message[4096];
    size_t length;
    DO(warm_offer(first, message, sizeof message, &length));
    DO(warm_receive(second, message, length));
    DO(warm_next_answer(second, message, sizeof message, &length));
    if (length != 0) exit(1); /* equal digests get no answer */
}

static void warm_up(warm *standby) {
    warm_page page;
    bool found;
    do {
        DO(warm_step(standby, &found, &page));
        if (found) printf("loaded page %llu\n", (unsigned long long)page.no);
    } while (found);
}

/* Writes to a page through the pool, and looks for it in the file. */
static void write_a_page(warm *handle, int fd) {
    static const char text[] = "written through the pool";
    char back[sizeof text];
    warm_slot slot;
    DO(warm_pin(handle, (warm_page){.no = 7}, &slot));
    DO(warm_write(handle, slot, 100, text, sizeof text));
    DO(warm_read(handle, slot, 100, back, sizeof back));
    DO(warm_unpin(handle, slot));
    DO(warm_write_back_all(handle));
    printf("%s\n", back);
    if (pread(fd, back, sizeof back, 7 * PAGE_SIZE + 100) != sizeof back || memcmp(back, text, sizeof text) != 0) exit(1);
}

/* Replaces the file of a folder that has the history: after a crash it is the old one or the new one. */
static void save_history(warm *handle, int folder) {
    int fd = openat(folder, "history.new", O_WRONLY | O_CREAT | O_EXCL, 0600);
    if (fd < 0) exit(1);
    DO(warm_save(handle, fd));
    if (close(fd) != 0 || renameat(folder, "history.new", folder, "history") != 0 || fsync(folder) != 0) exit(1);
}

static void load_history(warm *handle, int folder) {
    int fd = openat(folder, "history", O_RDONLY);
    struct stat file;
    if (fd < 0 || fstat(fd, &file) != 0) exit(1);
    DO(warm_load(handle, fd, (uint64_t)file.st_size));
    close(fd);
}

/* A replica that starts again from the file knows what the one knew that wrote it. */
static void restart(warm *handle) {
    char path[] = "/tmp/warm-history-XXXXXX";
    warm restarted = {0};
    warm_options alone = {.size = sizeof alone, .replica = 2}; /* no device: a history alone */
    size_t pages;
    int folder = mkdtemp(path) == NULL ? -1 : open(path, O_RDONLY | O_DIRECTORY);
    if (folder < 0) exit(1);
    save_history(handle, folder);
    save_history(handle, folder);
    DO(warm_open(&restarted, &alone));
    load_history(&restarted, folder);
    must_be_equal(handle, &restarted);
    DO(warm_history_length(&restarted, &pages));
    printf("restored %zu pages\n", pages);
    DO(warm_close(&restarted));
    if (unlinkat(folder, "history", 0) != 0 || rmdir(path) != 0) exit(1);
    close(folder);
}

int main(void) {
    warm first = {0}, second = {0};
    /* A pin is no reference: whoever pins a page also absorbs one. dev is 0 throughout. */
    const warm_reference at_first[] = {{.replica = 1, .no = 7, .time = 10}, {.replica = 1, .no = 7, .time = 20}, {.replica = 1, .no = 3, .time = 30}};
    const warm_reference at_second[] = {{.replica = 2, .no = 9, .time = 15}, {.replica = 2, .no = 9, .time = 25}};
    int first_fd = open_replica(&first, 1), second_fd = open_replica(&second, 2);
    DO(warm_absorb(&first, at_first, 3));
    DO(warm_absorb(&second, at_second, 2));
    gossip(&first, &second);
    must_be_equal(&first, &second);
    warm_up(&second);
    write_a_page(&second, second_fd);
    restart(&second);
    DO(warm_close(&first));
    DO(warm_close(&second));
    return close(first_fd) != 0 || close(second_fd) != 0;
}

/* A primary writes pages, and tells a standby which of them it uses. The standby loads these. */
#include <fcntl.h>
#include <stdio.h>
#include <stdlib.h>
#include <string.h>
#include <unistd.h>
#include <warm.h>

static void check(int status, const char *call) {
    if (status == WARM_OK) return;
    fprintf(stderr, "%s: %s\n", call, warm_strerror(status));
    exit(1);
}
#define CHECK(call) check(call, #call)

static void open_replica(warm *handle, uint32_t replica, int fd) {
    warm_device device = {.pages = 1000, .fd = fd};
    warm_options options = {.size = sizeof options, .replica = replica, .frames = 64,
                            .devices = &device, .device_count = 1};
    CHECK(warm_open(handle, &options));
}

static void use_page(warm *handle, uint64_t no, uint64_t time, const char *text) {
    warm_reference reference = {.replica = 1, .no = no, .time = time};
    warm_slot slot;
    CHECK(warm_pin(handle, (warm_page){.no = no}, &slot)); /* it stays in its frame */
    CHECK(warm_write(handle, slot, 0, text, strlen(text)));
    CHECK(warm_unpin(handle, slot));
    CHECK(warm_absorb(handle, &reference, 1)); /* a pin is no reference */
}

/* Carries the answers that wait at one replica to the other. */
static void carry(warm *from, warm *to) {
    uint8_t message[WARM_MESSAGE_ROOM];
    size_t length;
    for (;;) {
        CHECK(warm_next_answer(from, message, sizeof message, &length));
        if (length == 0) return;
        CHECK(warm_receive(to, message, length));
    }
}

int main(void) {
    warm primary = {0}, standby = {0};
    uint8_t offer[WARM_MESSAGE_ROOM];
    size_t length;
    bool found;
    warm_page page;
    int fds[] = {open("primary.pages", O_RDWR | O_CREAT | O_TRUNC, 0600),
                 open("standby.pages", O_RDWR | O_CREAT | O_TRUNC, 0600)};
    if (fds[0] < 0 || fds[1] < 0) return perror("open"), 1;
    open_replica(&primary, 1, fds[0]);
    open_replica(&standby, 2, fds[1]);
    for (uint64_t time = 1; time <= 9; time++) use_page(&primary, time % 4, time, "hello");

    CHECK(warm_offer(&standby, offer, sizeof offer, &length)); /* a round of gossip */
    CHECK(warm_receive(&primary, offer, length));
    carry(&primary, &standby); /* what the standby lacks, and what the primary asks for */
    carry(&standby, &primary);

    for (CHECK(warm_step(&standby, &found, &page)); found;
         CHECK(warm_step(&standby, &found, &page)))
        printf("loaded page %llu\n", (unsigned long long)page.no);
    CHECK(warm_write_back_all(&primary)); /* warm_close refuses to lose dirty pages */
    CHECK(warm_close(&primary));
    CHECK(warm_close(&standby));
    return close(fds[0]) | close(fds[1]);
}

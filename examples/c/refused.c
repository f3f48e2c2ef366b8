/* Each allocation of a call fails in turn, and each mapping, until the call succeeds: it returns WARM_MEMORY, and what was there before is still
 * there. What allocates nothing succeeds while every allocation fails. The check links malloc, realloc, free, mmap and munmap to the functions below
 * (ld --wrap). refused SHARDS: a replica has this many. A call on several of them may be refused with a part of it done, and is whole once it
 * succeeds. */
#define _GNU_SOURCE /* mkstemp */
#define PROGRAM "refused"
#include "expect.h"

#include <errno.h>
#include <sys/mman.h>

enum { PAGE_SIZE = 512, FRAMES = 4, SEEN = 200, FRAME_ROOM = 40000, MOST_GRANTS = 100000 };

static size_t shards;

/* How many more allocations and mappings succeed, and how many of both there are. */
static size_t granted = SIZE_MAX;
static long blocks, mappings;

void *__real_malloc(size_t size);
void *__real_realloc(void *block, size_t size);
void __real_free(void *block);
void *__real_mmap(void *at, size_t size, int may, int how, int fd, off_t from);
int __real_munmap(void *at, size_t size);

static bool is_granted(void) {
    if (granted == 0) return false;
    if (granted != SIZE_MAX) granted--;
    return true;
}

void *__wrap_malloc(size_t size) {
    void *block = is_granted() ? __real_malloc(size) : NULL;
    blocks += block != NULL;
    return block;
}

void *__wrap_realloc(void *block, size_t size) {
    void *moved = is_granted() ? __real_realloc(block, size) : NULL;
    blocks += block == NULL && moved != NULL;
    return moved;
}

void __wrap_free(void *block) {
    blocks -= block != NULL;
    __real_free(block);
}

void *__wrap_mmap(void *at, size_t size, int may, int how, int fd, off_t from) {
    void *mapping = is_granted() ? __real_mmap(at, size, may, how, fd, from) : MAP_FAILED;
    mappings += mapping != MAP_FAILED;
    return mapping;
}

int __wrap_munmap(void *at, size_t size) {
    mappings--;
    return __real_munmap(at, size);
}

/* The call, once with none of its allocations granted, once with one, and so on; and what holds after each refusal. */
#define EACH_REFUSED(call, unchanged)                                           \
    do {                                                                        \
        size_t grants = 0;                                                      \
        for (int status = WARM_MEMORY; status != WARM_OK; grants++) {           \
            granted = grants;                                                   \
            status = (call);                                                    \
            granted = SIZE_MAX;                                                 \
            if (status != WARM_OK) expect(WARM_MEMORY, status, #call);          \
            MUST(status == WARM_OK || (grants < MOST_GRANTS && (unchanged)));   \
        }                                                                       \
        MUST(grants > 1); /* it allocates, and so was refused */                \
        expected_count++;                                                       \
    } while (0)

/* The call with no allocation granted. */
#define UNREFUSED(call)                     \
    do {                                    \
        granted = 0;                        \
        int status = (call);                \
        granted = SIZE_MAX;                 \
        expect(WARM_OK, status, #call);     \
    } while (0)

static size_t known(warm *handle) {
    size_t length;
    OK(warm_history_length(handle, &length));
    return length;
}

static uint8_t first_byte(warm *handle, warm_page page) {
    const uint8_t *bytes;
    warm_slot slot;
    UNREFUSED(warm_pin_bytes(handle, page, &slot, &bytes));
    UNREFUSED(warm_bytes(handle, slot, &bytes));
    uint8_t byte = bytes[0];
    UNREFUSED(warm_unpin(handle, slot));
    return byte;
}

static void opened(warm *handle, uint16_t replica, int fd) {
    warm_device device = {.pages = 16, .fd = fd};
    EACH_REFUSED(open_with(handle, replica, shards, FRAMES * shards, PAGE_SIZE, &device, 1), handle->at == NULL);
}

/* Frames of whole pages of the system, whose memory is mapped. Nothing is left of a refused call, nor after the close. */
static void mapped(void) {
    for (size_t size = 4096; size <= 16384; size *= 4) {
        warm_device device = {.pages = 1000, .fd = temporary()};
        warm handle = {0};
        EACH_REFUSED(open_with(&handle, 1, shards, 600, size, &device, 1), handle.at == NULL && blocks == 0 && mappings == 0);
        MUST(mappings > 0);
        UNREFUSED(warm_close(&handle));
        MUST(blocks == 0 && mappings == 0);
        close(device.fd);
    }
}

static void attached(warm *handle) {
    warm other = {0};
    EACH_REFUSED(warm_attach(handle, &other), other.at == NULL);
    EXPECT(WARM_ATTACHED, warm_close(handle));
    UNREFUSED(warm_close(&other));
}

/* Whether this many pages are known; of several shards each has its part or not. */
static bool knows(warm *handle, size_t before, size_t after) {
    size_t length = known(handle);
    return length == before || (shards > 1 && length > before && length <= after);
}

/* ---- devices with calls of their own ---- */

static uint8_t in_memory[16][PAGE_SIZE];
static uint64_t skipping = UINT64_MAX; /* the page that is skipped */

static int read_page(void *context, uint64_t no, void *into, size_t length) {
    (void)context;
    memcpy(into, in_memory[no], length);
    return 0;
}

static int write_page(void *context, uint64_t no, const void *bytes, size_t length) {
    (void)context;
    memcpy(in_memory[no], bytes, length);
    return 0;
}

static int sync_pages(void *context) { return context == NULL; }

static int skip_page(void *context, uint64_t no, const void *bytes, size_t length) {
    (void)context, (void)bytes, (void)length;
    return no == skipping ? EAGAIN : 0;
}

static const warm_device_ops calls = {.size = sizeof calls, .read = read_page, .write = write_page, .sync = sync_pages, .before_write = skip_page};

/* One that is in memory: opened, written back past a page that is skipped, replaced by itself. */
static void own_device(void) {
    const warm_device device = {.pages = 16, .ops = &calls, .context = in_memory};
    warm handle = {0};
    warm_slot slot;
    size_t left;
    EACH_REFUSED(open_with(&handle, 1, shards, FRAMES * shards, PAGE_SIZE, &device, 1), handle.at == NULL && blocks == 0 && mappings == 0);
    for (uint64_t no = 0; no < 2; no++) {
        UNREFUSED(warm_pin_zeroed(&handle, (warm_page){.no = no}, &slot));
        UNREFUSED(warm_write(&handle, slot, 0, "m", 1));
        UNREFUSED(warm_unpin(&handle, slot));
    }
    skipping = 0;
    granted = 0;
    EXPECT(WARM_SKIPPED, warm_write_back_all(&handle));
    EXPECT(WARM_SKIPPED, warm_write_back_some(&handle, 1, &left));
    granted = SIZE_MAX;
    MUST(in_memory[0][0] == 0 && in_memory[1][0] == 'm');
    skipping = UINT64_MAX;
    EACH_REFUSED(warm_replace(&handle, 0, &device), shards > 1 || first_byte(&handle, (warm_page){.no = 0}) == 'm');
    MUST(in_memory[0][0] == 'm' && first_byte(&handle, (warm_page){.no = 0}) == 'm');
    UNREFUSED(warm_close(&handle));
    MUST(blocks == 0 && mappings == 0);
}

static uint64_t resident_pages(warm *handle) {
    warm_counters counters;
    UNREFUSED(warm_counts(handle, &counters));
    return counters.resident;
}

/* A step of a warm-up loads the hottest page of a shard, or the pool is as it was: by a handle that is alone, and beside another one. */
static void stepped(bool is_shared) {
    enum { PAGES = 16 };
    const warm_device device = {.pages = PAGES, .fd = temporary()};
    warm_reference seen[PAGES];
    warm handle = {0}, other = {0};
    warm_page page = {.no = 77};
    bool found = false;
    for (uint64_t no = 0; no < PAGES; no++) seen[no] = (warm_reference){.time = no + 1, .no = no, .replica = 1};
    OK(open_with(&handle, 1, shards, FRAMES * shards, PAGE_SIZE, &device, 1));
    OK(warm_absorb(&handle, seen, PAGES));
    if (is_shared) OK(warm_attach(&handle, &other));
    EACH_REFUSED(warm_step(&handle, &found, &page), !found && page.no == 77 && resident_pages(&handle) == 0);
    MUST(found && page.dev == 0 && page.no < PAGES && page.no + shards >= PAGES && resident_pages(&handle) == 1);
    UNREFUSED(warm_resident(&handle, page, &found));
    MUST(found && known(&handle) == PAGES);
    UNREFUSED(warm_close(&other));
    UNREFUSED(warm_close(&handle));
    MUST(blocks == 0 && mappings == 0);
    close(device.fd);
}

/* Histories: absorbed, sent, received, listed, saved and loaded. */
static void histories(warm *from, warm *to) {
    static warm_reference seen[SEEN];
    static uint8_t frame[FRAME_ROOM];
    warm_sending sending = {.since = 5};
    warm_page pages[SEEN], last = {0};
    size_t length = 77, count = 77;
    for (uint64_t at = 0; at < SEEN; at++) seen[at] = (warm_reference){.time = at + 1, .no = at / 2 * 64 + at % 2, .replica = 1};
    EACH_REFUSED(warm_absorb(from, seen, SEEN), knows(from, 0, SEEN));
    MUST(known(from) == SEEN);
    EACH_REFUSED(warm_send(from, &sending, frame, sizeof frame, &length), length == 77 && !sending.more && !sending.has_after);
    MUST(!sending.more && sending.has_after && sending.after.no == (SEEN / 2 - 1) * 64 && sending.after.dev == 0);
    EACH_REFUSED(warm_receive(to, frame, length), known(to) == 0);
    MUST(known(to) == SEEN / 2 - 2); /* those at times from 5 on */
    length = 77;
    EACH_REFUSED(send_behind(from, 1, false, last, frame, sizeof frame, &length), length == 77);
    EACH_REFUSED(warm_receive(to, frame, length), known(to) == SEEN / 2 - 2);
    length = 77;
    EACH_REFUSED(warm_offer(from, frame, sizeof frame, &length), length == 77);
    EACH_REFUSED(warm_receive(to, frame, length), known(to) == SEEN - 2);
    length = 77;
    EACH_REFUSED(warm_next_answer(to, frame, sizeof frame, &length), length == 77);
    MUST(length == 19 + 4 + 21 * (SEEN / 2 - 2) && frame[4] == 1); /* the first answer: the entries of bucket 0, which differs */
    EACH_REFUSED(warm_next_answer(to, frame, sizeof frame, &length), length == 19 + 4 + 21 * (SEEN / 2 - 2));
    MUST(length == 19 + 8 && frame[4] == 3 && frame[length - 1] == 1); /* and the request for those of bucket 0 */
    OK(warm_next_answer(to, frame, sizeof frame, &length));
    MUST(length == 0);
    EACH_REFUSED(warm_list(from, pages, SEEN, &count), count == 77);
    MUST(count == SEEN);
    int dump = temporary();
    EACH_REFUSED(warm_save(from, dump), known(from) == SEEN);
    off_t end = lseek(dump, 0, SEEK_END);
    EACH_REFUSED(warm_load(to, dump, (uint64_t)end), knows(to, SEEN - 2, SEEN));
    MUST(known(to) == SEEN);
    const warm_device file = {.fd = dump};
    EACH_REFUSED(warm_save_to(from, &file), known(from) == SEEN);
    EACH_REFUSED(warm_load_from(to, &file, (uint64_t)end), known(to) == SEEN);
    close(dump);
}

/* A device is replaced, or the old one is still there with all that was written. */
static void replaced(warm *handle, int other) {
    uint8_t byte = 'n';
    warm_device device = {.pages = 16, .fd = other};
    warm_slot slot;
    MUST(pwrite(other, &byte, 1, 0) == 1);
    UNREFUSED(warm_pin(handle, (warm_page){0}, &slot));
    byte = 'o';
    UNREFUSED(warm_write(handle, slot, 0, &byte, 1));
    UNREFUSED(warm_unpin(handle, slot));
    EACH_REFUSED(warm_replace(handle, 0, &device), shards > 1 || first_byte(handle, (warm_page){0}) == 'o');
    MUST(first_byte(handle, (warm_page){0}) == 'n');
}

/* More pages than there are frames, each of which is written to: they are read, evicted and written back. Beside another handle a page is
 * read into a buffer that its handle has. */
static void unrefused_evictions(warm *handle) {
    warm_slot slot;
    for (uint64_t no = 0; no < 3 * FRAMES; no++) {
        uint8_t byte = (uint8_t)(no + 1);
        UNREFUSED(warm_pin(handle, (warm_page){.no = no}, &slot));
        UNREFUSED(warm_write(handle, slot, 1, &byte, 1));
        UNREFUSED(warm_unpin(handle, slot));
    }
    for (uint64_t no = 0; no < 3 * FRAMES; no++) {
        uint8_t byte = 0;
        UNREFUSED(warm_pin(handle, (warm_page){.no = no}, &slot));
        UNREFUSED(warm_read(handle, slot, 1, &byte, 1));
        UNREFUSED(warm_unpin(handle, slot));
        MUST(byte == no + 1);
        UNREFUSED(warm_prefetch(handle, (warm_page){.no = no / 2}));
    }
    UNREFUSED(warm_write_back_all(handle));
}

static void unrefused_beside(warm *handle) {
    warm other = {0};
    OK(warm_attach(handle, &other));
    unrefused_evictions(&other);
    UNREFUSED(warm_close(&other));
}

/* What allocates nothing. */
static void unrefused(warm *handle) {
    uint8_t *bytes, read;
    size_t left;
    uint64_t horizon;
    bool resident, written = false, has_failed;
    warm_page page;
    size_t count;
    warm_options options = {.size = sizeof options};
    warm_slot slot;
    warm_counters counters;
    warm_device_counters device_counters;
    warm_failure failure;
    UNREFUSED(warm_pin_zeroed(handle, (warm_page){.no = 3}, &slot));
    UNREFUSED(warm_bytes_mut(handle, slot, &bytes));
    bytes[PAGE_SIZE - 1] = 'z';
    UNREFUSED(warm_mark_dirty(handle, slot));
    UNREFUSED(warm_read(handle, slot, PAGE_SIZE - 1, &read, 1));
    MUST(read == 'z');
    UNREFUSED(warm_resident(handle, (warm_page){.no = 3}, &resident));
    UNREFUSED(warm_write_back_page(handle, (warm_page){.no = 3}, &written));
    UNREFUSED(warm_write_back_some(handle, 1, &left));
    MUST(resident && written && left == 0);
    UNREFUSED(warm_flush_device(handle, 0));
    UNREFUSED(warm_unpin(handle, slot));
    UNREFUSED(warm_victims(handle, 0, &page, 1, &count));
    UNREFUSED(warm_settings(handle, &options));
    UNREFUSED(warm_limit_waits(handle, UINT64_MAX));
    UNREFUSED(warm_forget_pages(handle, 0, 3));
    UNREFUSED(warm_counts(handle, &counters));
    UNREFUSED(warm_device_counts(handle, 0, &device_counters));
    UNREFUSED(warm_last_failure(handle, &has_failed, &failure));
    MUST(count == 1 && options.page_size == PAGE_SIZE && !has_failed && counters.dirty == 0 && device_counters.failures == 0);
    UNREFUSED(warm_limit(handle, UINT64_MAX));
    UNREFUSED(warm_limit_history(handle, UINT64_MAX, SIZE_MAX));
    UNREFUSED(warm_raise(handle, 1, &horizon));
    UNREFUSED(warm_write_back_all(handle));
    MUST(known(handle) == SEEN);
}

int main(int count, char **words) {
    MUST(count == 2);
    shards = strtoul(words[1], NULL, 10);
    int fds[] = {temporary(), temporary(), temporary()};
    warm from = {0}, to = {0};
    mapped();
    own_device();
    stepped(false);
    stepped(true);
    opened(&from, 1, fds[0]);
    opened(&to, 2, fds[1]);
    attached(&from);
    histories(&from, &to);
    replaced(&from, fds[2]);
    unrefused_evictions(&from);
    unrefused_beside(&from);
    unrefused(&from);
    UNREFUSED(warm_close(&from));
    UNREFUSED(warm_close(&to));
    MUST(from.at == NULL && to.at == NULL && blocks == 0 && mappings == 0);
    for (int at = 0; at < 3; at++) close(fds[at]);
    return end_as_expected();
}

/*
 * stress.c: threads that share one replica in shards, against a model: stress SHARDS THREADS SECONDS SEED.
 *
 * Each thread has a handle of its own, and makes calls that are drawn: pins, reads, writes through
 * the library and in place, references, checkpoints, horizons, gossip with a second replica of one
 * shard, detaching with pins or without, attaching again, and calls that must be refused. Half of the threads do not
 * wait for others, or for a millisecond or two: a call that is refused for that changes nothing, and
 * is made again where it must succeed. The model knows what is in
 * each page, how many pins it has, and the two latest references to it of each thread. What a page
 * holds is compared at each pin; and at the end, by one thread: that no pin is left (each shard
 * takes as many pages as it has frames), what is in the files, and the histories of both replicas,
 * whose frames this program reads by itself. Each pin of a pinned page gives the same slot and
 * address. The horizon of each shard is the latest time that a thread asked for. A list has each
 * page that is known, once. Prints how many calls were made, and how many were out of time.
 *
 * Latches on pages are the caller's (docs/C.md): a page's latch is held while its bytes are read or written. There is no other: before a page is
 * written to its file the device tries the page's latch, and skips the page where another thread has it to write. While it has the latch the page is
 * as the model says, and so is what is written.
 *
 * Each device has two files, whose pages have other bytes, and one of them is put in place of the
 * other. Who pins a page after that sees what the new one has, also where it was being read
 * meanwhile; and what was written before that is in the old one.
 */
#define _GNU_SOURCE /* mkstemp */
#include <errno.h>
#include <pthread.h>
#include <stdatomic.h>
#include <stdbool.h>
#include <stdint.h>
#include <stdio.h>
#include <stdlib.h>
#include <string.h>
#include <time.h>
#include <unistd.h>

#include "latches.h"
#include "warm.h"

enum { PAGE_SIZE = 512, WORDS = PAGE_SIZE / 8, PAGES = 512, FRAMES = 256, BUCKETS = 64 };
enum { DEVICES = 2, SIDES = 2 };
enum { MOST_THREADS = 16, MOST_HELD = 3, BATCH = 64, FRAME_ROOM = 32768, FRAME_ENTRIES = 23, PEER = 64, WINDOW = 30000 };

_Noreturn static void fail(const char *what, int line) {
    fprintf(stderr, "stress: line %d: %s\n", line, what);
    exit(1);
}
#define MUST(what) ((what) ? (void)0 : fail("not so: " #what, __LINE__))

static void is(int wanted, int status, const char *call, int line) {
    if (status == wanted) return;
    fprintf(stderr, "stress: line %d: %s: status %d, not %d\n", line, call, status, wanted);
    exit(1);
}
#define IS(wanted, call) is(wanted, call, #call, __LINE__)
#define OK(call) IS(WARM_OK, call)

/* ---- the model ---- */

/* One of the two files of a device. */
typedef struct side {
    uint16_t dev;
    unsigned number;
    int fd;
} side;

/* While a thread puts one side of a device in place of the other, the number of steps is odd. */
static struct medium {
    pthread_mutex_t lock; /* one thread at a time does so */
    atomic_uint steps, current;
    side sides[SIDES];
} media[DEVICES];

/* What a page holds on each side, under its latch; and its pins. */
static struct page {
    latch latch;
    uint64_t versions[SIDES]; /* 0: zeros */
    uint64_t writes;          /* how often a version was given, on both */
    atomic_uint pins, reads, asks; /* reads: of the file, under way; asks: of the device, before a write, until after it */
} pages[DEVICES][PAGES];

/* The two latest references to a page that a thread made; 0: none. */
struct latest {
    uint64_t last, prev;
};

struct held {
    warm_page page;
    warm_slot slot;
    const uint8_t *bytes;
};

struct player {
    pthread_t thread;
    warm handle;
    uint16_t number; /* the replica of its references, from 1 on */
    uint64_t drawn, calls;
    bool has_limit; /* of waits */
    int held_count;
    struct held held[MOST_HELD];
    warm_reference batch[BATCH];
    struct latest latest[DEVICES][PAGES];
    uint8_t frame[FRAME_ROOM], answer[FRAME_ROOM];
};

static struct player players[MOST_THREADS], peer_player; /* those of the peer's own references */
static warm first, peer;                                 /* of one thread at a time, by these locks */
static pthread_mutex_t first_lock = PTHREAD_MUTEX_INITIALIZER, peer_lock = PTHREAD_MUTEX_INITIALIZER;
static size_t shards;
static int dump; /* that of the peer's lock */
static atomic_uint_fast64_t now = 1, horizon, out_of_time, replaced;
static atomic_bool is_over;

static uint64_t draw(struct player *player) {
    player->drawn ^= player->drawn << 13;
    player->drawn ^= player->drawn >> 7;
    player->drawn ^= player->drawn << 17;
    return player->drawn * 2685821657736338717u >> 16;
}

/* Half of all calls are about an eighth of the pages. */
static warm_page draw_page(struct player *player) {
    uint64_t drawn = draw(player);
    return (warm_page){.dev = drawn & 1, .no = drawn & 2 ? drawn / 4 % (PAGES / 8) : drawn / 4 % PAGES};
}

static struct page *model_of(warm_page page) { return &pages[page.dev][page.no]; }

/* Of a page that is pinned, or being written: so its device keeps its side. */
static uint64_t *version_of(warm_page page) {
    return &model_of(page)->versions[atomic_load(&media[page.dev].current)];
}

/* Of a page that is pinned: a thread that replaced its device before has said so then. */
static void settle(warm_page page) {
    atomic_uint *steps = &media[page.dev].steps;
    unsigned seen = atomic_load(steps);
    while (seen % 2 == 1 && atomic_load(steps) == seen)
        nanosleep(&(struct timespec){.tv_nsec = 10000}, NULL);
}

/* The bytes of a page in a version. */
static void fill(uint64_t *words, warm_page page, uint64_t version) {
    uint64_t word = version == 0 ? 0 : (version * PAGES + page.no) * DEVICES + page.dev + 1;
    for (int at = 0; at < WORDS; at++) words[at] = word * (2 * (uint64_t)at + 1);
}

/* The caller has the page's latch. */
static void check_bytes(const uint8_t *bytes, warm_page page) {
    uint64_t words[WORDS];
    fill(words, page, *version_of(page));
    MUST(memcmp(bytes, words, PAGE_SIZE) == 0);
}

/* ---- devices ---- */

static atomic_uint_fast64_t skipped;

static warm_page page_of(const side *of, uint64_t no) {
    MUST(no < PAGES);
    return (warm_page){.dev = of->dev, .no = no};
}

/* One call at a time is asked about a page, and writes it, to the side that its device has. */
static int try_latch(void *context, uint64_t no, const void *bytes, size_t length) {
    const side *of = context;
    warm_page page = page_of(of, no);
    struct page *model = model_of(page);
    MUST(length == PAGE_SIZE && atomic_fetch_add(&model->asks, 1) == 0);
    MUST(atomic_load(&media[of->dev].current) == of->number);
    if (try_shared(&model->latch)) {
        check_bytes(bytes, page);
        return 0;
    }
    atomic_fetch_sub(&model->asks, 1);
    atomic_fetch_add(&skipped, 1);
    return EAGAIN;
}

static void release_latch(void *context, uint64_t no, int error) {
    struct page *model = model_of(page_of(context, no));
    MUST(error == 0 && atomic_fetch_sub(&model->asks, 1) == 1);
    unlatch(&model->latch);
}

static const warm_device_ops latching = {.size = sizeof latching, .before_write = try_latch, .after_write = release_latch};

/* The second device has calls of its own. Threads wait for its slow reads, and go on while it is slow to write; and no page is written while it is
 * read. */
static void wait_now_and_then(void) {
    static _Thread_local unsigned calls;
    if (++calls % 16 == 0) nanosleep(&(struct timespec){.tv_nsec = 100000}, NULL);
}

static int read_slowly(void *context, uint64_t no, void *into, size_t length) {
    const side *of = context;
    struct page *model = model_of(page_of(of, no));
    atomic_fetch_add(&model->reads, 1);
    memset(into, 0, length); /* past the end of the file are zeros */
    bool is_read = pread(of->fd, into, length, (off_t)(no * PAGE_SIZE)) >= 0;
    wait_now_and_then();
    MUST(is_read && atomic_fetch_sub(&model->reads, 1) == 1); /* nobody else reads it */
    return 0;
}

static int write_whole(void *context, uint64_t no, const void *bytes, size_t length) {
    const side *of = context;
    warm_page page = page_of(of, no);
    struct page *model = model_of(page);
    check_bytes(bytes, page);
    wait_now_and_then();
    check_bytes(bytes, page);
    MUST(atomic_load(&model->reads) == 0);
    MUST(pwrite(of->fd, bytes, length, (off_t)(no * PAGE_SIZE)) == (ssize_t)length);
    MUST(atomic_load(&model->reads) == 0);
    return 0;
}

static int sync_side(void *context) { return fsync(((const side *)context)->fd) == 0 ? 0 : errno; }

static const warm_device_ops calling = {.size = sizeof calling,
    .read = read_slowly,
    .write = write_whole,
    .sync = sync_side,
    .before_write = try_latch,
    .after_write = release_latch};

static warm_device device_over(side *of) {
    const warm_device_ops *ops = of->dev == 0 ? &latching : &calling;
    return (warm_device){.pages = PAGES, .fd = of->fd, .ops = ops, .context = of};
}

/* ---- references of the model ---- */

static void note(struct latest *latest, uint64_t time) {
    if (time == latest->last || time == latest->prev) return;
    if (time > latest->last) *latest = (struct latest){.last = time, .prev = latest->last};
    else if (time > latest->prev) latest->prev = time;
}

static void raise_to(atomic_uint_fast64_t *number, uint64_t value) {
    uint64_t old = atomic_load(number);
    while (old < value && !atomic_compare_exchange_weak(number, &old, value)) continue;
}

/* ---- pages ---- */

static bool is_same_slot(warm_slot slot, warm_slot other) {
    return slot.generation == other.generation && slot.index == other.index && slot.shard == other.shard;
}

/* Whether a call was refused as its time was over: one of a handle that has a limit. */
static bool is_busy(const struct player *player, int status) {
    if (status != WARM_BUSY) return false;
    MUST(player->has_limit);
    atomic_fetch_add(&out_of_time, 1);
    return true;
}

/* The call, again and again until its time is not over; and what holds after each refusal. */
#define UNTIL_OK(player, call, unchanged)                    \
    for (int status = WARM_BUSY; status != WARM_OK;) {       \
        status = (call);                                     \
        if (is_busy(player, status)) MUST(unchanged);        \
        else OK(status);                                     \
    }

static const warm_slot no_slot = {.generation = 77, .index = 77, .shard = 77};

/* Whether the page could be pinned: each frame of its shard may have a pinned page, or one whose latch another thread has, or the time may be over. */
static bool pins(struct player *player, warm_page page, warm_slot *slot, const uint8_t **bytes) {
    bool is_one_call = draw(player) % 2 == 0;
    *slot = no_slot;
    *bytes = NULL;
    int status = is_one_call ? warm_pin_bytes(&player->handle, page, slot, bytes) : warm_pin(&player->handle, page, slot);
    if (status == WARM_ALL_PINNED || status == WARM_EVICT_FAULT || is_busy(player, status)) {
        MUST(is_same_slot(*slot, no_slot) && *bytes == NULL);
        return false;
    }
    OK(status);
    settle(page);
    if (!is_one_call) OK(warm_bytes(&player->handle, *slot, bytes));
    MUST(slot->shard == (page.dev + page.no) % BUCKETS % shards && slot->index < FRAMES / shards);
    atomic_fetch_add(&model_of(page)->pins, 1);
    return true;
}

static void unpin(struct player *player, warm_page page, warm_slot slot) {
    MUST(atomic_fetch_sub(&model_of(page)->pins, 1) > 0);
    OK(warm_unpin(&player->handle, slot));
}

static void hold_or_unpin(struct player *player, struct held held) {
    if (player->held_count == MOST_HELD || draw(player) % 4 != 0) unpin(player, held.page, held.slot);
    else player->held[player->held_count++] = held;
}

static void read_page(struct player *player) {
    struct held held = {.page = draw_page(player)};
    latch_shared(&model_of(held.page)->latch);
    if (pins(player, held.page, &held.slot, &held.bytes)) {
        uint64_t words[WORDS];
        check_bytes(held.bytes, held.page);
        size_t at = draw(player) % PAGE_SIZE;
        OK(warm_read(&player->handle, held.slot, at, words, PAGE_SIZE - at));
        MUST(memcmp(words, held.bytes + at, PAGE_SIZE - at) == 0);
        hold_or_unpin(player, held);
    }
    unlatch(&model_of(held.page)->latch);
}

static void write_in_place(struct player *player, struct held held, uint64_t version) {
    uint8_t *bytes = NULL;
    uint64_t words[WORDS];
    fill(words, held.page, version);
    UNTIL_OK(player, warm_bytes_mut(&player->handle, held.slot, &bytes), bytes == NULL);
    MUST(bytes == held.bytes);
    memcpy(bytes, words, PAGE_SIZE);
    if (draw(player) % 2 == 0) UNTIL_OK(player, warm_mark_dirty(&player->handle, held.slot), true); /* once more */
}

/* A half of the page; it is as it was where the time is over. */
static void write_half(struct player *player, const struct held *held, size_t at, const uint64_t *words) {
    uint8_t before[PAGE_SIZE];
    memcpy(before, held->bytes, PAGE_SIZE);
    UNTIL_OK(player, warm_write(&player->handle, held->slot, at, words + at / 8, PAGE_SIZE / 2), memcmp(before, held->bytes, PAGE_SIZE) == 0);
}

static void zero_page(struct player *player, const struct held *held) {
    warm_slot slot = no_slot;
    UNTIL_OK(player, warm_pin_zeroed(&player->handle, held->page, &slot), is_same_slot(slot, no_slot));
    MUST(is_same_slot(slot, held->slot) && slot.hit == 1);
    OK(warm_unpin(&player->handle, slot));
}

/* Under the page's latch. */
static void give_version(struct player *player, struct held held, uint64_t version) {
    uint64_t words[WORDS];
    uint64_t kind = draw(player) % 4;
    fill(words, held.page, version);
    if (kind == 0) {
        zero_page(player, &held);
        version = 0;
    } else if (kind == 1) {
        write_half(player, &held, 0, words);
        write_half(player, &held, PAGE_SIZE / 2, words);
    } else {
        write_in_place(player, held, version);
    }
    *version_of(held.page) = version;
    check_bytes(held.bytes, held.page);
}

static void write_page(struct player *player) {
    struct held held = {.page = draw_page(player)};
    struct page *model = model_of(held.page);
    latch_alone(&model->latch);
    if (pins(player, held.page, &held.slot, &held.bytes)) {
        check_bytes(held.bytes, held.page);
        give_version(player, held, ++model->writes);
        hold_or_unpin(player, held);
    }
    unlatch(&model->latch);
}

/* A page that is pinned is where it was, in memory, whatever other threads did. */
static void look_at_held(struct player *player) {
    if (player->held_count == 0) return;
    struct held held = player->held[draw(player) % (uint64_t)player->held_count];
    warm_slot slot;
    const uint8_t *bytes;
    bool resident = false;
    latch_shared(&model_of(held.page)->latch);
    MUST(atomic_load(&model_of(held.page)->pins) > 0);
    check_bytes(held.bytes, held.page);
    OK(warm_resident(&player->handle, held.page, &resident));
    MUST(resident && pins(player, held.page, &slot, &bytes));
    MUST(is_same_slot(slot, held.slot) && slot.hit == 1 && bytes == held.bytes);
    unpin(player, held.page, slot);
    unlatch(&model_of(held.page)->latch);
}

static void release(struct player *player, int left) {
    while (player->held_count > left) {
        struct held held = player->held[--player->held_count];
        unpin(player, held.page, held.slot);
    }
}

/* Writes what would leave a shard next; others may write it first, or make it dirty again. */
static int clean_victims(struct player *player) {
    warm_page list[8];
    size_t count = 0;
    int status = WARM_OK;
    OK(warm_victims(&player->handle, draw(player) % shards, list, 8, &count));
    for (size_t at = 0; at < count && status == WARM_OK; at++) {
        bool written = false;
        status = warm_write_back_page(&player->handle, list[at], &written);
    }
    return status;
}

/* While other threads write in place. */
static void write_back(struct player *player) {
    size_t left = 0;
    int status;
    switch (draw(player) % 5) {
    case 0: status = warm_write_back_all(&player->handle); break;
    case 1: status = warm_flush_device(&player->handle, draw(player) % DEVICES); break;
    case 2: status = clean_victims(player); break;
    default: status = warm_write_back_some(&player->handle, 8, &left);
    }
    MUST((status == WARM_OK || status == WARM_SKIPPED) && left <= FRAMES);
}

/* The other side of a device in its place: where no page of it is pinned or is skipped, all of them
 * leave their frames, and are written. */
static void replace(struct player *player) {
    uint16_t dev = draw(player) % DEVICES;
    struct medium *of = &media[dev];
    if (draw(player) % 2 == 0) release(player, 0); /* it has no pin by itself */
    pthread_mutex_lock(&of->lock);
    unsigned other = 1 - atomic_load(&of->current);
    const warm_device device = device_over(&of->sides[other]);
    atomic_fetch_add(&of->steps, 1);
    int status = warm_replace(&player->handle, dev, &device);
    if (status == WARM_OK) atomic_store(&of->current, other);
    atomic_fetch_add(&of->steps, 1);
    pthread_mutex_unlock(&of->lock);
    MUST(status == WARM_OK || status == WARM_PINNED || status == WARM_WRITE_FAULT);
    if (status == WARM_OK) atomic_fetch_add(&replaced, 1);
    OK(warm_forget_pages(&player->handle, dev, PAGES)); /* a device has no such page */
}

/* ---- references and gossip ---- */

static void draw_batch(struct player *player, size_t count) {
    for (size_t at = 0; at < count; at++) {
        warm_page page = draw_page(player);
        uint64_t time = atomic_fetch_add(&now, 1);
        player->batch[at] = (warm_reference){.time = time, .no = page.no, .dev = page.dev, .replica = player->number};
        note(&player->latest[page.dev][page.no], time);
    }
}

/* A batch that is repeated changes nothing. */
static void absorb(struct player *player) {
    size_t count = 1 + draw(player) % BATCH;
    draw_batch(player, count);
    OK(warm_absorb(&player->handle, player->batch, count));
    if (draw(player) % 8 == 0) OK(warm_absorb(&player->handle, player->batch, count));
}

static void forget_old(struct player *player) {
    uint64_t time = atomic_load(&now), new = 0;
    if (time <= WINDOW) return;
    OK(warm_raise(&player->handle, time - WINDOW, &new));
    MUST(new >= time - WINDOW);
    raise_to(&horizon, time - WINDOW);
}

/* Hands a frame to one handle and its answers to the other, until nobody answers. */
static void talk(struct player *player, warm *to, warm *from, size_t length) {
    OK(warm_receive(to, player->frame, length));
    for (;;) {
        OK(warm_next_answer(to, player->answer, FRAME_ROOM, &length));
        if (length == 0) return;
        OK(warm_receive(from, player->answer, length));
        for (;;) {
            OK(warm_next_answer(from, player->frame, FRAME_ROOM, &length));
            if (length == 0) break;
            OK(warm_receive(to, player->frame, length));
        }
    }
}

/* The caller has the peer's lock. */
static void talk_to_peer(struct player *player, warm *handle) {
    size_t length;
    OK(warm_offer(handle, player->frame, FRAME_ROOM, &length));
    talk(player, &peer, handle, length);
}

/* A dump of one replica for the other. */
static void pass_dump(warm *from, warm *to) {
    MUST(ftruncate(dump, 0) == 0);
    OK(warm_save(from, dump));
    OK(warm_load(to, dump, (uint64_t)lseek(dump, 0, SEEK_END)));
}

static void gossip(struct player *player) {
    if (pthread_mutex_trylock(&peer_lock) != 0) return;
    draw_batch(&peer_player, 4);
    OK(warm_absorb(&peer, peer_player.batch, 4));
    switch (draw(player) % 8) {
    case 0: pass_dump(&player->handle, &peer); break;
    case 1: pass_dump(&peer, &player->handle); break;
    default: talk_to_peer(player, &player->handle);
    }
    pthread_mutex_unlock(&peer_lock);
}

/* ---- other calls ---- */

static void look(struct player *player) {
    warm_page page, list[8];
    warm_counters counters;
    size_t count, shard = draw(player) % shards;
    bool found;
    OK(warm_victims(&player->handle, shard, list, 8, &count));
    MUST(count <= 8);
    for (size_t at = 0; at < count; at++) MUST((list[at].dev + list[at].no) % BUCKETS % shards == shard);
    OK(warm_list(&player->handle, list, 8, &count));
    MUST(count <= 8);
    OK(warm_counts(&player->handle, &counters));
    MUST(counters.resident <= FRAMES && counters.dirty <= counters.resident);
    int status = warm_step(&player->handle, &found, &page);
    MUST(status == WARM_OK || status == WARM_ALL_PINNED || status == WARM_EVICT_FAULT || is_busy(player, status));
    status = warm_prefetch(&player->handle, draw_page(player));
    MUST(status == WARM_OK || status == WARM_ALL_PINNED || status == WARM_EVICT_FAULT || is_busy(player, status));
}

/* What must be refused, and changes nothing. */
static void misuse(struct player *player) {
    warm *handle = &player->handle;
    uint8_t byte;
    size_t count;
    warm_page page = draw_page(player);
    warm_slot slot = {.generation = 1, .shard = (uint16_t)shards};
    IS(WARM_STALE_SLOT, warm_read(handle, slot, 0, &byte, 1));
    IS(WARM_NO_SHARD, warm_victims(handle, shards, &page, 1, &count));
    IS(WARM_ALREADY_OPEN, warm_attach(handle, handle));
    if (player->held_count > 0) {
        slot = player->held[0].slot;
        IS(WARM_PINS_LEFT, warm_close(handle));
        slot.generation++;
        IS(WARM_STALE_SLOT, warm_read(handle, slot, 0, &byte, 1));
    } else {
        IS(WARM_STALE_SLOT, warm_unpin(handle, slot));
    }
}

static void attach(struct player *player) {
    pthread_mutex_lock(&first_lock);
    OK(warm_attach(&first, &player->handle));
    IS(WARM_ATTACHED, warm_close(&first));
    pthread_mutex_unlock(&first_lock);
    player->has_limit = draw(player) % 2 == 0;
    if (player->has_limit) OK(warm_limit_waits(&player->handle, draw(player) % 3));
}

/* The handle is closed, or abandoned with what it has pinned. */
static void detach(struct player *player) {
    if (draw(player) % 2 == 0) {
        release(player, 0);
        OK(warm_close(&player->handle));
        return;
    }
    while (player->held_count > 0) {
        struct held held = player->held[--player->held_count];
        MUST(atomic_fetch_sub(&model_of(held.page)->pins, 1) > 0);
    }
    OK(warm_abandon(&player->handle));
}

static void play_once(struct player *player) {
    uint64_t what = draw(player) % 128;
    if (what < 48) read_page(player);
    else if (what < 76) write_page(player);
    else if (what < 90) absorb(player);
    else if (what < 104) look_at_held(player);
    else if (what < 112) release(player, 0);
    else if (what < 116) write_back(player);
    else if (what < 119) gossip(player);
    else if (what < 123) look(player);
    else if (what < 126) misuse(player);
    else if (what < 127) forget_old(player);
    else if (draw(player) % 16 != 0) replace(player);
    else {
        detach(player);
        attach(player);
    }
    player->calls++;
}

static void *play(void *at) {
    struct player *player = at;
    attach(player);
    while (!atomic_load(&is_over)) play_once(player);
    release(player, 0);
    OK(warm_close(&player->handle));
    return NULL;
}

/* ---- the end, by one thread ---- */

/* Each shard takes as many pages as it has frames, and no more. */
static void check_frames(size_t shard) {
    static warm_slot slots[FRAMES];
    size_t taken = 0, fit = FRAMES / shards;
    warm_slot more;
    for (uint64_t no = 0; no < PAGES; no++) {
        if (no % BUCKETS % shards != shard) continue;
        if (taken == fit) {
            IS(WARM_ALL_PINNED, warm_pin(&first, (warm_page){.no = no}, &more));
            break;
        }
        OK(warm_pin(&first, (warm_page){.no = no}, &slots[taken++]));
    }
    while (taken > 0) OK(warm_unpin(&first, slots[--taken]));
}

static void check_side(const side *of) {
    for (uint64_t no = 0; no < PAGES; no++) {
        uint64_t words[WORDS], wanted[WORDS];
        warm_page page = page_of(of, no);
        memset(words, 0, sizeof words); /* past the end of the file are zeros */
        MUST(pread(of->fd, words, PAGE_SIZE, (off_t)(no * PAGE_SIZE)) >= 0);
        fill(wanted, page, model_of(page)->versions[of->number]);
        MUST(memcmp(words, wanted, PAGE_SIZE) == 0 && atomic_load(&model_of(page)->pins) == 0);
    }
}

/* What is in the files once all was written back; and that no pin is left, as all pages may leave their frames. */
static void check_files(void) {
    OK(warm_write_back_all(&first));
    for (uint16_t dev = 0; dev < DEVICES; dev++) {
        OK(warm_forget_pages(&first, dev, 0));
        for (int at = 0; at < SIDES; at++) check_side(&media[dev].sides[at]);
    }
}

static uint64_t number(const uint8_t *at, int width) {
    uint64_t value = 0;
    for (int i = 0; i < width; i++) value = value << 8 | at[i];
    return value;
}

/* A stamp of 10 bytes is that of this time; which replica made it is known by whose list has it. */
static void check_stamp(const uint8_t *at, warm_page page, uint64_t time) {
    unsigned replica = (unsigned)number(at + 8, 2);
    MUST(number(at, 8) == time && (replica == PEER || (replica >= 1 && replica <= MOST_THREADS)));
    struct player *player = replica == PEER ? &peer_player : &players[replica - 1];
    struct latest latest = player->latest[page.dev][page.no];
    MUST(latest.last == time || latest.prev == time);
}

/* The two latest references to a page that are not older than the horizon, over all threads. */
static struct latest expected(warm_page page) {
    struct latest all = {0};
    for (int at = 0; at <= MOST_THREADS; at++) {
        struct latest *latest = &(at < MOST_THREADS ? &players[at] : &peer_player)->latest[page.dev][page.no];
        if (latest->last >= atomic_load(&horizon) && latest->last != 0) note(&all, latest->last);
        if (latest->prev >= atomic_load(&horizon) && latest->prev != 0) note(&all, latest->prev);
    }
    return all;
}

/* Reads the frame of a bucket: its entries are all in it, since a bucket has at most 16 pages. */
static size_t check_bucket(warm *handle, unsigned bucket, const uint8_t *frame, size_t length) {
    OK(warm_send(handle, &(warm_sending){.bucket = (uint8_t)bucket}, players[0].frame, FRAME_ROOM, &length));
    size_t count = (size_t)number(frame + 19, 4);
    MUST(number(frame + 7, 8) == atomic_load(&horizon));
    const uint8_t *at = frame + FRAME_ENTRIES;
    for (size_t i = 0; i < count; i++) {
        warm_page page = {.dev = (uint16_t)number(at, 2), .no = number(at + 2, 8)};
        MUST(page.dev < DEVICES && page.no < PAGES && (page.dev + page.no) % BUCKETS == bucket);
        struct latest wanted = expected(page);
        MUST(at[10] == (wanted.prev == 0 ? 1 : 2));
        check_stamp(at + 11, page, wanted.last);
        if (wanted.prev != 0) check_stamp(at + 21, page, wanted.prev);
        at += wanted.prev == 0 ? 21 : 31;
    }
    MUST(at == frame + length);
    return count;
}

/* What was forgotten was forgotten in all shards: gossip would hide that one was left out. */
static void check_horizons(void) {
    uint8_t *frame = players[0].frame;
    size_t length;
    for (unsigned bucket = 0; bucket < BUCKETS; bucket++) {
        OK(warm_send(&first, &(warm_sending){.bucket = (uint8_t)bucket}, frame, FRAME_ROOM, &length));
        MUST(number(frame + 7, 8) == atomic_load(&horizon));
    }
}

static void check_history(warm *handle) {
    size_t known = 0, wanted = 0, length;
    for (unsigned bucket = 0; bucket < BUCKETS; bucket++) known += check_bucket(handle, bucket, players[0].frame, 0);
    for (uint16_t dev = 0; dev < DEVICES; dev++) {
        for (uint64_t no = 0; no < PAGES; no++) wanted += expected((warm_page){.dev = dev, .no = no}).last != 0;
    }
    OK(warm_history_length(handle, &length));
    MUST(known == wanted && length == wanted);
}

/* Each page that is known, once, and hottest first: by the second latest reference, later ones first, and then those that have one alone. */
static void check_list(warm *handle) {
    static warm_page list[DEVICES * PAGES];
    static bool is_listed[DEVICES][PAGES];
    size_t count, length;
    uint64_t before = UINT64_MAX;
    OK(warm_list(handle, list, DEVICES * PAGES, &count));
    OK(warm_history_length(handle, &length));
    MUST(count == length);
    for (size_t at = 0; at < count; at++) {
        uint64_t prev = expected(list[at]).prev;
        MUST(!is_listed[list[at].dev][list[at].no]);
        is_listed[list[at].dev][list[at].no] = true;
        MUST(prev <= before);
        before = prev;
    }
}

static int temporary(void) {
    const char *folder = getenv("TMPDIR");
    char path[512];
    snprintf(path, sizeof path, "%s/warm-stress-XXXXXX", folder == NULL ? "/tmp" : folder);
    int fd = mkstemp(path);
    MUST(fd >= 0 && unlink(path) == 0);
    return fd;
}

/* The pages of the second side have a version from the start. */
static void make_side(side *of, uint16_t dev, unsigned number) {
    *of = (side){.dev = dev, .number = number, .fd = temporary()};
    if (number == 0) return;
    for (uint64_t no = 0; no < PAGES; no++) {
        uint64_t words[WORDS];
        warm_page page = page_of(of, no);
        model_of(page)->versions[number] = ++model_of(page)->writes;
        fill(words, page, model_of(page)->versions[number]);
        MUST(pwrite(of->fd, words, PAGE_SIZE, (off_t)(no * PAGE_SIZE)) == PAGE_SIZE);
    }
}

static void open_all(void) {
    warm_device devices[DEVICES];
    const warm_options options = {.size = sizeof options, .replica = 1, .shards = shards, .frames = FRAMES, .page_size = PAGE_SIZE,
        .devices = devices, .device_count = DEVICES};
    const warm_options alone = {.size = sizeof alone, .replica = 2};
    for (uint16_t dev = 0; dev < DEVICES; dev++) {
        struct medium *its = &media[dev];
        MUST(pthread_mutex_init(&its->lock, NULL) == 0);
        for (unsigned at = 0; at < SIDES; at++) make_side(&its->sides[at], dev, at);
        devices[dev] = device_over(&its->sides[0]);
        for (int no = 0; no < PAGES; no++) {
            latch *of = &pages[dev][no].latch;
            MUST(pthread_mutex_init(&of->lock, NULL) == 0 && pthread_cond_init(&of->freed, NULL) == 0);
        }
    }
    dump = temporary();
    OK(warm_open(&first, &options));
    OK(warm_open(&peer, &alone));
}

static void check_end(void) {
    for (size_t shard = 0; shard < shards; shard++) check_frames(shard);
    check_files();
    check_horizons();
    for (int round = 0; round < 2; round++) talk_to_peer(&players[0], &first);
    check_history(&first);
    check_history(&peer);
    check_list(&first);
    OK(warm_close(&first));
    OK(warm_close(&peer));
}

int main(int count, char **words) {
    if (count != 5) {
        fprintf(stderr, "usage: stress SHARDS THREADS SECONDS SEED\n");
        return 2;
    }
    shards = strtoul(words[1], NULL, 10);
    unsigned threads = (unsigned)strtoul(words[2], NULL, 10), seconds = (unsigned)strtoul(words[3], NULL, 10);
    MUST(threads >= 1 && threads <= MOST_THREADS);
    open_all();
    peer_player = (struct player){.number = PEER, .drawn = strtoull(words[4], NULL, 10) + PEER};
    for (unsigned at = 0; at < threads; at++) {
        players[at].number = (uint16_t)(at + 1);
        players[at].drawn = (strtoull(words[4], NULL, 10) + 1) * 2654435761u + at;
        MUST(pthread_create(&players[at].thread, NULL, play, &players[at]) == 0);
    }
    nanosleep(&(struct timespec){.tv_sec = seconds}, NULL);
    atomic_store(&is_over, true);
    uint64_t calls = 0;
    for (unsigned at = 0; at < threads; at++) {
        MUST(pthread_join(players[at].thread, NULL) == 0);
        calls += players[at].calls;
    }
    check_end();
    for (int at = 0; at < DEVICES * SIDES; at++) close(media[at / SIDES].sides[at % SIDES].fd);
    close(dump);
    printf("stress: %zu shards, %u threads, %llu calls as expected, %llu out of time, "
           "%llu pages skipped, %llu devices replaced\n",
        shards, threads, (unsigned long long)calls, (unsigned long long)atomic_load(&out_of_time),
        (unsigned long long)atomic_load(&skipped), (unsigned long long)atomic_load(&replaced));
    return 0;
}

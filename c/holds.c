/*
 * holds.c: records and holds, as holds.h says. Nothing here is proved; c/check tests it, and
 * checks/holds.
 */
#define _POSIX_C_SOURCE 200809L /* pthread_mutex_t */
#include "holds.h"
#include "shards.h"

#include <stdlib.h>
#include <string.h>

_Static_assert(sizeof(record) == LINE / 2 && sizeof(table) % LINE == 0, "two records in a line");

void *in_lines(size_t size, void **block) {
    *block = malloc(size + LINE - 1);
    if (*block == NULL) return NULL;
    uintptr_t at = ((uintptr_t)*block + LINE - 1) / LINE * LINE;
    return memset((void *)at, 0, size);
}

bool open_table(table *of, size_t frames) {
    size_t lines = 1;
    while (lines < frames) lines *= 2;
    size_t count = 2 * lines + NEAR;
    of->records = in_lines(count * sizeof(record), &of->block);
    if (of->records == NULL) return false;
    of->mask = lines - 1;
    of->frames = frames;
    return true;
}

void close_table(table *of) {
    free(of->block);
    free(of->passed);
}

/* ---- the holds of a handle ---- */

/* From how many words on that were seen they are looked for by their bits. */
enum { MANY = 16 };

/* Twice as many places as words, or more, and a power of two. */
static size_t sorted_room(size_t words) {
    size_t room = 2;
    while (room < 2 * words) room *= 2;
    return room;
}

/* Makes room in a shard for the words of all handles, of which there are this many at most. What is
 * in the room now is of no use between calls. */
static bool make_room(table *of, size_t room) {
    if (room <= of->room) return true;
    size_t words = room + sorted_room(room);
    passed *block = malloc(room * sizeof(passed) + words * sizeof(uint64_t));
    if (block == NULL) return false;
    free(of->passed);
    of->passed = block;
    of->seen = (uint64_t *)(block + room);
    of->sorted = of->seen + room;
    of->room = room;
    return true;
}

/* Who was refused leaves the room that it has made: another one uses it. */
static bool make_room_in_all(opened *its, size_t room) {
    bool is_made = true;
    for (size_t number = 0; number < its->count && is_made; number++) {
        shard *in = &its->shards[number];
        bool is_locked = enter(its, in);
        is_made = make_room(&in->table, room);
        leave(in, is_locked);
    }
    return is_made;
}

/* Those of a handle that was closed. */
static holds *used_holds(replica *of) {
    for (holds *at = atomic_load(&of->holds); at != NULL; at = at->next) {
        bool is_used = false;
        if (atomic_compare_exchange_strong(&at->is_used, &is_used, true)) return at;
    }
    return NULL;
}

/* Threads that attach at once count themselves first: so there is room for all whose holds are
 * among those of the replica. */
static holds *new_holds(opened *its) {
    void *block;
    holds *made = in_lines(sizeof(holds), &block);
    if (made == NULL) return NULL;
    if (!make_room_in_all(its, HOLDS * (atomic_fetch_add(&its->of->holds_count, 1) + 1))) {
        atomic_fetch_sub(&its->of->holds_count, 1);
        free(block);
        return NULL;
    }
    made->block = block;
    atomic_store(&made->is_used, true);
    made->next = atomic_load(&its->of->holds);
    while (!atomic_compare_exchange_weak(&its->of->holds, &made->next, made)) continue;
    return made;
}

bool take_holds(opened *its) {
    its->holds = used_holds(its->of);
    if (its->holds == NULL) its->holds = new_holds(its);
    return its->holds != NULL;
}

void give_holds(opened *its) { atomic_store(&its->holds->is_used, false); }

void let_go_of_holds(opened *its) {
    while (its->used != 0) give_up_hold(its, (unsigned)__builtin_ctz(its->used));
}

void free_holds(replica *of) {
    for (holds *at = atomic_load(&of->holds), *next; at != NULL; at = next) {
        next = at->next;
        free(at->block);
    }
}

uint64_t hits_of_holds(replica *of) {
    uint64_t all = 0;
    for (holds *at = atomic_load(&of->holds); at != NULL; at = at->next) {
        all += atomic_load_explicit(&at->hits, memory_order_relaxed);
    }
    return all;
}

/* ---- what is held ---- */

static size_t shard_number(const opened *its, const shard *in) {
    return (size_t)(in - its->shards);
}

/* The place of a word among those that are sorted, or the free one where it would be. */
static uint64_t *sorted_at(const table *of, uint64_t word) {
    size_t at = (word * 0x9E3779B97F4A7C15u) >> 32 & of->sorted_mask;
    while (of->sorted[at] != 0 && of->sorted[at] != word) at = (at + 1) & of->sorted_mask;
    return &of->sorted[at];
}

static void sort_seen(table *of) {
    size_t room = sorted_room(of->seen_count);
    of->sorted_mask = room - 1;
    memset(of->sorted, 0, room * sizeof(uint64_t));
    for (size_t at = 0; at < of->seen_count; at++) *sorted_at(of, of->seen[at]) = of->seen[at];
}

static bool is_seen(const table *of, uint64_t word) {
    if (of->seen_count >= MANY) return *sorted_at(of, word) == word;
    for (size_t at = 0; at < of->seen_count; at++) {
        if (of->seen[at] == word) return true;
    }
    return false;
}

/* Looks at all holds once, for all that is then asked of them. */
static void see_all(opened *its, shard *in) {
    table *of = &in->table;
    of->seen_count = 0;
    for (holds *from = atomic_load(&its->of->holds); from != NULL; from = from->next) {
        for (int at = 0; at < HOLDS; at++) {
            uint64_t word = atomic_load(&from->words[at]);
            if (word == 0 || word >> SHARD_AT != shard_number(its, in)) continue;
            of->seen[of->seen_count++] = word;
        }
    }
    if (of->seen_count >= MANY) sort_seen(of);
    HOLDS_PAUSE_IN_SHARD();
}

static uint32_t state_of(const record *at) {
    return atomic_load_explicit(&at->state, memory_order_relaxed);
}

static node_page page_of(const record *at) {
    return (node_page){.no = atomic_load_explicit(&at->no, memory_order_relaxed),
        .dev = atomic_load_explicit(&at->dev, memory_order_relaxed)};
}

static node_slot slot_of(const record *at) {
    return (node_slot){.generation = atomic_load_explicit(&at->generation, memory_order_relaxed),
        .index = atomic_load_explicit(&at->index, memory_order_relaxed)};
}

static bool is_same(node_slot slot, node_slot other) {
    return slot.generation == other.generation && slot.index == other.index;
}

/* The word of those who hold a record's page: since it was given the record, no other state of it
 * was open. */
static uint64_t word_for(const opened *its, const shard *in, const record *at) {
    return word_of(shard_number(its, in), &in->table, at, state_of(at) | 1);
}

/* Its holders still hold it, and nobody begins to. */
static void close_record(record *at) { atomic_store(&at->state, state_of(at) - 1); }

static void open_record(record *at) {
    atomic_store(&at->state, state_of(at) + 1);
    HOLDS_PAUSE_IN_SHARD();
}

/* A closed record's page has no holder. From here on no hold is of its state. */
static void free_record(record *at) { atomic_store(&at->state, state_of(at) + 2); }

/* Takes a record from its page, unless somebody holds that. */
static bool take_record(opened *its, shard *in, record *at) {
    close_record(at);
    see_all(its, in);
    bool is_held = is_seen(&in->table, word_for(its, in, at));
    if (is_held) open_record(at);
    else free_record(at);
    return !is_held;
}

void put_record(opened *its, shard *in, node_page page, node_slot slot, const uint8_t *bytes) {
    uint32_t state;
    record *first = first_record(&in->table, page), *to = first;
    if (find_record(&in->table, page, &state) != NULL) return;
    while (to < first + NEAR && (state_of(to) & 1) != 0) to++;
    if (to == first + NEAR) {
        to = first + slot.index % NEAR;
        if (!take_record(its, in, to)) return;
    }
    atomic_store_explicit(&to->no, page.no, memory_order_release);
    atomic_store_explicit(&to->dev, page.dev, memory_order_release);
    atomic_store_explicit(&to->index, (uint16_t)slot.index, memory_order_release);
    atomic_store_explicit(&to->generation, slot.generation, memory_order_release);
    atomic_store_explicit(&to->bytes, bytes, memory_order_release);
    open_record(to);
}

void note_loaded(shard *in) {
    if (in->table.filled < in->table.frames) in->table.filled++;
}

void note_left(shard *in) {
    node_counters counted = {0};
    node_counts(&in->node, &counted);
    in->table.filled = counted.resident;
    wake_wanting(in);
}

/* ---- before a page leaves ---- */

bool pin_in_node(shard *in, node_page page, node_slot *slot) {
    if (node_pin(&in->node, page, slot) != WARM_OK) return false;
    in->table.pins++;
    return true;
}

bool pin_victim(shard *in, node_page *page, node_slot *slot) {
    bool found;
    if (node_victim(&in->node, &found, page) != WARM_OK || !found) return false;
    return pin_in_node(in, *page, slot);
}

/* Pins the node's next victims while they are held, and ends at the first that is not. Writes its
 * record, closed, or NULL if there is no such page or it has no record, as nobody then holds it.
 * False if there is no room: that page is held. What was seen before a record was closed is enough
 * to say that its page is held, since that is asked again, and not enough to say that it is not. */
static bool pass_over(opened *its, shard *in, record **last) {
    table *of = &in->table;
    for (;;) {
        uint32_t state;
        *last = NULL;
        of->has_victim = false;
        node_victim(&in->node, &of->has_victim, &of->victim);
        if (!of->has_victim) return true;
        record *at = find_record(of, of->victim, &state);
        if (at == NULL) return true;
        close_record(at);
        *last = at;
        if (!is_seen(of, word_for(its, in, at))) see_all(its, in);
        if (!is_seen(of, word_for(its, in, at))) return true;
        node_slot slot;
        if (of->passed_count == of->room || !pin_in_node(in, of->victim, &slot)) return false;
        of->passed[of->passed_count++] = (passed){slot, at};
    }
}

/* Looks again at the pages that were passed over: whether one was let go meanwhile. Such a page has
 * no record any more, so that nobody begins to hold it before the node says again which page is
 * next. */
static bool is_let_go(opened *its, shard *in) {
    table *of = &in->table;
    size_t kept = 0, count = of->passed_count;
    if (count > 0) see_all(its, in);
    for (size_t at = 0; at < count; at++) {
        passed one = of->passed[at];
        if (is_seen(of, word_for(its, in, one.at))) {
            of->passed[kept++] = one;
        } else {
            node_unpin(&in->node, one.slot);
            free_record(one.at);
        }
    }
    of->passed_count = kept;
    return kept < count;
}

/* The node's choice is that of a single moment, when the holds were looked at for its last answer:
 * the records of all pages that come before that one were closed by then, and these pages were
 * still held after it. */
bool pass_over_held(opened *its, shard *in, bool leaves) {
    table *of = &in->table;
    record *last;
    bool fits, again;
    of->seen_count = 0; /* what was seen in an earlier call */
    do {
        fits = pass_over(its, in, &last);
        again = is_let_go(its, in) || (!fits && !is_seen(of, word_for(its, in, last)));
        if (last != NULL && (again || !fits || !leaves)) open_record(last);
    } while (again);
    for (size_t at = 0; at < of->passed_count; at++) open_record(of->passed[at].at);
    if (fits && leaves && last != NULL) free_record(last);
    return fits;
}

void unpin_passed(shard *in) {
    table *of = &in->table;
    while (of->passed_count > 0) node_unpin(&in->node, of->passed[--of->passed_count].slot);
}

static bool is_on(const record *at, uint16_t dev, uint64_t from) {
    node_page page = page_of(at);
    return page.dev == dev && page.no >= from;
}

/* Closed records are free before, and so is one that stays closed. */
bool may_leave(opened *its, shard *in, uint16_t dev, uint64_t from) {
    table *of = &in->table;
    record *end = of->records + 2 * of->mask + NEAR;
    bool is_held = false;
    for (record *at = of->records; at < end; at++) {
        if ((state_of(at) & 1) != 0 && is_on(at, dev, from)) close_record(at);
    }
    see_all(its, in);
    for (record *at = of->records; at < end; at++) {
        if ((state_of(at) & 1) != 0 || !is_on(at, dev, from)) continue;
        bool it_is = is_seen(of, word_for(its, in, at));
        if (it_is) open_record(at);
        else free_record(at);
        is_held = is_held || it_is;
    }
    return !is_held;
}

/* ---- before a call on a slot ---- */

/* The record that a word names, if it is of this shard and the record is as it was. */
static const record *named(const opened *its, const shard *in, uint64_t word) {
    if (word == 0 || word >> SHARD_AT != shard_number(its, in)) return NULL;
    const record *at = &in->table.records[word >> RECORD_AT & RECORD_MASK];
    return state_of(at) == (uint32_t)word ? at : NULL;
}

/* The record of a slot's page that one of these holds names. */
static const record *held_by(const opened *its, const shard *in, holds *of, node_slot slot) {
    for (int at = 0; at < HOLDS; at++) {
        const record *its_record = named(its, in, atomic_load(&of->words[at]));
        if (its_record != NULL && is_same(slot_of(its_record), slot)) return its_record;
    }
    return NULL;
}

/* Its own holds first: those of others are in lines of memory that they change. The node is asked
 * between, so that a page that it has a pin of needs no look at these. */
bool pin_held(opened *its, shard *in, node_slot slot) {
    const uint8_t *bytes;
    const record *at = held_by(its, in, its->holds, slot);
    if (at == NULL && node_bytes(&in->node, slot, &bytes) == WARM_OK) return false;
    for (holds *of = atomic_load(&its->of->holds); at == NULL && of != NULL; of = of->next) {
        at = held_by(its, in, of, slot);
    }
    return at != NULL && pin_in_node(in, page_of(at), &slot);
}

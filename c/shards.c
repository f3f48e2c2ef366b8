/*
 * shards.c: the calls on one page of include/warm.h. A pin of a page that has a record, its unpin,
 * and warm_bytes meanwhile touch what is the handle's alone (holds.h). Each other call finds the
 * shard, enters it, makes a call of the proved part on the shard's node (nodes.h), and leaves it;
 * but warm_read of a page that the handle holds asks no node. Nothing here is proved; c/check tests
 * it, and checks/holds.
 */
#define _POSIX_C_SOURCE 200809L /* pthread_mutex_t */
#include "shards.h"

#include <string.h>

/* ---- pages ---- */

/* The hold by which the handle names a record, or one that it does not use; HOLDS if it has none
 * left, or no count. */
static inline unsigned hold_for(const opened *its, uint64_t word) {
    for (unsigned left = its->used; left != 0; left &= left - 1) {
        unsigned at = (unsigned)__builtin_ctz(left);
        if (atomic_load_explicit(&its->holds->words[at], memory_order_relaxed) == word) return at;
    }
    return (unsigned)__builtin_ctz(~its->used);
}

/* Holds the record's page, unless another one has the record now. A hold that is given up here
 * wakes nobody who wants a frame: the page is pinned in the shard next, if it is still in its
 * frame. It is not if another one was loaded, whose unpin wakes them. */
static inline bool hold(
    opened *its, unsigned at, record *its_record, uint32_t state, uint64_t word) {
    HOLDS_PAUSE();
    atomic_exchange(&its->holds->words[at], word);
    HOLDS_PAUSE();
    if (atomic_load(&its_record->state) == state) return true;
    atomic_store_explicit(&its->holds->words[at], 0, memory_order_release);
    return false;
}

/* Pins a page by a hold: the page has a record, and the handle a hold left. */
static inline bool pin_by_hold(
    opened *its, node_page page, warm_slot *slot, const uint8_t **bytes) {
    uint32_t state;
    size_t number = number_of(its, page);
    const table *of = &its->shards[number].table;
    record *at = find_record(of, page, &state);
    if (at == NULL) return false;
    uint64_t generation = atomic_load_explicit(&at->generation, memory_order_acquire);
    uint64_t index = atomic_load_explicit(&at->index, memory_order_acquire);
    uint64_t place = index | (uint64_t)number << SLOT_SHARD;
    const uint8_t *lent = atomic_load_explicit(&at->bytes, memory_order_acquire);
    uint64_t word = word_of(number, of, at, state);
    unsigned by = hold_for(its, word);
    if (by == HOLDS) return false;
    if ((its->used >> by & 1) == 0) {
        if (!hold(its, by, at, state, word)) return false;
        its->own[by] = (own_hold){.generation = generation, .place = place};
        its->used |= 1u << by;
    }
    its->own[by].pins++;
    atomic_store_explicit(&its->holds->hits,
        atomic_load_explicit(&its->holds->hits, memory_order_relaxed) + 1, memory_order_relaxed);
    slot->generation = generation;
    put_place(slot, place | UINT64_C(1) << SLOT_HIT);
    *bytes = lent;
    return true;
}

/* Finds the hold of the slot's page; false if the handle has none. */
static inline bool find_hold(const opened *its, warm_slot slot, unsigned *found) {
    for (unsigned left = its->used; left != 0; left &= left - 1) {
        unsigned at = (unsigned)__builtin_ctz(left);
        const own_hold *it = &its->own[at];
        if (it->generation != slot.generation || it->place != place_of_slot(&slot)) continue;
        *found = at;
        return true;
    }
    return false;
}

/* Takes back a pin by a hold, if the slot's page has one. */
static inline bool unpin_by_hold(opened *its, warm_slot slot) {
    unsigned at;
    if (!find_hold(its, slot, &at)) return false;
    if (--its->own[at].pins == 0) give_up_hold(its, at);
    return true;
}

/* Where the bytes of the slot's page lie, if the handle holds it, else NULL. What a record says of
 * a page does not change while that is held. */
static inline const uint8_t *held_bytes(const opened *its, warm_slot slot) {
    unsigned at;
    if (!find_hold(its, slot, &at)) return NULL;
    uint64_t word = atomic_load_explicit(&its->holds->words[at], memory_order_relaxed);
    const table *of = &its->shards[word >> SHARD_AT].table;
    const record *its_record = &of->records[word >> RECORD_AT & RECORD_MASK];
    return atomic_load_explicit(&its_record->bytes, memory_order_relaxed);
}

/* A page that is to be in a frame, and a pin of it. Its bytes are read by the node, or zeros, or in
 * the handle's buffer. */
typedef struct load {
    enum { LOAD_PINS, LOAD_PINS_ZEROED, LOAD_PINS_FILLED } kind;
    node_page page;
    bool is_locked;       /* the shard, since there are other handles */
    bool is_hit;          /* whether the page was in a frame before */
    bool is_for_node;     /* the page that leaves is written by the node, if it is dirty */
    unsigned tries;       /* how many pages were written to leave for it */
    uint64_t failed;      /* how many calls of devices did, or were skipped, so far */
    patience left;
    reading *begun;       /* if the shard is locked, and the page in no frame */
    node_slot slot;       /* of a pin that was made */
    const uint8_t *bytes; /* of such a pin, but of LOAD_PINS_ZEROED */
} load;

static int ask_node(opened *its, shard *in, load *it) {
    if (it->kind == LOAD_PINS) return node_pin_bytes(&in->node, it->page, &it->slot, &it->bytes);
    if (it->kind == LOAD_PINS_ZEROED) {
        in->may_be_dirty = true;
        return node_pin_zeroed(&in->node, it->page, &it->slot);
    }
    int status = node_pin_filled(&in->node, it->page, its->buffer, its->of->page_size, &it->slot);
    return status == WARM_OK ? node_bytes(&in->node, it->slot, &it->bytes) : status;
}

/* No status: the page that is to leave is dirty, and is to be written before that. */
enum { WRITE_FIRST = -2 };

static bool is_victim_dirty(shard *in) {
    bool is_dirty = false;
    if (in->table.has_victim) node_dirty(&in->node, in->table.victim, &is_dirty);
    return is_dirty;
}

/* The page that leaves is one that nobody holds: if none leaves, the node alone is asked. */
static int load_once(opened *its, shard *in, load *it) {
    if (in->table.filled < in->table.frames) return ask_node(its, in, it);
    if (!pass_over_held(its, in, true)) return WARM_ALL_PINNED;
    bool is_first = it->is_locked && !it->is_for_node && is_victim_dirty(in);
    return is_first ? WRITE_FIRST : ask_node(its, in, it);
}

static bool has_victim(opened *its, shard *in) {
    bool is_so = pass_over_held(its, in, false) && in->table.has_victim;
    unpin_passed(in);
    return is_so;
}

/* Whether a page may be put into a frame, as it seems before it is read. There are not more pages
 * with pins than pins, nor more that are held than there is room for. */
static bool has_room(opened *its, shard *in) {
    const table *of = &in->table;
    return of->filled < of->frames || of->pinned + of->room < of->frames || has_victim(its, in);
}

/* The node's pins of pages that are being written, which no caller has: to ask it what it would say
 * without one, or all of them, they are taken back before, and made again after that. */
static void unpin_write(shard *in, const writing *at) {
    if (at != NULL) node_unpin(&in->node, at->slot);
}

static void pin_write(shard *in, writing *at) {
    if (at != NULL) pin_in_node(in, at->page, &at->slot);
}

static void unpin_written(shard *in) {
    for (writing *at = in->writes; at != NULL; at = at->next) unpin_write(in, at);
}

static void pin_written(shard *in) {
    for (writing *at = in->writes; at != NULL; at = at->next) pin_write(in, at);
}

/* Whether a page would leave if none were being written. */
static bool is_victim_written(opened *its, shard *in) {
    if (in->writes == NULL) return false;
    unpin_written(in);
    bool is_so = has_victim(its, in);
    pin_written(in);
    return is_so;
}

/* ---- pages that are to leave, and are dirty ---- */

/* How many pages that cannot be written a load passes over; and how many are written for it with
 * the shard left, in which other calls may pin or change them, or let them leave for other pages.
 * After that the node writes one, which leaves at once. */
enum { STUCK = 8, TRIES = 8 };

/* Pages that could not be written. The node has a pin of each that is still dirty, for this, while
 * it is asked, and none while the shard is left. */
typedef struct stuck_pages {
    size_t count, pinned;
    node_page pages[STUCK];
    node_slot slots[STUCK];
} stuck_pages;

static void pin_stuck(shard *in, stuck_pages *all) {
    for (size_t at = 0; at < all->count; at++) {
        bool is_dirty = false;
        node_dirty(&in->node, all->pages[at], &is_dirty);
        if (is_dirty && pin_in_node(in, all->pages[at], &all->slots[all->pinned])) all->pinned++;
    }
}

static void unpin_stuck(shard *in, stuck_pages *all) {
    while (all->pinned > 0) node_unpin(&in->node, all->slots[--all->pinned]);
}

/* Writes the page that is to leave, with the shard left. What failed first is noted, even if the
 * call then succeeds. */
static int write_victim(opened *its, shard *in, load *it, stuck_pages *all) {
    node_page victim = in->table.victim;
    int error = 0;
    unpin_stuck(in, all);
    bool is_outside = write_outside(its, in, victim, &error);
    if (error == 0) it->is_for_node = !is_outside || ++it->tries >= TRIES;
    if (error == 0) return WARM_OK;
    if (all->count + it->failed == 0) note_failure(its, victim, WARM_FAILED_WRITE, error);
    if (all->count == STUCK) return WARM_EVICT_FAULT;
    all->pages[all->count++] = victim;
    return WARM_OK;
}

/* If no page may leave, and one that is being written would: waits until one may, with the shard
 * left. Holds may have been given up since it was found so: they are looked at once more. Returns
 * WARM_OK or READ_AGAIN, if it is to be looked for again; WARM_ALL_PINNED; or WARM_BUSY. */
static int wait_for_frame(opened *its, shard *in, patience *left, stuck_pages *all) {
    if (in->writes == NULL) return WARM_ALL_PINNED;
    begin_to_want(in);
    bool is_there = has_victim(its, in);
    int status = is_there || is_victim_written(its, in) ? WARM_OK : WARM_ALL_PINNED;
    if (all != NULL) unpin_stuck(in, all);
    if (!is_there && status == WARM_OK) status = await_call(its, in, left);
    end_to_want(in);
    return status;
}

/* Leaves the shard to write the page that is to leave, or to wait for a frame whose page is being
 * written, and looks again which one is to leave, until the node can be asked. */
static int load_after_writes(opened *its, shard *in, load *it, stuck_pages *all, int status) {
    while (status == WRITE_FIRST || status == WARM_ALL_PINNED) {
        unpin_passed(in);
        status = status == WARM_ALL_PINNED ? wait_for_frame(its, in, &it->left, all)
                                           : write_victim(its, in, it, all);
        if (status == WARM_EVICT_FAULT || status == WARM_BUSY || status == WARM_ALL_PINNED)
            return status;
        if (it->begun->is_stale) return READ_AGAIN;
        pin_stuck(in, all);
        status = load_once(its, in, it);
    }
    return status;
}

/* The node of a handle that is alone has read the page, and would read it again for each page that
 * cannot be written. */
static int load_read_once(opened *its, shard *in, load *it) {
    if (it->kind == LOAD_PINS) {
        if (!has_room(its, in)) return WARM_ALL_PINNED;
        int status = read_outside(its, in, &(reading){.page = it->page}, it->is_locked);
        if (status != WARM_OK) return status;
        it->kind = LOAD_PINS_FILLED;
    }
    return load_once(its, in, it);
}

/* If the node cannot write the page that is to leave, the next one leaves. */
static int load_again(opened *its, shard *in, load *it, stuck_pages *all, int status) {
    if (all->count + it->failed == 0) noted(its, in, status);
    while (status == WARM_EVICT_FAULT && all->count < STUCK &&
           pin_victim(in, &all->pages[all->count], &all->slots[all->pinned])) {
        all->count++;
        all->pinned++;
        unpin_passed(in);
        status = load_read_once(its, in, it);
    }
    return status;
}

/* A load that is tried again may have had others. */
static void count_failures(opened *its, load *it, size_t more) {
    it->failed += more;
    if (more > 0) its->failed = it->failed;
}

__attribute__((noinline)) static int load_slowly(opened *its, shard *in, load *it, int status) {
    stuck_pages all;
    all.count = all.pinned = 0;
    status = load_after_writes(its, in, it, &all, status);
    if (status == WARM_EVICT_FAULT || status == WARM_READ_FAULT)
        status = load_again(its, in, it, &all, status);
    unpin_stuck(in, &all);
    bool has_failed = status == WARM_EVICT_FAULT || status == WARM_READ_FAULT;
    count_failures(its, it, all.count + has_failed);
    return status == WARM_ALL_PINNED && all.count > 0 ? WARM_EVICT_FAULT : status;
}

static inline int load_in(opened *its, shard *in, load *it) {
    int status = load_once(its, in, it);
    if (status != WARM_OK) status = load_slowly(its, in, it, status);
    if (in->table.passed_count > 0) unpin_passed(in);
    return status;
}

static int pin_absent(opened *its, shard *in, load *it) {
    int status = load_in(its, in, it);
    if (status == WARM_OK) note_loaded(in);
    return status;
}

static int pin_resident(opened *its, shard *in, load *it) {
    writing *changed = it->kind == LOAD_PINS_ZEROED ? write_of_page(in, it->page) : NULL;
    int status = may_change(its, in, changed, &it->left);
    if (status != WARM_OK) return status;
    status = ask_node(its, in, it);
    if (status == WARM_OK) note_change(changed);
    if (status == WARM_OK && it->kind == LOAD_PINS)
        put_record(its, in, it->page, it->slot, it->bytes);
    return status;
}

/* ---- pages that are read with no shard locked ---- */

/* What the node would refuse before it needs the page's bytes. If each page that could leave is
 * being written, waits for one of them. */
static int may_load(opened *its, shard *in, load *it) {
    const replica *of = its->of;
    if (it->page.dev >= of->device_count) return WARM_NO_DEVICE;
    if (it->page.no >= of->devices[it->page.dev].pages) return WARM_NO_PAGE;
    if (it->kind == LOAD_PINS_ZEROED || has_room(its, in)) return WARM_OK;
    return wait_for_frame(its, in, &it->left, NULL);
}

static int read_and_pin(opened *its, shard *in, load *it) {
    int status = read_outside(its, in, it->begun, it->is_locked);
    if (status == WARM_READ_FAULT) count_failures(its, it, 1);
    if (status != WARM_OK) return status;
    it->kind = LOAD_PINS_FILLED;
    status = pin_absent(its, in, it);
    it->kind = LOAD_PINS; /* what was read is of no use for another try */
    return status;
}

/* Reads a page that is in no frame, and that nobody reads, and pins it in the node, or pins it with
 * zeros; or READ_AGAIN. */
__attribute__((noinline)) static int pin_listed(opened *its, shard *in, load *it) {
    reading begun = {.page = it->page};
    int status = may_load(its, in, it);
    if (status != WARM_OK) return status;
    begin_read(in, &begun);
    it->begun = &begun;
    status = it->kind == LOAD_PINS ? read_and_pin(its, in, it) : pin_absent(its, in, it);
    it->begun = NULL;
    end_read(in, &begun);
    return status == READ_AGAIN ? look_again(its, &it->left) : status;
}

/* The same, without the pin: the node has it for a moment, and has counted a miss. The page may
 * have a frame that was not there for who wants one (see hold). */
static int load_read(opened *its, shard *in, load *it) {
    int status = pin_listed(its, in, it);
    if (status != WARM_OK) return status;
    in->table.loads++;
    wake_wanting(in);
    return node_unpin(&in->node, it->slot);
}

/* Looks whether a page is in a frame. WARM_OK if it is, or nobody reads it; READ_AGAIN, or
 * WARM_BUSY. */
static int look_for(opened *its, shard *in, load *it) {
    node_resident(&in->node, it->page, &it->is_hit);
    return it->is_hit ? WARM_OK : wait_for_read(its, in, it->page, &it->left);
}

/* Who is alone lets the node read a page that is in no frame. */
static int pin_found(opened *its, shard *in, load *it) {
    if (it->is_hit) return pin_resident(its, in, it);
    return it->is_locked ? pin_listed(its, in, it) : pin_absent(its, in, it);
}

/* Pins a page in the node of a shard. */
static int pin_in_node_of(opened *its, shard *in, load *it) {
    int status;
    do {
        status = look_for(its, in, it);
        if (status == WARM_OK) status = pin_found(its, in, it);
    } while (status == READ_AGAIN);
    return status;
}

/* ---- pins ---- */

/* What comes of a pin in a node, in the slot and in the handle. */
static void give_slot(opened *its, const shard *in, const load *it, warm_slot *slot) {
    uint64_t number = (uint64_t)(in - its->shards);
    its->pins++;
    slot->generation = it->slot.generation;
    put_place(slot, it->slot.index | number << SLOT_SHARD | (uint64_t)it->is_hit << SLOT_HIT);
    if (its->known_count < KNOWN_PINS) its->known[its->known_count++] = *slot;
}

/* The latest pins are looked at first: they are often taken back first. Two in one frame are of the
 * same page. */
static void forget_pin(opened *its, warm_slot slot) {
    unsigned at = its->known_count;
    uint64_t place = place_of_slot(&slot);
    its->pins--;
    while (at > 0 && place_of_slot(&its->known[at - 1]) != place) at--;
    if (at > 0) its->known[at - 1] = its->known[--its->known_count];
}

static int pin_in_shard(opened *its, load *it, warm_slot *slot) {
    shard *in = shard_of(its, it->page);
    it->is_locked = enter(its, in);
    int status = pin_in_node_of(its, in, it);
    if (status == WARM_OK) in->table.pinned++;
    leave(in, it->is_locked);
    if (status == WARM_OK) give_slot(its, in, it, slot);
    return status;
}

__attribute__((noinline)) static int pin_slowly(
    opened *its, node_page page, warm_slot *slot, const uint8_t **bytes) {
    load it = {.kind = LOAD_PINS, .page = page};
    int status = pin_in_shard(its, &it, slot);
    if (status == WARM_OK) *bytes = it.bytes;
    return status;
}

/* A hit takes up to a tenth more if jumps cross lines of memory: so it is not up to the code before
 * this function and warm_unpin. */
__attribute__((aligned(LINE))) int warm_pin_bytes(
    warm *handle, warm_page page, warm_slot *slot, const uint8_t **bytes) {
    opened *its = handle->at;
    if (its == NULL) return WARM_CLOSED;
    node_page its_page = page_in(page);
    if (pin_by_hold(its, its_page, slot, bytes)) return WARM_OK;
    return pin_slowly(its, its_page, slot, bytes);
}

int warm_pin(warm *handle, warm_page page, warm_slot *slot) {
    const uint8_t *bytes;
    return warm_pin_bytes(handle, page, slot, &bytes);
}

int warm_pin_zeroed(warm *handle, warm_page page, warm_slot *slot) {
    opened *its = handle->at;
    if (its == NULL) return WARM_CLOSED;
    return pin_in_shard(its, &(load){.kind = LOAD_PINS_ZEROED, .page = page_in(page)}, slot);
}

__attribute__((noinline)) static int unpin_in_shard(opened *its, warm_slot slot) {
    if (its->pins == 0 || slot.shard >= its->count) return WARM_STALE_SLOT;
    shard *in = &its->shards[slot.shard];
    bool is_locked = enter(its, in);
    writing *written = write_of_slot(in, slot_in(slot));
    unpin_write(in, written);
    int status = node_unpin(&in->node, slot_in(slot));
    pin_write(in, written);
    if (status == WARM_OK) in->table.pinned--;
    wake_wanting(in);
    leave(in, is_locked);
    if (status == WARM_OK) forget_pin(its, slot);
    return status;
}

__attribute__((aligned(LINE))) int warm_unpin(warm *handle, warm_slot slot) {
    opened *its = handle->at;
    if (its == NULL) return WARM_CLOSED;
    return unpin_by_hold(its, slot) ? WARM_OK : unpin_in_shard(its, slot);
}

void let_go_of_pins(opened *its) {
    for (unsigned left = its->known_count; left > 0; left--)
        unpin_in_shard(its, its->known[left - 1]);
}

/* A shard that is entered for a call on a slot, whose page the node has a pin of meanwhile, if
 * anybody has one. */
typedef struct slot_call {
    shard *in;
    node_slot slot;
    writing *written; /* of the page, if it is being written */
    bool is_locked, is_pinned, changes;
} slot_call;

/* Looks whether the slot's page is being written: it is copied then, if the call changes it.
 * WARM_OK, or WARM_BUSY. */
__attribute__((noinline)) static int look_for_write(const opened *its, slot_call *made) {
    patience left = {0};
    int status;
    do {
        made->written = write_of_slot(made->in, made->slot);
        status = made->changes ? may_change(its, made->in, made->written, &left) : WARM_OK;
    } while (status == READ_AGAIN);
    return status;
}

/* Whether the handle is open and the shard there, or why not. Who is about to change the page waits
 * until it is copied, if that is about to be written. */
static int enter_slot_to(warm *handle, warm_slot slot, slot_call *made, bool changes) {
    opened *its = handle->at;
    if (its == NULL) return WARM_CLOSED;
    if (slot.shard >= its->count) return WARM_STALE_SLOT;
    shard *in = &its->shards[slot.shard];
    *made = (slot_call){
        .in = in, .slot = slot_in(slot), .is_locked = enter(its, in), .changes = changes};
    int status = in->writes != NULL ? look_for_write(its, made) : WARM_OK;
    if (status != WARM_OK) {
        leave(in, made->is_locked);
        return status;
    }
    unpin_write(in, made->written);
    if (changes) in->may_be_dirty = true;
    made->is_pinned = pin_held(its, in, made->slot);
    return WARM_OK;
}

static int enter_slot(warm *handle, warm_slot slot, slot_call *made) {
    return enter_slot_to(handle, slot, made, false);
}

static int enter_slot_to_write(warm *handle, warm_slot slot, slot_call *made) {
    return enter_slot_to(handle, slot, made, true);
}

static int leave_slot(const slot_call *made, int status) {
    if (made->changes && status == WARM_OK) note_change(made->written);
    if (made->is_pinned) node_unpin(&made->in->node, made->slot);
    pin_write(made->in, made->written);
    leave(made->in, made->is_locked);
    return status;
}

/* Refuses what the node would. The shard is entered, so that a warm_write by another handle is one
 * step for who reads. */
static int read_held(
    opened *its, warm_slot slot, const uint8_t *bytes, size_t at, void *into, size_t length) {
    size_t size = its->of->page_size;
    if (at > size || length > size - at) return WARM_OUT_OF_PAGE;
    shard *in = &its->shards[slot.shard];
    bool is_locked = enter(its, in);
    memcpy(into, bytes + at, length);
    leave(in, is_locked);
    return WARM_OK;
}

int warm_read(warm *handle, warm_slot slot, size_t at, void *into, size_t length) {
    opened *its = handle->at;
    if (its == NULL) return WARM_CLOSED;
    const uint8_t *bytes = held_bytes(its, slot);
    if (bytes != NULL) return read_held(its, slot, bytes, at, into, length);
    slot_call made;
    int status = enter_slot(handle, slot, &made);
    if (status != WARM_OK) return status;
    return leave_slot(&made, node_read(&made.in->node, made.slot, at, into, length));
}

int warm_write(warm *handle, warm_slot slot, size_t at, const void *bytes, size_t length) {
    slot_call made;
    int status = enter_slot_to_write(handle, slot, &made);
    if (status != WARM_OK) return status;
    return leave_slot(&made, node_write(&made.in->node, made.slot, at, bytes, length));
}

int warm_bytes(warm *handle, warm_slot slot, const uint8_t **bytes) {
    opened *its = handle->at;
    if (its == NULL) return WARM_CLOSED;
    const uint8_t *lent = held_bytes(its, slot);
    if (lent != NULL) {
        *bytes = lent;
        return WARM_OK;
    }
    slot_call made;
    int status = enter_slot(handle, slot, &made);
    if (status != WARM_OK) return status;
    return leave_slot(&made, node_bytes(&made.in->node, made.slot, bytes));
}

int warm_bytes_mut(warm *handle, warm_slot slot, uint8_t **bytes) {
    slot_call made;
    int status = enter_slot_to_write(handle, slot, &made);
    if (status != WARM_OK) return status;
    return leave_slot(&made, node_bytes_mut(&made.in->node, made.slot, bytes));
}

/* Whose bytes are lent for writing, that page is dirty. */
int warm_mark_dirty(warm *handle, warm_slot slot) {
    uint8_t *bytes;
    return warm_bytes_mut(handle, slot, &bytes);
}

int warm_resident(warm *handle, warm_page page, bool *resident) {
    opened *its = handle->at;
    if (its == NULL) return WARM_CLOSED;
    shard *in = shard_of(its, page_in(page));
    bool is_locked = enter(its, in);
    int status = node_resident(&in->node, page_in(page), resident);
    leave(in, is_locked);
    return status;
}

/* ---- what leaves and what comes next ---- */

/* How many victims a call says. */
enum { VICTIMS = 64 };

/* The node has a pin of each page that is said, so that the next one follows, until all are. */
static int find_victims(
    opened *its, shard *in, size_t room, node_page pages[VICTIMS], size_t *count) {
    node_slot slots[VICTIMS];
    size_t found = 0;
    bool fits = true, is_more = true;
    while (fits && is_more && found < room) {
        fits = pass_over_held(its, in, false);
        is_more = fits && pin_victim(in, &pages[found], &slots[found]);
        unpin_passed(in);
        if (is_more) found++;
    }
    *count = found;
    while (found > 0) node_unpin(&in->node, slots[--found]);
    return fits ? WARM_OK : WARM_ALL_PINNED;
}

int warm_victims(warm *handle, size_t number, warm_page *pages, size_t room, size_t *count) {
    opened *its = handle->at;
    node_page next[VICTIMS];
    size_t found;
    if (its == NULL) return WARM_CLOSED;
    if (number >= its->count) return WARM_NO_SHARD;
    shard *in = &its->shards[number];
    bool is_locked = enter(its, in);
    unpin_written(in);
    int status = find_victims(its, in, room < VICTIMS ? room : VICTIMS, next, &found);
    pin_written(in);
    leave(in, is_locked);
    if (status != WARM_OK) return status;
    for (size_t at = 0; at < found; at++) pages[at] = page_out(next[at]);
    *count = found;
    return WARM_OK;
}

/* Loads the page that the node says is next, if there is one. */
static int step_in(opened *its, shard *in, load *it, bool *found) {
    int status;
    do {
        status = node_next(&in->node, found, &it->page);
        if (status != WARM_OK || !*found) return status;
        status = wait_for_read(its, in, it->page, &it->left);
        if (status == WARM_OK) status = load_read(its, in, it);
    } while (status == READ_AGAIN);
    return status;
}

/* The shards have turns, even if one is refused: pages of one that cannot be read keep no other
 * from being loaded. */
int warm_step(warm *handle, bool *found, warm_page *page) {
    opened *its = handle->at;
    load it = {0};
    bool is_found = false;
    if (its == NULL) return WARM_CLOSED;
    for (size_t asked = 0; asked < its->count && !is_found; asked++) {
        shard *in = &its->shards[its->turn];
        its->turn = (its->turn + 1) % its->count;
        it.is_locked = enter(its, in);
        int status = step_in(its, in, &it, &is_found);
        leave(in, it.is_locked);
        if (status != WARM_OK) return status;
    }
    *found = is_found;
    if (is_found) *page = page_out(it.page);
    return WARM_OK;
}

int warm_prefetch(warm *handle, warm_page page) {
    opened *its = handle->at;
    int status;
    if (its == NULL) return WARM_CLOSED;
    load it = {.page = page_in(page)};
    shard *in = shard_of(its, it.page);
    it.is_locked = enter(its, in);
    do {
        status = look_for(its, in, &it);
        if (status == WARM_OK && !it.is_hit) status = load_read(its, in, &it);
    } while (status == READ_AGAIN);
    leave(in, it.is_locked);
    return status;
}

/*
 * holds.h: pins that take no lock. Not installed.
 *
 * A shard has records: each says where a page is that is in a frame. A handle has holds: each names
 * a record, and so a page that the handle pins. The node does not know of holds. Whoever is in a
 * shard, and is about to let a page leave its frame, closes the record of that page, looks at all
 * holds, and if one names it, pins the page in the node until the call is over. So the node has a
 * pin of a held page whenever its answer depends on that, and has none of them between calls.
 *
 * A hold is a hazard pointer, and a record is what it protects. The handle publishes the hold (an
 * exchange), and then looks at the record again: is it still open, and the same? Who lets a page
 * leave retires its record first (a store), and then looks at the holds. These four are seq_cst, so
 * that they have one order. In it either the second look comes before the record was closed: then
 * the hold was published before the holds were looked at, and is seen. Or it comes after that: then
 * the handle takes its hold back, and has not read a byte. With less than seq_cst on any of the
 * four, a processor may put the look before the store, on both sides, and neither sees the other.
 *
 * For the rest it is enough to release and to acquire. What a handle reads of a page it has read
 * before it takes its hold back (release), and who finds no hold (acquire) overwrites the frame
 * after that. A page's bytes are in its frame before its record opens (release), and the handle
 * reads them after it found the record open (acquire). The fields of a record are stored by release
 * and read by acquire, too: who reads one of the next page has then seen that the record was closed
 * before, and its second look finds another state. States have 32 bits: a pin that sleeps between
 * its two looks while its record is given to other pages, or is found free by who forgets pages,
 * exactly 2^31 times would take the last page for its own.
 */
#ifndef HOLDS_H
#define HOLDS_H

#include "nodes.h"

#include <stdatomic.h>

/* Bytes that a processor takes from another one as a whole. No two shards share any, and no two
 * handles. */
enum { LINE = 64 };

/* How many pages a handle holds at once; in how many records a page may be, from its first on. */
enum { HOLDS = 8, NEAR = 8 };

/* Where a page is. All threads read it, and who is in the shard changes it. The state is twice the
 * number of pages that the record was given to before, and 1 more while it is open. A closed record
 * is free, but during a call that closes it and may open it again. */
typedef struct record {
    _Atomic uint32_t state;
    _Atomic uint16_t index, dev;
    _Atomic uint64_t no, generation;
    _Atomic(const uint8_t *) bytes;
} record;

/* What a handle holds. All threads read it, and the handle alone changes it. It is freed with the
 * replica: once the handle is closed another one may have it. */
typedef struct holds {
    _Alignas(LINE) _Atomic uint64_t words[HOLDS]; /* see word_of; 0 is no hold */
    _Alignas(LINE) _Atomic uint64_t hits;         /* pins by holds */
    _Alignas(LINE) atomic_bool is_used;
    struct holds *next; /* among those of the replica; it does not change */
    void *block;
} holds;

/* A page that a handle holds and that the node has a pin of for one call. */
typedef struct passed {
    node_slot slot;
    record *at;
} passed;

/* The records of a shard, and what its calls need to look at the holds: who is in the shard reads
 * and changes that. */
typedef struct table {
    record *records; /* two for each frame or more, and some behind them; they do not move */
    size_t mask;     /* of the half of a first record's number */
    void *block;
    _Atomic uint32_t wanting; /* who waits for a frame (waits.h); each hit reads this line */
    _Alignas(LINE) passed *passed; /* and behind them all that was seen: they are one block */
    size_t passed_count, room;     /* as many as all handles have holds */
    uint64_t *seen;                /* the words of this shard that were seen, in any order */
    uint64_t *sorted; /* many of them also here, each at the place that its bits say or behind it */
    size_t seen_count, sorted_mask;
    node_page victim; /* if has_victim, the page that would leave by the node's last answer */
    bool has_victim;
    size_t frames, filled; /* filled: those that have a page. While one has none, no page leaves */
    size_t pinned;         /* pins in the node that callers have */
    uint64_t pins;         /* that holds.c made in the node: no caller's hits */
    uint64_t loads;        /* pins in the node of pages that are loaded without a pin: no misses */
} table;

/* The first of the records that a page may have: two of them share a line of memory. It is mixed
 * twice: the middle of one product leaves gaps, and heaps beside them, if numbers follow each
 * other, as those of pages do (a quarter of all pins of 65,536 pages in a row took the lock). */
static inline record *first_record(const table *of, node_page page) {
    uint64_t mixed = (page.no + ((uint64_t)page.dev << 48)) * 0x9E3779B97F4A7C15u;
    mixed = (mixed ^ mixed >> 32) * 0x9E3779B97F4A7C15u;
    return &of->records[2 * (mixed >> 32 & of->mask)];
}

/* The open record of a page, and its state; NULL if it has none. */
static inline record *find_record(const table *of, node_page page, uint32_t *state) {
    record *at = first_record(of, page);
    for (record *end = at + NEAR; at < end; at++) {
        *state = atomic_load_explicit(&at->state, memory_order_acquire);
        if ((*state & 1) != 0 && atomic_load_explicit(&at->no, memory_order_acquire) == page.no &&
            atomic_load_explicit(&at->dev, memory_order_acquire) == page.dev)
            return at;
    }
    return NULL;
}

/* The word of a hold of a record: the number of its shard, of 6 bits, its own, of 18, and its state
 * while it is open. */
enum { SHARD_AT = 50, RECORD_AT = 32, RECORD_MASK = (1 << 18) - 1 };

static inline uint64_t word_of(size_t shard, const table *of, const record *at, uint32_t state) {
    return (uint64_t)shard << SHARD_AT | (uint64_t)(at - of->records) << RECORD_AT | state;
}

/* checks/holds has pauses here, in which other threads have their turns: between the steps of a pin
 * that takes no lock; and of who is in a shard, behind a look at the holds and an open record. */
#ifndef HOLDS_PAUSE
#define HOLDS_PAUSE() ((void)0)
#define HOLDS_PAUSE_IN_SHARD() ((void)0)
#endif

struct opened;
struct replica;
struct shard;

/* Zeros in lines of their own, or NULL; and the block of malloc that they are in. */
void *in_lines(size_t size, void **block);

/* The table of a shard of this many frames; false if there is no memory: close_table, too. */
bool open_table(table *of, size_t frames);
void close_table(table *of);

/* Gives a handle holds, and room for them in each shard; false if there is no memory. */
bool take_holds(struct opened *its);
void give_holds(struct opened *its);

/* Takes back what a handle, which is called no more, has pinned by holds. */
void let_go_of_holds(struct opened *its);
void free_holds(struct replica *of);

/* How often handles have pinned a page by a hold. */
uint64_t hits_of_holds(struct replica *of);

/* The rest is called by who is in the shard. */

/* Gives a page that is in a frame a record, if there is room for one. It is for a page that was
 * pinned before: many pages leave without a record. */
void put_record(
    struct opened *its, struct shard *in, node_page page, node_slot slot, const uint8_t *bytes);

/* Before a call of the node that may let a page leave for another, or says which one would: that
 * page, the table's victim, is then one that nobody holds. False if the call is to be refused
 * (WARM_ALL_PINNED). After the call, and before this is asked again, unpin_passed. */
bool pass_over_held(struct opened *its, struct shard *in, bool leaves);
void unpin_passed(struct shard *in);

/* A page was put into a frame; or pages have left frames, which no other ones have. */
void note_loaded(struct shard *in);
void note_left(struct shard *in);

/* Pins a page in the node that is in a frame; false if it has too many pins. */
bool pin_in_node(struct shard *in, node_page page, node_slot *slot);

/* Pins the page in the node that would leave next, and writes which; false if there is none. */
bool pin_victim(struct shard *in, node_page *page, node_slot *slot);

/* Before a call of the node on a slot: whether the slot's page is held, and was pinned in the node.
 * If so it is to be unpinned after the call. */
bool pin_held(struct opened *its, struct shard *in, node_slot slot);

/* Before pages of a device leave, with this number and above: whether nobody holds one. */
bool may_leave(struct opened *its, struct shard *in, uint16_t dev, uint64_t from);

#endif

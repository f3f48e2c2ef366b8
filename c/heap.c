/*
 * heap.c: the memory of the library, as heap.h says. Nothing here is proved; c/check tests it.
 *
 * Blocks of whole units are cut from runs. A run is 256 units that the system maps, for blocks of
 * one size, and is given back with the last of them. If there are many runs, as for a pool of more
 * than 48 megabytes, the next ones are of 8,192 units in huge pages: a pin of a page that was not
 * used lately misses one look at the processor's table of addresses; with small pages it misses two
 * and more. aligned_alloc is no help: with glibc's a block of one unit takes two, since what it
 * keeps before the block is in the unit before.
 */
#define _DEFAULT_SOURCE 1 /* pthread_mutex_t, MAP_ANONYMOUS, madvise */
#include "heap.h"

#include <pthread.h>
#include <stdint.h>
#include <stdlib.h>
#include <string.h>
#include <sys/mman.h>

/* Behind the last block of a run is a unit that nobody writes to: it takes addresses and no
 * memory. */
enum { RUN_BYTES = 256 * HEAP_UNIT, MAPPED_BYTES = RUN_BYTES + HEAP_UNIT };

/* From how many runs on they are great ones. These begin at a multiple of a huge page: what is
 * mapped before that, and behind them, takes addresses alone, too. */
enum {
    MANY_RUNS = 48,
    HUGE_BYTES = 2 << 20,
    GREAT_BYTES = 8192 * HEAP_UNIT,
    GREAT_MAPPED = GREAT_BYTES + HUGE_BYTES
};

typedef struct run {
    uint8_t *at;  /* its first block */
    size_t bytes; /* that blocks are cut from */
    void *mapped;
    size_t mapped_bytes;
    size_t size; /* of each block */
    size_t cut;  /* how many blocks were ever in use: those behind them were not touched */
    size_t used; /* how many are in use */
    void *freed; /* the last of these that was freed; each of them begins with the one before */
    /* among the runs of its size that have room, if it is one: the next, and what points here */
    struct run *next, **link;
} run;

/* The runs, in the order of their addresses; and of each size, in units, the first of those that
 * have room. Who reads or changes them has the lock. */
static pthread_mutex_t lock = PTHREAD_MUTEX_INITIALIZER;
static run **runs;
static size_t run_count, run_room;
static run *with_room[HEAP_MOST_UNITS + 1];

static char none;

static tried answer(void *p) { return (tried){.ok = p != NULL, .p = p != NULL ? p : &none}; }

static bool is_in_units(size_t n, size_t a) {
    return a == 1 && n != 0 && n % HEAP_UNIT == 0 && n / HEAP_UNIT <= HEAP_MOST_UNITS;
}

/* How many runs begin at an address or before it. */
static size_t runs_until(const void *p) {
    size_t low = 0, high = run_count;
    while (low < high) {
        size_t middle = low + (high - low) / 2;
        if ((uintptr_t)runs[middle]->at <= (uintptr_t)p) low = middle + 1;
        else high = middle;
    }
    return low;
}

/* The run that a block was cut from. */
static run *run_of(const void *p) {
    size_t until = runs_until(p);
    if (until == 0 || (uintptr_t)p - (uintptr_t)runs[until - 1]->at >= runs[until - 1]->bytes)
        return NULL;
    return runs[until - 1];
}

static bool makes_room(void) {
    if (run_count < run_room) return true;
    size_t room = run_room != 0 ? 2 * run_room : 16;
    run **larger = realloc(runs, room * sizeof(run *));
    if (larger == NULL) return false;
    runs = larger;
    run_room = room;
    return true;
}

static void free_if_none(void) {
    if (run_count != 0) return;
    free(runs);
    runs = NULL;
    run_room = 0;
}

static bool has_room(const run *it) { return it->used < it->bytes / it->size; }

/* Puts a run first among those of its size that have room. */
static void link_run(run *it) {
    it->link = &with_room[it->size / HEAP_UNIT];
    it->next = *it->link;
    if (it->next != NULL) it->next->link = &it->next;
    *it->link = it;
}

static void unlink_run(const run *it) {
    *it->link = it->next;
    if (it->next != NULL) it->next->link = it->link;
}

static bool map(run *its, size_t bytes, size_t mapped_bytes) {
    void *at = mmap(NULL, mapped_bytes, PROT_READ | PROT_WRITE, MAP_PRIVATE | MAP_ANONYMOUS, -1, 0);
    if (at == MAP_FAILED) return false;
    its->at = its->mapped = at;
    its->mapped_bytes = mapped_bytes;
    its->bytes = bytes;
    return true;
}

/* Small pages do if the system has no huge ones. */
static bool map_great(run *its) {
    if (!map(its, GREAT_BYTES, GREAT_MAPPED)) return false;
    its->at += -(uintptr_t)its->mapped % HUGE_BYTES;
#ifdef MADV_HUGEPAGE
    madvise(its->at, GREAT_BYTES, MADV_HUGEPAGE);
#endif
    return true;
}

/* A run that the system maps, or NULL. */
static run *mapped_run(size_t size) {
    run *made = malloc(sizeof(run));
    if (made == NULL) return NULL;
    *made = (run){.size = size};
    if (run_count >= MANY_RUNS && map_great(made)) return made;
    if (map(made, RUN_BYTES, MAPPED_BYTES)) return made;
    free(made);
    return NULL;
}

static run *new_run(size_t size) {
    if (!makes_room()) return NULL;
    run *made = mapped_run(size);
    if (made == NULL) {
        free_if_none();
        return NULL;
    }
    run **place = runs + runs_until(made->at);
    memmove(place + 1, place, (size_t)(runs + run_count - place) * sizeof(run *));
    *place = made;
    run_count++;
    link_run(made);
    return made;
}

/* A run whose addresses the system does not take back, as it has too many mappings. It is used
 * again as if it were new; until then the system has its memory. */
static void keep_run(run *empty) {
    if (madvise(empty->mapped, empty->mapped_bytes, MADV_DONTNEED) != 0) return;
    empty->cut = 0;
    empty->freed = NULL;
}

static void free_run(run *empty) {
    run **place = runs + runs_until(empty->at) - 1;
    if (munmap(empty->mapped, empty->mapped_bytes) != 0) {
        keep_run(empty);
        return;
    }
    unlink_run(empty);
    free(empty);
    run_count--;
    memmove(place, place + 1, (size_t)(runs + run_count - place) * sizeof(run *));
    free_if_none();
}

static void *take_block(size_t size) {
    run *from = with_room[size / HEAP_UNIT];
    if (from == NULL) from = new_run(size);
    if (from == NULL) return NULL;
    void *block = from->freed;
    if (block != NULL) from->freed = *(void **)block;
    else block = from->at + size * from->cut++;
    from->used++;
    if (!has_room(from)) unlink_run(from);
    return block;
}

static void give_block(run *to, void *block) {
    *(void **)block = to->freed;
    to->freed = block;
    if (!has_room(to)) link_run(to);
    to->used--;
    if (to->used == 0) free_run(to);
}

/* The size of a block that was cut from a run; 0 of any other. */
static size_t size_in_units(const void *p) {
    if ((uintptr_t)p % HEAP_UNIT != 0) return 0;
    pthread_mutex_lock(&lock);
    const run *its = run_of(p);
    size_t size = its != NULL ? its->size : 0;
    pthread_mutex_unlock(&lock);
    return size;
}

tried rattle_alloc(size_t n, size_t a) {
    if (!is_in_units(n, a)) return answer(malloc(n != 0 ? n : a));
    pthread_mutex_lock(&lock);
    void *block = take_block(n);
    pthread_mutex_unlock(&lock);
    return answer(block);
}

tried rattle_realloc(void *p, size_t kept, size_t n, size_t a) {
    size_t size = size_in_units(p);
    if (size == 0 && !is_in_units(n, a)) return answer(realloc(p, n != 0 ? n : a));
    if (size == n) return answer(p);
    tried moved = rattle_alloc(n, a);
    if (!moved.ok) return moved;
    memcpy(moved.p, p, kept);
    rattle_dealloc(p);
    return moved;
}

void rattle_dealloc(void *p) {
    if ((uintptr_t)p % HEAP_UNIT != 0) {
        free(p);
        return;
    }
    pthread_mutex_lock(&lock);
    run *its = run_of(p);
    if (its != NULL) give_block(its, p);
    pthread_mutex_unlock(&lock);
    if (its == NULL) free(p);
}

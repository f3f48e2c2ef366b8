/*
 * Tests heap.c: in place of the proved part this program takes, resizes and frees blocks, and looks
 * that no two of them overlap. It has the code of heap.c in itself, over a malloc and an mmap that
 * count their blocks, refuse one, or answer one that begins at a multiple of 4,096.
 */
#define _DEFAULT_SOURCE 1 /* pthread_create, MAP_ANONYMOUS */
#include <pthread.h>
#include <stdatomic.h>
#include <stdbool.h>
#include <stdint.h>
#include <stdio.h>
#include <stdlib.h>
#include <string.h>
#include <sys/mman.h>

/* How many blocks and mappings are in use, and how many calls from now on one fails: 0 is never. */
static atomic_long in_use, fails_at;
static atomic_size_t mapped; /* bytes */
static bool aligns;          /* malloc answers multiples of 4,096 */
static bool keeps_mappings;  /* munmap fails */
static size_t huge;          /* bytes that the system was asked to have in huge pages */
static uintptr_t huge_at;    /* all bits of where these began */

static bool refuses(void) { return fails_at != 0 && --fails_at == 0; }

/* Of no bytes they answer NULL, as they may. */
static void *counted_malloc(size_t n) {
    if (n == 0 || refuses()) return NULL;
    void *p = aligns ? aligned_alloc(4096, (n + 4095) / 4096 * 4096) : malloc(n);
    in_use += p != NULL;
    return p;
}

static void *counted_realloc(void *p, size_t n) {
    if (n == 0 || refuses()) return NULL;
    void *moved = realloc(p, n);
    in_use += p == NULL && moved != NULL;
    return moved;
}

static void counted_free(void *p) {
    in_use -= p != NULL;
    free(p);
}

static void *counted_mmap(void *at, size_t n, int may, int how, int fd, off_t from) {
    if (refuses()) return MAP_FAILED;
    void *p = mmap(at, n, may, how, fd, from);
    in_use += p != MAP_FAILED;
    mapped += p != MAP_FAILED ? n : 0;
    return p;
}

static int counted_munmap(void *p, size_t n) {
    if (keeps_mappings) return -1;
    in_use--;
    mapped -= n;
    return munmap(p, n);
}

static int counted_madvise(void *p, size_t n, int advice) {
    if (advice == MADV_HUGEPAGE) {
        huge += n;
        huge_at |= (uintptr_t)p;
    }
    return madvise(p, n, advice);
}

#define madvise counted_madvise
#define mmap counted_mmap
#define munmap counted_munmap
#define malloc counted_malloc
#define realloc counted_realloc
#define free counted_free
#include "heap.c"
#undef malloc
#undef realloc
#undef free
#undef mmap
#undef munmap
#undef madvise

/* Under helgrind, which is slow, threads make fewer steps, and what needs none is left out. */
#ifndef FEWER
#define FEWER 1
#endif

enum { UNIT = 4096, LARGE = 16 * UNIT, MANY = 10000, LIVE = 600 };
enum { STEPS = 40000 / FEWER, THREADS = 4 };

static void must(bool holds, const char *what, int line) {
    if (holds) return;
    fprintf(stderr, "heap_test.c:%d: %s\n", line, what);
    exit(1);
}
#define MUST(holds) must(holds, #holds, __LINE__)

/* A block, and a number that its bytes are made of. */
typedef struct block {
    uint8_t *p;
    size_t n;
    uint32_t number;
} block;

/* Every 509th byte, the first and the last one. */
static uint8_t byte_of(const block *of, size_t at) { return (uint8_t)(of->number * 31 + at / 509); }

static void fill(const block *it) {
    for (size_t at = 0; at < it->n; at += 509) it->p[at] = byte_of(it, at);
    if (it->n != 0) it->p[it->n - 1] = byte_of(it, it->n - 1);
}

static bool keeps(const block *it, size_t n) {
    for (size_t at = 0; at < n; at += 509)
        if (at != it->n - 1 && it->p[at] != byte_of(it, at)) return false;
    return n < it->n || n == 0 || it->p[n - 1] == byte_of(it, n - 1);
}

static bool is_page(size_t n) { return n != 0 && n % UNIT == 0 && n <= LARGE; }

static block take(size_t n, uint32_t number) {
    tried got = rattle_alloc(n, 1);
    block it = {.p = got.p, .n = n, .number = number};
    MUST(got.ok && (uintptr_t)it.p % (is_page(n) ? UNIT : 1) == 0);
    fill(&it);
    return it;
}

static void resize(block *it, size_t n) {
    size_t kept = n < it->n ? n : it->n;
    tried got = rattle_realloc(it->p, kept, n, 1);
    MUST(got.ok && (uintptr_t)got.p % (is_page(n) ? UNIT : 1) == 0);
    it->p = got.p;
    MUST(keeps(it, kept));
    it->n = n;
    fill(it);
}

static void drop(block *it) {
    MUST(keeps(it, it->n));
    rattle_dealloc(it->p);
    it->p = NULL;
}

/* Sizes of pages, one more and one less, and larger ones. */
static void test_sizes(void) {
    static block all[17 * 3 + 3];
    size_t count = 0;
    for (size_t units = 0; units <= 17; units++)
        for (size_t n = units == 0 ? 0 : units * UNIT - 1; n <= units * UNIT + 1; n++)
            all[count] = take(n, (uint32_t)count), count++;
    for (size_t at = 0; at < count; at++) MUST(keeps(&all[at], all[at].n));
    for (size_t at = 0; at < count; at++) drop(&all[at]);
    MUST(in_use == 0 && runs == NULL);
    tried numbers = rattle_alloc(UNIT, 8); /* not for bytes: no run is made for it */
    MUST(numbers.ok && runs == NULL && in_use == 1);
    rattle_dealloc(numbers.p);
    MUST(in_use == 0);
}

static void test_resizes(void) {
    static const size_t sizes[] = {
        0, 1, 100, UNIT, 3 * UNIT, UNIT, 5000, LARGE, LARGE, LARGE + UNIT, 2 * UNIT, 9, 0, UNIT};
    enum { COUNT = sizeof sizes / sizeof sizes[0] };
    for (size_t from = 0; from < COUNT; from++) {
        block it = take(sizes[from], (uint32_t)from);
        for (size_t to = 0; to < COUNT; to++) resize(&it, sizes[to]);
        drop(&it);
    }
    MUST(in_use == 0 && runs == NULL);
}

/* A block of malloc's that begins where one of a run may: it is freed and resized as malloc's. */
static void test_aligned_malloc(void) {
    block page = take(UNIT, 1);
    aligns = true;
    block other = take(100, 2), third = take(LARGE + UNIT, 3);
    aligns = false;
    MUST((uintptr_t)other.p % UNIT == 0 && (uintptr_t)third.p % UNIT == 0);
    resize(&other, 200);
    drop(&other);
    drop(&third);
    drop(&page);
    MUST(in_use == 0 && runs == NULL);
}

/* Mappings that the system does not take back are used again, for blocks of their size; the memory
 * is given back, and is then zeros. */
static void test_kept(void) {
    block all[300], large = take(LARGE, 1);
    for (uint32_t k = 0; k < 300; k++) all[k] = take(UNIT, k);
    const uint8_t *kept = all[0].p;
    MUST(kept[509] == 1);
    keeps_mappings = true;
    for (uint32_t k = 0; k < 300; k++) drop(&all[k]);
    drop(&large);
    MUST(kept[0] == 0 && kept[509] == 0);
    MUST(in_use == 7 && run_count == 3); /* and a note of each, and the list of the runs */
    for (uint32_t k = 0; k < 300; k++) all[k] = take(UNIT, k);
    large = take(LARGE, 1);
    MUST(in_use == 7 && run_count == 3);
    keeps_mappings = false;
    for (uint32_t k = 0; k < 300; k++) drop(&all[k]);
    drop(&large);
    MUST(in_use == 0 && runs == NULL && mapped == 0);
}

/* Blocks that were freed among others, in many runs, are used again before a run is mapped. */
static void test_holes(void) {
    static block all[MANY];
    for (uint32_t at = 0; at < MANY; at++) all[at] = take(UNIT, at);
    size_t before = mapped;
    for (uint32_t part = 2; part < 300; part += 99) {
        for (uint32_t at = 0; at < MANY; at += part) drop(&all[at]);
        MUST(mapped == before);
        for (uint32_t at = 0; at < MANY; at += part) all[at] = take(UNIT, at + 1);
        MUST(mapped == before);
    }
    for (uint32_t at = 0; at < MANY; at++) drop(&all[at]);
    MUST(in_use == 0 && runs == NULL && mapped == 0);
}

/* Many runs, and then great ones, in huge pages; if the system maps none of these, small ones go
 * on. */
static void test_great_runs(void) {
    enum {
        SMALL = MANY_RUNS * RUN_BYTES / UNIT,
        GREAT = GREAT_BYTES / UNIT,
        ALL = SMALL + GREAT + 1
    };
    block *all = calloc(ALL, sizeof(block));
    MUST(all != NULL);
    huge = huge_at = 0;
    for (uint32_t at = 0; at < SMALL; at++) all[at] = take(UNIT, at);
    size_t before = mapped;
    MUST(run_count == MANY_RUNS && before == (size_t)MANY_RUNS * MAPPED_BYTES);
    fails_at = 2; /* a run, its mapping */
    block other = take(UNIT, 7);
    MUST(fails_at == 0 && run_count == MANY_RUNS + 1 && mapped == before + MAPPED_BYTES);
    drop(&other);
    MUST(mapped == before && huge == 0);
    for (uint32_t at = SMALL; at < ALL - 1; at++) all[at] = take(UNIT, at);
    MUST((uintptr_t)all[SMALL].p % HUGE_BYTES == 0 && run_count == MANY_RUNS + 1 &&
         mapped == before + GREAT_MAPPED);
    all[ALL - 1] = take(UNIT, 9);
    MUST(run_count == MANY_RUNS + 2 && mapped == before + 2 * (size_t)GREAT_MAPPED);
    MUST(huge == 2 * (size_t)GREAT_BYTES && huge_at % HUGE_BYTES == 0);
    for (uint32_t at = 0; at < ALL; at++) drop(&all[(at * 7919ull) % ALL]);
    free(all);
    MUST(in_use == 0 && runs == NULL && mapped == 0);
}

/* Each call of malloc or mmap refused in turn: the answer says so, and what is there stays. */
static void test_refusals(void) {
    for (long at = 1; at < 120; at++) {
        block all[20];
        size_t count = 0, refused = 0;
        fails_at = at;
        for (uint32_t k = 0; k < 20; k++) {
            tried got = rattle_alloc((k % 16 + 1) * UNIT, 1);
            refused += !got.ok;
            MUST(got.p != NULL);
            if (!got.ok) continue;
            all[count] = (block){.p = got.p, .n = (k % 16 + 1) * UNIT, .number = k};
            fill(&all[count++]);
        }
        for (size_t k = 0; k < count; k++) {
            size_t n = all[k].n + (k % 2 != 0 ? 1 : 17) * UNIT;
            tried got = rattle_realloc(all[k].p, all[k].n, n, 1);
            refused += !got.ok;
            MUST(got.p != NULL);
            if (got.ok) all[k].p = got.p;
            MUST(keeps(&all[k], all[k].n - 1));
        }
        MUST(refused <= 1 && (fails_at == 0 ? refused == 1 : true));
        fails_at = 0;
        for (size_t k = 0; k < count; k++) rattle_dealloc(all[k].p);
        MUST(in_use == 0 && runs == NULL);
    }
}

/* Each call of malloc or mmap for the first run refused in turn: nothing is left. */
static void test_no_run(void) {
    for (long at = 1; at <= 3; at++) { /* the list of the runs, a run, its mapping */
        fails_at = at;
        tried got = rattle_alloc(UNIT, 1);
        MUST(!got.ok && fails_at == 0 && in_use == 0 && runs == NULL && run_room == 0);
    }
}

static uint32_t drawn(uint32_t *seed) {
    *seed = *seed * 1664525 + 1013904223;
    return *seed >> 8;
}

static size_t drawn_size(uint32_t *seed) {
    uint32_t kind = drawn(seed) % 4, value = drawn(seed);
    return kind == 0 ? value % 300 : kind == 1 ? value % 9000 : (value % 3 + 1) * UNIT;
}

/* Blocks are taken, resized and freed in an order that is drawn. */
static void churn(uint32_t seed) {
    block *live = calloc(LIVE, sizeof(block));
    MUST(live != NULL);
    for (uint32_t step = 0; step < STEPS; step++) {
        block *it = &live[drawn(&seed) % LIVE];
        if (it->p == NULL) *it = take(drawn_size(&seed), step);
        else if (drawn(&seed) % 4 == 0) resize(it, drawn_size(&seed));
        else drop(it);
    }
    for (size_t at = 0; at < LIVE; at++)
        if (live[at].p != NULL) drop(&live[at]);
    free(live);
}

static void *churn_thread(void *seed) {
    churn(*(uint32_t *)seed);
    return NULL;
}

static void test_churn(void) {
    pthread_t threads[THREADS];
    uint32_t seeds[THREADS] = {1, 2, 3, 4};
    churn(7);
    MUST(in_use == 0 && runs == NULL);
    for (int at = 0; at < THREADS; at++)
        MUST(pthread_create(&threads[at], NULL, churn_thread, &seeds[at]) == 0);
    for (int at = 0; at < THREADS; at++) MUST(pthread_join(threads[at], NULL) == 0);
    MUST(in_use == 0 && runs == NULL);
}

/* Behind each block of pages as many bytes as a page has may be read, also behind the last block of
 * a run. */
static void test_behind(void) {
    enum { BLOCKS = 256 };
    static block all[BLOCKS];
    static volatile uint8_t seen;
    for (size_t size = UNIT; size <= LARGE; size += UNIT) {
        for (uint32_t at = 0; at < BLOCKS; at++) all[at] = take(size, at);
        for (int at = 0; at < BLOCKS; at++)
            for (size_t behind = 0; behind < UNIT; behind += UNIT - 1)
                seen = all[at].p[size + behind];
        for (int at = 0; at < BLOCKS; at++) drop(&all[at]);
    }
    (void)seen;
    MUST(in_use == 0 && runs == NULL);
}

static size_t resident(void) {
    char line[200];
    unsigned long kilobytes = 0;
    FILE *file = fopen("/proc/self/smaps_rollup", "r");
    MUST(file != NULL);
    while (kilobytes == 0 && fgets(line, sizeof line, file) != NULL)
        sscanf(line, "Rss: %lu kB", &kilobytes);
    fclose(file);
    return kilobytes * 1024;
}

/* Many frames: what is mapped for them, what the process then has more, and what it keeps. */
static void test_memory(bool is_plain) {
    static block all[MANY];
    const double bytes = (double)MANY * UNIT;
    memset(all, 1, sizeof all);
    size_t before = resident();
    for (uint32_t at = 0; at < MANY; at++) all[at] = take(UNIT, at);
    double part = (double)mapped / bytes, has = (double)(resident() - before) / bytes;
    for (uint32_t at = 0; at < MANY; at++) drop(&all[(at * 7919) % MANY]);
    double left = (double)(resident() - before) / bytes;
    printf("heap_test: %d blocks of %d bytes: %.4f of their bytes are mapped, %.4f resident; "
           "then %.4f\n",
        MANY, UNIT, part, has, left);
    MUST(part < 1.05 && mapped == 0 && in_use == 0 && runs == NULL);
    MUST(!is_plain || (has < 1.05 && left < 0.01));
}

static void test_by_one_thread(bool is_plain) {
    test_memory(is_plain);
    test_sizes();
    test_resizes();
    test_aligned_malloc();
    test_kept();
    test_holes();
    test_great_runs();
    test_refusals();
    test_no_run();
    test_behind();
}

/* heap_test plain: also what the process has, which a sanitizer and valgrind add to. */
int main(int count, char **words) {
    if (FEWER == 1) test_by_one_thread(count == 2 && strcmp(words[1], "plain") == 0);
    test_churn();
    puts("heap_test: as expected");
    return 0;
}

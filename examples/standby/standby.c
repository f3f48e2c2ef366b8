/*
 * The standby: hears the history of the primary's page references, and follows its database file. While it stands by, the hottest pages
 * come into its frames, and the pages that the primary writes come into its copy and into these frames. At SIGUSR1 it takes over: it takes
 * what is still missing of the primary's file, and its journal or its WAL, loads the pages that are hot since, opens the database, and
 * goes on with the workload. It prints what each part of the outage took, and after each transaction how many pages were asked for and
 * how many were read from the file.
 *
 * That the primary is dead is for the operator to know, who sends the signal: a lost connection does not say it. Reading the primary's file
 * stands for a mirror, or for a disk that both can reach.
 */
#define _GNU_SOURCE
#include <errno.h>
#include <fcntl.h>
#include <signal.h>
#include <stdio.h>
#include <stdlib.h>
#include <string.h>
#include <unistd.h>

#include "clock.h"
#include "gossip.h"
#include "options.h"
#include "orders.h"
#include "take.h"
#include "vfs.h"

/* From one pass over the primary's file to the next; how long it is followed, and warmed up, at a time; and how many messages are heard between
 * two slices of a pass. */
enum { FOLLOW_MILLISECONDS = 250, SLICE_MILLISECONDS = 50, HEARD = 64 };

static volatile sig_atomic_t takes_over, ends, is_called; /* the last: either of both */
static _Atomic uint64_t takeover_at;                      /* written before takes_over, and read after it */

static void on_signal(int number) {
    if (number != SIGUSR1) ends = 1;
    else if (!takes_over) {
        takeover_at = nanoseconds(CLOCK_MONOTONIC);
        takes_over = 1;
    }
    is_called = 1;
}

/* Microseconds since the signal. */
static uint64_t outage(void) { return (nanoseconds(CLOCK_MONOTONIC) - takeover_at) / 1000; }

/* Loads pages of the warm-up, for so long at most, and none once it is time for something else. A page that cannot be read or put into a frame
 * ends it: the standby is as warm as it is. */
static void warm_up(pool_file *file, uint64_t milliseconds, const volatile sig_atomic_t *is_time) {
    uint64_t end = milliseconds_now() + milliseconds;
    bool found = true;
    int status = WARM_OK;
    while (status == WARM_OK && found && !*is_time && milliseconds_now() < end) status = pool_file_step(file, &found);
    if (status != WARM_OK) printf("standby: the warm-up ended with status %d\n", status);
}

static void say_warmed(const pool_file *file, uint64_t before) {
    if (file->warmed == before) return;
    printf("standby: loaded ahead so far: %llu\n", (unsigned long long)file->warmed);
    fflush(stdout);
}

/* A pass over the primary's file, now and then, a slice of it at a time, and then one of the warm-up. After the last one before the signal,
 * nothing is left to load but what became hot since. */
static void follow(const options *o, pool_file *file, pass *p, uint64_t *follow_at) {
    bool is_over = false;
    if (milliseconds_now() < *follow_at) return;
    bool is_right = (p->room != NULL || take_begin(p, file, o->from)) && take_slice(p, file, SLICE_MILLISECONDS, &is_called, &is_over);
    if (!is_right) printf("standby: %s is not followed: %s\n", o->from, strerror(errno));
    if (is_right && !is_over) return;
    take_end(p);
    uint64_t before = file->warmed;
    warm_up(file, SLICE_MILLISECONDS, &is_called);
    say_warmed(file, before);
    *follow_at = milliseconds_now() + FOLLOW_MILLISECONDS;
}

/* What was last said. */
typedef struct said {
    bool is_connected, is_gone, is_late;
} said;

static void say_changes(const gossip *g, said *last) {
    bool is_late = g->statuses[WARM_LATE_HORIZON] + g->statuses[WARM_LATE_STAMP] > 0;
    if (g->is_connected != last->is_connected) printf("standby: broker %s\n", g->is_connected ? "there" : "gone");
    if (g->peer_is_gone != last->is_gone) printf("standby: primary's connection %s\n", g->peer_is_gone ? "gone" : "there");
    if (is_late && !last->is_late)
        printf("standby: messages are refused: they speak of a time more than %d s ahead of this clock\n", POOL_SKEW_SECONDS);
    *last = (said){g->is_connected, g->peer_is_gone, is_late};
    fflush(stdout);
}

/* A call takes one message. Within a pass none is waited for. */
static void hear(gossip *g, bool is_within_pass) {
    for (int at = 0; at < HEARD && is_within_pass; at++) gossip_poll(g, 0);
    if (!is_within_pass) gossip_poll(g, 50);
}

static void stand_by(const options *o, gossip *g, pool_file *file, said *last) {
    pass p = {0};
    uint64_t follow_at = 0;
    printf("standby: stands by\n");
    fflush(stdout);
    while (!is_called) {
        hear(g, p.room != NULL);
        say_changes(g, last);
        if (is_mode(o, "warm")) follow(o, file, &p, &follow_at);
    }
    take_end(&p);
    if (ends) exit(0);
}

/* Until the signal, and that of a primary whose file nobody has a lock on: where somebody has, nothing was taken, and it can be sent again. */
static source wait_for_source(const options *o, gossip *g, pool_file *file) {
    said last = {0};
    source primary;
    for (;;) {
        stand_by(o, g, file, &last);
        if (take_source(&primary, o->from)) return primary;
        printf("standby: the primary still has a lock on %s: it is not taken over\n", o->from);
        takes_over = is_called = 0;
        if (ends) exit(0);
    }
}

/* For the measure: what was written is read from its disk again. */
static void evict(const options *o, int fd) {
    if (o->evicts && posix_fadvise(fd, 0, 0, POSIX_FADV_DONTNEED) != 0) printf("standby: the system keeps the file in its cache\n");
}

/* The files, and then the pages that became hot since. Without a pool the files alone. */
static void take_over(const options *o, pool_file *file, source *primary) {
    uint64_t warmed = file != NULL ? file->warmed : 0;
    taken counts = take_files(file, primary, o->db);
    uint64_t had_files = outage();
    if (file == NULL) {
        printf("standby: outage: files %llu us\n", (unsigned long long)had_files);
        return;
    }
    evict(o, file->fd);
    uint64_t began = outage();
    warm_up(file, UINT32_MAX, &ends);
    printf("standby: warmed up %llu pages before the takeover\n", (unsigned long long)warmed);
    printf("standby: outage: files %llu us, of %llu pages %llu had changed, %llu of them in frames\n", (unsigned long long)had_files,
        (unsigned long long)counts.pages, (unsigned long long)counts.changed, (unsigned long long)counts.in_frames);
    printf("standby: outage: warm-up %llu us, %llu pages\n", (unsigned long long)(outage() - began), (unsigned long long)(file->warmed - warmed));
}

/* Pages that SQLite asked for, and those of them that were read from the file. Stock SQLite reads each that its cache misses. SQLite itself does
 * not count those that it is lent. */
static void count_pages(sqlite3 *db, pool_file *file, uint64_t *asked, uint64_t *device) {
    int hits = 0, misses = 0, high;
    sqlite3_db_status(db, SQLITE_DBSTATUS_CACHE_HIT, &hits, &high, 0);
    sqlite3_db_status(db, SQLITE_DBSTATUS_CACHE_MISS, &misses, &high, 0);
    *asked = (uint64_t)hits + (uint64_t)misses + (file != NULL ? file->lends : 0);
    *device = file != NULL ? file->device_reads : (uint64_t)misses;
}

static void go_on(const options *o, sqlite3 *db) {
    orders work;
    int64_t order;
    uint64_t asked = 0, device = 0, opened = outage(), first = 0;
    must_be_ok(orders_begin(&work, db, o->seed), db, "begin");
    work.keeps_answers = true;
    work.reads_only = o->reads_only;
    while (asked < o->reads) {
        must_be_ok(orders_next(&work, &order), db, "transaction");
        count_pages(db, pool_vfs_of(db), &asked, &device);
        if (first == 0) first = outage();
        printf("after %llu %llu\n", (unsigned long long)asked, (unsigned long long)device);
    }
    printf("standby: %s: %llu pages, %llu hits, %llu device reads\n", o->mode, (unsigned long long)asked, (unsigned long long)(asked - device),
        (unsigned long long)device);
    printf("standby: %s: opened after %llu us, first transaction after %llu us, all after %llu us\n", o->mode, (unsigned long long)opened,
        (unsigned long long)first, (unsigned long long)outage());
    printf("answers %016llx\n", (unsigned long long)work.answers);
    orders_end(&work);
}

static void listen_to_signals(void) {
    struct sigaction action = {.sa_handler = on_signal, .sa_flags = SA_RESTART};
    sigaction(SIGUSR1, &action, NULL);
    sigaction(SIGTERM, &action, NULL);
}

/* Hears the primary until it is time. The pool that hears is the one by which SQLite then opens the file. */
static void wait_warm(const options *o) {
    pool_file *file;
    gossip g;
    char *copy = take_copy_path(o->db);
    take_header(copy, o->from);
    must_be_ok(pool_vfs_prepare(copy, o->db, &file), NULL, copy);
    sqlite3_free(copy);
    const char *wrong = gossip_open(&g, file, o->host, (int)o->port, (unsigned)o->peer);
    if (wrong != NULL) {
        fprintf(stderr, "standby: %s\n", wrong);
        exit(1);
    }
    source primary = wait_for_source(o, &g, file);
    take_over(o, file, &primary);
    gossip_print(&g, stdout);
    gossip_close(&g);
}

/* Without a history nothing is to be waited for, and no signal. */
static void take_cold(const options *o) {
    source primary;
    on_signal(SIGUSR1);
    sqlite3_free(take_copy_path(o->db));
    if (!take_source(&primary, o->from)) {
        fprintf(stderr, "standby: the primary still has a lock on %s\n", o->from);
        exit(1);
    }
    take_over(o, NULL, &primary);
    int fd = open(o->db, O_RDONLY | O_CLOEXEC);
    take_must(fd >= 0, o->db);
    evict(o, fd);
    close(fd);
}

int main(int count, char **words) {
    options o = options_of(count, words);
    listen_to_signals();
    register_vfs(&o);
    if (o.from == NULL) {
        fprintf(stderr, "standby: --from FILE is missing, see --help\n");
        return 2;
    }
    if (is_mode(&o, "warm") || is_mode(&o, "late")) wait_warm(&o);
    else take_cold(&o);
    if (take_has_wal(o.db)) o.has_wal = true;
    sqlite3 *db = open_database(&o);
    go_on(&o, db);
    pool_file *file = pool_vfs_of(db);
    if (file != NULL) pool_file_print(file, stdout);
    return sqlite3_close(db) != SQLITE_OK;
}

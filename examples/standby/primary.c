/* The primary: enters orders, and publishes the history of its page references. It runs until SIGTERM or a kill, or until
 * it has made the transactions that it is to make. */
#define _GNU_SOURCE
#include <fcntl.h>
#include <inttypes.h>
#include <signal.h>
#include <stdio.h>
#include <stdlib.h>
#include <unistd.h>

#include "clock.h"
#include "gossip.h"
#include "options.h"
#include "orders.h"
#include "vfs.h"

static volatile sig_atomic_t ends;

static void on_signal(int number) {
    (void)number;
    ends = 1;
}

/* The file of the orders that are committed, each with its sync: what is there must be in the database for good. */
static int open_committed(const char *path) {
    if (path == NULL) return -1;
    int fd = open(path, O_WRONLY | O_APPEND | O_CREAT | O_CLOEXEC, 0666);
    if (fd < 0) {
        perror(path);
        exit(1);
    }
    return fd;
}

static void note_committed(int fd, int64_t order) {
    if (fd < 0 || order == 0) return;
    if (dprintf(fd, "%" PRId64 "\n", order) < 0 || fsync(fd) != 0) {
        perror("committed");
        exit(1);
    }
}

/* Gossip before the first transaction: a primary that was started again hears what it had published itself, and its peer's news. Without a
 * broker that takes a second. */
static void hear_first(gossip *g) {
    for (int at = 0; at < 20 && !g->is_connected; at++) gossip_poll(g, 50);
    for (int at = 0; at < 5; at++) gossip_poll(g, 10);
}

typedef struct progress {
    uint64_t done, published;         /* transactions, and page reads at the last gossip */
    uint64_t longest, longest_gossip; /* milliseconds: of a transaction and the gossip after it, and of that gossip alone */
    bool has_broker;                  /* as was last said */
} progress;

static uint64_t greater(uint64_t one, uint64_t other) { return one > other ? one : other; }

static void say_broker(const gossip *g, progress *p) {
    if (g->is_connected != p->has_broker) fprintf(stderr, "primary: broker %s\n", g->is_connected ? "there" : "gone");
    p->has_broker = g->is_connected;
}

static void gossip_between(const options *o, gossip *g, progress *p) {
    uint64_t began = milliseconds_now();
    gossip_poll(g, 0);
    if (g->file->page_reads - p->published >= o->every) {
        p->published = g->file->page_reads;
        gossip_publish(g);
    }
    say_broker(g, p);
    p->longest_gossip = greater(p->longest_gossip, milliseconds_now() - began);
}

static void work_on(const options *o, orders *work, gossip *g, int committed, progress *p) {
    while (!ends && (o->transactions == 0 || p->done < o->transactions)) {
        uint64_t began = milliseconds_now();
        int64_t order;
        must_be_ok(orders_next(work, &order), work->db, "transaction");
        note_committed(committed, order);
        p->done++;
        if (g != NULL) gossip_between(o, g, p);
        p->longest = greater(p->longest, milliseconds_now() - began);
    }
}

/* The last gossip, and what was counted. */
static void end_gossip(gossip *g, const progress *p) {
    gossip_publish(g);
    gossip_print(g, stdout);
    pool_file_print(g->file, stdout);
    printf("primary: %" PRIu64 " transactions, the longest %" PRIu64 " ms, the longest gossip after one %" PRIu64 " ms\n", p->done, p->longest,
        p->longest_gossip);
    gossip_close(g);
}

static void begin_gossip(gossip *g, const options *o, pool_file *file) {
    const char *wrong = gossip_open(g, file, o->host, (int)o->port, (unsigned)o->peer);
    if (wrong != NULL) {
        fprintf(stderr, "primary: %s\n", wrong);
        exit(1);
    }
    hear_first(g);
}

int main(int count, char **words) {
    options o = options_of(count, words);
    orders work;
    gossip g;
    progress p = {0};
    struct sigaction action = {.sa_handler = on_signal, .sa_flags = SA_RESTART};
    sigaction(SIGTERM, &action, NULL);
    register_vfs(&o);
    sqlite3 *db = open_database(&o);
    int committed = open_committed(o.committed);
    must_be_ok(orders_create(db), db, "create");
    must_be_ok(orders_begin(&work, db, o.seed), db, "begin");
    work.reads_only = o.reads_only;
    work.keeps_answers = o.answers;
    pool_file *file = pool_vfs_of(db);
    bool is_heard = o.port != 0 && file != NULL;
    if (is_heard) begin_gossip(&g, &o, file);
    work_on(&o, &work, is_heard ? &g : NULL, committed, &p);
    if (o.dies) kill(getpid(), SIGKILL);
    if (o.answers) printf("answers %016" PRIx64 "\n", work.answers);
    orders_end(&work);
    if (is_heard) end_gossip(&g, &p);
    return sqlite3_close(db) != SQLITE_OK;
}

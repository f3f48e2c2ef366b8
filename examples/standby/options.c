/* The words of the command line, and opening by them. */
#include "options.h"

#include <errno.h>
#include <stdio.h>
#include <stdlib.h>
#include <string.h>

#include "vfs.h"

/* A word, and what its value may be: one of some words, a number within bounds, any text, or nothing. */
typedef struct option {
    const char *name, *help;
    const char **text, *choices; /* each choice ends with a space */
    uint64_t *number, least, most;
    bool *is_set;
} option;

static bool is_choice(const char *choices, const char *value) {
    size_t length = strlen(value);
    for (const char *at = choices; *at != 0; at = strchr(at, ' ') + 1)
        if (strcspn(at, " ") == length && strncmp(at, value, length) == 0) return true;
    return false;
}

/* A number is digits alone: strtoull would also take a sign, spaces and what is no number. */
static bool take_number(const option *known, const char *value) {
    char *end;
    if (value[0] < '0' || value[0] > '9') return false;
    errno = 0;
    uint64_t number = strtoull(value, &end, 10);
    if (errno != 0 || *end != 0 || number < known->least || number > known->most) return false;
    *known->number = number;
    return true;
}

static bool take_value(const option *known, const char *value) {
    if (known->number != NULL) return take_number(known, value);
    if (value[0] == 0 || (known->choices != NULL && !is_choice(known->choices, value))) return false;
    *known->text = value;
    return true;
}

static void refuse(const char *program, const option *known, const char *value) {
    fprintf(stderr, "%s: %s %s: wanted is ", program, known->name, value != NULL ? value : "without a value");
    if (known->number != NULL) fprintf(stderr, "a number from %llu to %llu\n", (unsigned long long)known->least, (unsigned long long)known->most);
    else fprintf(stderr, "%s%s\n", known->choices != NULL ? "one of " : "a text", known->choices != NULL ? known->choices : "");
    exit(2);
}

static void print_help(const char *program, const option *known, size_t count) {
    printf("usage: %s --db FILE [WORD]...\n", program);
    for (size_t i = 0; i < count; i++) {
        printf("  %-14s %-6s %s", known[i].name, known[i].is_set != NULL ? "" : known[i].number != NULL ? "NUMBER" : "TEXT", known[i].help);
        if (known[i].choices != NULL) printf(": %s", known[i].choices);
        if (known[i].number != NULL)
            printf(" (%llu to %llu, else %llu)", (unsigned long long)known[i].least, (unsigned long long)known[i].most,
                (unsigned long long)*known[i].number);
        printf("\n");
    }
}

/* Takes the word at this place, and its value where it has one. Gives the place of the last of them. */
static int take_word(const option *known, size_t count, char **words, int at) {
    for (size_t i = 0; i < count; i++) {
        if (strcmp(words[at], known[i].name) != 0) continue;
        if (known[i].is_set == NULL) {
            const char *value = words[at + 1];
            if (value == NULL || !take_value(&known[i], value)) refuse(words[0], &known[i], value);
            return at + 1;
        }
        *known[i].is_set = true;
        return at;
    }
    fprintf(stderr, "%s: unknown word %s, see --help\n", words[0], words[at]);
    exit(2);
}

options options_of(int count, char **words) {
    options o = {.mode = "warm", .synchronous = "FULL", .host = "127.0.0.1", .seed = 1, .frames = 400, .reads = 2000, .every = 1000,
        .replica = 1, .peer = 2, .checkpoint = 1000};
    const option known[] = {
        {.name = "--db", .text = &o.db, .help = "the database file"},
        {.name = "--from", .text = &o.from, .help = "standby: the primary's database file"},
        {.name = "--mode", .text = &o.mode, .choices = "warm late cold stock ", .help = "warm up, that late, not, or by SQLite's own VFS"},
        {.name = "--frames", .number = &o.frames, .least = 1, .most = 65536, .help = "of the pool, or of SQLite's own cache"},
        {.name = "--wal", .is_set = &o.has_wal, .help = "journal_mode=WAL, in which a connection over the pool is alone"},
        {.name = "--checkpoint", .number = &o.checkpoint, .least = 1, .most = 1000000, .help = "pages of a WAL that are checkpointed"},
        {.name = "--synchronous", .text = &o.synchronous, .choices = "FULL NORMAL OFF ", .help = "what SQLite syncs"},
        {.name = "--host", .text = &o.host, .help = "the broker's numeric address"},
        {.name = "--port", .number = &o.port, .most = 65535, .help = "the broker's port; 0: no gossip"},
        {.name = "--replica", .number = &o.replica, .least = 1, .most = 64, .help = "who this is"},
        {.name = "--peer", .number = &o.peer, .least = 1, .most = 64, .help = "who is heard"},
        {.name = "--every", .number = &o.every, .least = 1, .most = UINT32_MAX, .help = "page reads from gossip to gossip"},
        {.name = "--committed", .text = &o.committed, .help = "the file of the numbers of committed orders"},
        {.name = "--transactions", .number = &o.transactions, .most = UINT32_MAX, .help = "how many; 0: until it is ended"},
        {.name = "--reads", .number = &o.reads, .least = 1, .most = UINT32_MAX, .help = "standby: pages that it asks for after a takeover"},
        {.name = "--seed", .number = &o.seed, .most = UINT64_MAX, .help = "of the workload"},
        {.name = "--reads-only", .is_set = &o.reads_only, .help = "no transaction writes"},
        {.name = "--answers", .is_set = &o.answers, .help = "prints a hash of all rows that were answered"},
        {.name = "--dies", .is_set = &o.dies, .help = "primary: ends by kill -9"},
        {.name = "--evicts", .is_set = &o.evicts, .help = "standby: the system drops the file from its cache at the takeover"},
    };
    size_t known_count = sizeof known / sizeof *known;
    for (int at = 1; at < count; at++) {
        if (strcmp(words[at], "--help") == 0) {
            print_help(words[0], known, known_count);
            exit(0);
        }
        at = take_word(known, known_count, words, at);
    }
    if (o.db == NULL) {
        fprintf(stderr, "%s: --db FILE is missing, see --help\n", words[0]);
        exit(2);
    }
    return o;
}

bool is_mode(const options *o, const char *mode) { return strcmp(o->mode, mode) == 0; }

void must_be_ok(int result, sqlite3 *db, const char *what) {
    if (result == SQLITE_OK) return;
    fprintf(stderr, "%s: %s\n", what, db != NULL ? sqlite3_errmsg(db) : sqlite3_errstr(result));
    exit(1);
}

void register_vfs(const options *o) {
    if (!is_mode(o, "stock")) must_be_ok(pool_vfs_configure(), NULL, "configure");
    must_be_ok(pool_vfs_register((uint16_t)o->replica, (size_t)o->frames), NULL, "register");
}

static int note_mode(void *is_wal, int count, char **values, char **names) {
    (void)names;
    *(bool *)is_wal = count == 1 && values[0] != NULL && strcmp(values[0], "wal") == 0;
    return 0;
}

/* SQLite answers the mode that it has, and no error where that is not WAL. */
static void set_wal(sqlite3 *db) {
    bool is_wal = false;
    must_be_ok(sqlite3_exec(db, "PRAGMA journal_mode = WAL", note_mode, &is_wal, NULL), db, "journal_mode");
    if (is_wal) return;
    fprintf(stderr, "journal_mode: this connection has no WAL\n");
    exit(1);
}

static void set(sqlite3 *db, const char *pragma, const char *value) {
    char sql[160];
    snprintf(sql, sizeof sql, "PRAGMA %s = %s", pragma, value);
    must_be_ok(sqlite3_exec(db, sql, NULL, NULL, NULL), db, sql);
}

static void set_number(sqlite3 *db, const char *pragma, uint64_t value) {
    char text[24];
    snprintf(text, sizeof text, "%llu", (unsigned long long)value);
    set(db, pragma, text);
}

/* The default VFS is not called by its name: where the machine has another default, that one is compared. */
sqlite3 *open_database(const options *o) {
    sqlite3 *db = NULL;
    bool is_stock = is_mode(o, "stock");
    int flags = SQLITE_OPEN_READWRITE | SQLITE_OPEN_CREATE;
    int result = is_stock ? sqlite3_open_v2(o->db, &db, flags, NULL) : pool_vfs_open(o->db, flags, o->has_wal, &db);
    must_be_ok(result, db, o->db);
    set(db, "synchronous", o->synchronous);
    if (is_stock) set_number(db, "cache_size", o->frames);
    if (o->has_wal) set_wal(db);
    if (o->has_wal) set_number(db, "wal_autocheckpoint", o->checkpoint);
    return db;
}

/* The words of the command line of primary, standby and audit: --NAME VALUE, in any order. --help prints them. */
#ifndef OPTIONS_H
#define OPTIONS_H

#include <sqlite3.h>
#include <stdbool.h>
#include <stdint.h>

typedef struct options {
    const char *db;          /* the database file */
    const char *from;        /* standby: the primary's database file */
    const char *committed;   /* the file of the numbers of committed orders */
    const char *mode;        /* warm, late, cold or stock: see is_mode */
    const char *synchronous; /* FULL, NORMAL or OFF */
    const char *host;        /* of the broker: a numeric address */
    uint64_t port;           /* of the broker; 0: no gossip */
    uint64_t seed, frames, transactions, reads, every, replica, peer;
    uint64_t checkpoint;     /* a WAL of this many pages is checkpointed */
    bool dies, reads_only, answers, has_wal, evicts;
} options;

/* Ends the program with 2 where a word is unknown or a value none that it can have, and with 0 after --help. */
options options_of(int count, char **words);

/* warm and late: the VFS "warm" with a warm-up, which in a standby is made as it stands by, or not before the takeover. cold: that VFS
 * without a warm-up. stock: the default VFS. */
bool is_mode(const options *o, const char *mode);

/* Sets the VFS "warm" up, before anything else of SQLite. Ends the program where that fails. */
void register_vfs(const options *o);

/* Opens the database by the VFS of the mode, with as many pages of cache as frames either way. Ends the program where it cannot. */
sqlite3 *open_database(const options *o);

/* Ends the program with the name of what failed where the result is none of success. */
void must_be_ok(int result, sqlite3 *db, const char *what);

#endif

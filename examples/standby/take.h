/* Taking a primary's files over: DB.copy follows its database, and becomes DB, with its journal or its WAL, at the takeover. */
#ifndef TAKE_H
#define TAKE_H

#include <signal.h>
#include <stdbool.h>

#include "pool_file.h"

/* Of one pass over the primary's database. */
typedef struct taken {
    uint64_t pages, changed; /* that it has, and that the copy did not have so */
    uint64_t in_frames;      /* of these: in a frame */
} taken;

/* A pass over the primary's database through the pool of the copy: each page that differs is written into its frame, or where it is in none
 * into the copy. While the primary runs the copy is of no moment of it, and is read by nobody as a database. All zeros is no pass. */
typedef struct pass {
    uint8_t *room; /* for two pages; NULL where there is no pass */
    int source;
    uint64_t size, next; /* of the primary's file when the pass began, and the next page */
    taken counts;
} pass;

/* The primary's database at the takeover. SQLite's journal and WAL lie beside the path that has no symbolic links. With the descriptor goes a
 * lock, as with any other one of this file in this process. */
typedef struct source {
    char *path;
    int fd;
} source;

/* The path of the copy, for sqlite3_free. The copy is made empty where there is none, and is this program's alone until it ends. Ends the
 * program where DB is there: it was taken over before. */
char *take_copy_path(const char *db);

/* Gives a copy that is empty the header of the primary's file, where that is there: it says how large the pages of the pool are to be. */
void take_header(const char *copy_path, const char *from);

/* Begins a pass. False where the primary's file cannot be read, or is the copy itself. */
bool take_begin(pass *p, const pool_file *copy, const char *from);

/* Goes on with a pass for so long at most, and no longer than until it is time for something else. Writes whether it is over. False where
 * the primary's file could not be read, or the copy not be written. */
bool take_slice(pass *p, pool_file *copy, uint64_t milliseconds, const volatile sig_atomic_t *is_time, bool *is_over);

/* Ends a pass, over or not. */
void take_end(pass *p);

/* Opens the primary's database for the takeover, and locks it as SQLite does: until take_files is done nobody else reads or writes it by SQLite.
 * False where another process has a lock on it for a second: then the primary is not dead, or something else uses its file. Where the
 * system has no locks for the file, it is said, and the file taken without. Ends the program where it cannot be opened. */
bool take_source(source *primary, const char *from);

/* The takeover, of a primary that has ended: copies what is still missing, then the journal and the WAL, and puts all in place, the
 * database last. A kill at any moment leaves no DB, and then it can be tried again, or DB with all that belongs to it. A pool that has
 * the copy goes on with DB; NULL where there is none. Closes the primary's file. Ends the program where it cannot. */
taken take_files(pool_file *copy, source *primary, const char *db);

/* Whether the database needs a WAL. To be asked before SQLite opens it: a lock on it would be dropped. */
bool take_has_wal(const char *db);

/* Ends the program where it is not so, with what the system says. */
void take_must(bool is_so, const char *what);

#endif

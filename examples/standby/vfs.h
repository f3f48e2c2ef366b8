/* An SQLite VFS that reads and writes the main database through a buffer pool. */
#ifndef VFS_H
#define VFS_H

#include <sqlite3.h>

#include "pool_file.h"

#define POOL_VFS "warm"

/* Called before anything else of SQLite, where a program uses the VFS "warm" alone: the pages of up to 4,096 bytes that SQLite holds at a time
 * lie in memory that is set aside for them. SQLite keeps no page here that it does not use, so each page that it asks for is otherwise
 * an allocation. Answers an SQLite result. */
int pool_vfs_configure(void);

/* Registers the VFS "warm", which is not the default one. Each main database that is opened by it has a pool of its own, of this many frames,
 * and is this replica. Called again it changes these for databases that are opened later. One thread calls it, while none opens a database.
 * Answers an SQLite result. */
int pool_vfs_register(uint16_t replica, size_t frames);

/* Makes the pool of a database file before SQLite opens it: a standby's pool hears gossip and warms up so. The file is at one path now, and
 * is renamed to the other one before the next sqlite3_open of that by the VFS "warm", which takes the pool over, and closes it in the end;
 * where another file is there by then it is refused. The pool is of the calling thread, and so is the connection. Answers an SQLite
 * result: SQLITE_MISUSE while another pool waits for its file. */
int pool_vfs_prepare(const char *now_at, const char *path, pool_file **pool);

/* The pool of a connection's main database, or NULL where it was opened by another VFS. */
pool_file *pool_vfs_of(sqlite3 *db);

/* Opens a database by the VFS "warm" with the settings that it wants: the least cache of SQLite's own, as the pool has the pages; no spilling,
 * so that pages reach the pool once a transaction, at its commit; and a mmap_size that is not 0, so that pages are read where they lie. A
 * connection that is alone has locking_mode=EXCLUSIVE: no other one reads or writes the file until it is closed, and WAL can be used.
 * Answers an SQLite result; db is to be closed in either case. */
int pool_vfs_open(const char *path, int flags, bool is_alone, sqlite3 **db);

#endif

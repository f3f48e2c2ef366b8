/* Runs SQL on a database by the VFS "warm", and prints each row at once, so that it is there after a kill. What the SQL attaches has a pool of as
 * many frames. sql DB FRAMES SQL */
#include <stdio.h>
#include <stdlib.h>

#include "options.h"
#include "vfs.h"

static int print_row(void *unused, int count, char **values, char **names) {
    (void)unused, (void)names;
    for (int at = 0; at < count; at++) printf("%s%c", values[at] != NULL ? values[at] : "NULL", at + 1 < count ? '|' : '\n');
    return fflush(stdout);
}

int main(int count, char **words) {
    sqlite3 *db;
    if (count != 4) {
        fprintf(stderr, "usage: sql DB FRAMES SQL\n");
        return 2;
    }
    must_be_ok(pool_vfs_register(1, strtoul(words[2], NULL, 10)), NULL, "register");
    must_be_ok(pool_vfs_open(words[1], SQLITE_OPEN_READWRITE, false, &db), db, words[1]);
    must_be_ok(sqlite3_exec(db, words[3], print_row, NULL, NULL), db, words[3]);
    return sqlite3_close(db) != SQLITE_OK;
}

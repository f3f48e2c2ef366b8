/*
 * Looks whether a database of the workload is whole: integrity_check, that each order number of a file of committed ones is there, that each
 * order has all its lines and their total, and that what customers and stock say of their orders agrees with these. Prints a digest of
 * every row, which is the same by whichever VFS the file is read. audit --db FILE [--mode MODE] [--committed FILE]
 */
#include <inttypes.h>
#include <stdio.h>
#include <stdlib.h>
#include <string.h>

#include "fnv.h"
#include "options.h"

static void refuse(const char *what) {
    fprintf(stderr, "audit: %s\n", what);
    exit(1);
}

/* The first column of the only row, as text. */
static bool says(sqlite3 *db, const char *sql, const char *wanted) {
    sqlite3_stmt *statement;
    must_be_ok(sqlite3_prepare_v2(db, sql, -1, &statement, NULL), db, sql);
    if (sqlite3_step(statement) != SQLITE_ROW) must_be_ok(sqlite3_finalize(statement), db, sql);
    const char *text = (const char *)sqlite3_column_text(statement, 0);
    bool is_so = text != NULL && strcmp(text, wanted) == 0;
    if (!is_so) fprintf(stderr, "audit: %s: %s\n", sql, text != NULL ? text : "NULL");
    must_be_ok(sqlite3_finalize(statement), db, sql);
    return is_so;
}

static const char *const none_of[] = {
    "SELECT count(*) FROM orders o WHERE lines IS NULL OR lines <> (SELECT count(*) FROM order_lines WHERE order_no = o.id)",
    "SELECT count(*) FROM orders o WHERE total <> (SELECT sum(amount) FROM order_lines WHERE order_no = o.id)",
    "SELECT count(*) FROM order_lines l WHERE NOT EXISTS (SELECT 1 FROM orders WHERE id = l.order_no)",
    ("SELECT count(*) FROM customers c LEFT JOIN (SELECT customer, sum(total) t, count(*) n FROM orders GROUP BY 1) ON customer = c.id"
     " WHERE balance <> -ifnull(t, 0) OR orders <> ifnull(n, 0)"),
    "SELECT count(*) FROM stock s LEFT JOIN (SELECT item, sum(quantity) q FROM order_lines GROUP BY 1) ON item = s.id WHERE sold <> ifnull(q, 0)",
};

static uint64_t committed_orders(sqlite3 *db, const char *path) {
    sqlite3_stmt *statement;
    int64_t order;
    uint64_t count = 0;
    FILE *file = path != NULL ? fopen(path, "r") : NULL;
    if (file == NULL) return 0;
    must_be_ok(sqlite3_prepare_v2(db, "SELECT 1 FROM orders WHERE id = ?1", -1, &statement, NULL), db, "prepare");
    while (fscanf(file, "%" SCNd64, &order) == 1) {
        sqlite3_bind_int64(statement, 1, order);
        if (sqlite3_step(statement) != SQLITE_ROW) {
            fprintf(stderr, "audit: order %" PRId64 " was committed, and is not there\n", order);
            exit(1);
        }
        sqlite3_reset(statement);
        count++;
    }
    sqlite3_finalize(statement);
    fclose(file);
    return count;
}

static uint64_t digest_of(sqlite3 *db) {
    static const char *const rows[] = {"SELECT * FROM customers ORDER BY id", "SELECT * FROM stock ORDER BY id DESC",
        "SELECT * FROM orders ORDER BY customer, id", "SELECT * FROM order_lines ORDER BY order_no, line",
        "SELECT item, sum(amount) FROM order_lines GROUP BY item ORDER BY 2 DESC, 1"};
    uint64_t hash = FNV_START;
    for (size_t at = 0; at < sizeof rows / sizeof *rows; at++) {
        sqlite3_stmt *statement;
        must_be_ok(sqlite3_prepare_v2(db, rows[at], -1, &statement, NULL), db, rows[at]);
        while (sqlite3_step(statement) == SQLITE_ROW)
            for (int column = 0; column < sqlite3_column_count(statement); column++) {
                const void *text = sqlite3_column_text(statement, column);
                int length = sqlite3_column_bytes(statement, column);
                hash = fnv_add(fnv_add(hash, &length, sizeof length), text, (size_t)length);
            }
        must_be_ok(sqlite3_finalize(statement), db, rows[at]);
    }
    return hash;
}

int main(int count, char **words) {
    options o = options_of(count, words);
    register_vfs(&o);
    sqlite3 *db = open_database(&o);
    if (!says(db, "PRAGMA integrity_check", "ok")) refuse("the database is damaged");
    for (size_t at = 0; at < sizeof none_of / sizeof *none_of; at++)
        if (!says(db, none_of[at], "0")) refuse("rows do not agree");
    uint64_t committed = committed_orders(db, o.committed);
    uint64_t digest = digest_of(db);
    printf("%" PRIu64 " committed orders there, digest %016" PRIx64 "\n", committed, digest);
    return sqlite3_close(db) != SQLITE_OK;
}

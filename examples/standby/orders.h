/* An order-entry workload, the same for the same seed: customers, stock, orders and their lines. */
#ifndef ORDERS_H
#define ORDERS_H

#include <sqlite3.h>
#include <stdbool.h>
#include <stdint.h>

enum { ORDER_CUSTOMERS = 3000, ORDER_ITEMS = 8000, ORDER_STATEMENTS = 13 };

typedef struct orders {
    sqlite3 *db;
    uint64_t random;
    sqlite3_stmt *statements[ORDER_STATEMENTS];
    bool reads_only;    /* no transaction writes */
    bool keeps_answers; /* each row that a statement answers goes into the hash, and how it ended */
    uint64_t answers;
} orders;

/* Makes the tables, and fills customers and stock, where the database is empty. Answers an SQLite result. */
int orders_create(sqlite3 *db);

/* Begins a workload. Answers an SQLite result; orders_end is called in either case. */
int orders_begin(orders *work, sqlite3 *db, uint64_t seed);

/* One transaction. Writes the number of the order that it committed, or 0 where it only read. Answers an SQLite result. */
int orders_next(orders *work, int64_t *order);

void orders_end(orders *work);

#endif

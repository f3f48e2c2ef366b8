/* The order-entry workload. Of 20 transactions 11 enter an order, 6 ask for a customer's last order, 2 for stock that runs low among recent
 * orders, and 1 goes over a stretch of the stock. Few customers and items are wanted often: keys are drawn with a cubic skew. */
#include "orders.h"

#include <stddef.h>

#include "fnv.h"

enum { BEGIN, COMMIT, ROLLBACK, NEW_ORDER, CUSTOMER, ITEM, SELL, ADD_LINE, SET_TOTAL, CHARGE, LAST_ORDER, LOW_STOCK, STRETCH };

static const char *const texts[ORDER_STATEMENTS] = {
    [BEGIN] = "BEGIN",
    [COMMIT] = "COMMIT",
    [ROLLBACK] = "ROLLBACK",
    [NEW_ORDER] = "INSERT INTO orders(customer, total) VALUES (?1, 0)",
    [CUSTOMER] = "SELECT balance FROM customers WHERE id = ?1",
    [ITEM] = "SELECT price FROM stock WHERE id = ?1",
    [SELL] = "UPDATE stock SET quantity = CASE WHEN quantity > ?2 + 9 THEN quantity - ?2 ELSE quantity + 91 - ?2 END, sold = sold + ?2 WHERE id = ?1",
    [ADD_LINE] = "INSERT INTO order_lines VALUES (?1, ?2, ?3, ?4, ?5)",
    [SET_TOTAL] = "UPDATE orders SET total = ?2, lines = ?3 WHERE id = ?1",
    [CHARGE] = "UPDATE customers SET balance = balance - ?2, orders = orders + 1 WHERE id = ?1",
    [LAST_ORDER] = "SELECT o.id, l.item, l.quantity, s.name FROM order_lines l JOIN orders o ON o.id = l.order_no JOIN stock s ON s.id = l.item"
                   " WHERE o.id = (SELECT max(id) FROM orders WHERE customer = ?1)",
    [LOW_STOCK] = "SELECT count(DISTINCT s.id) FROM order_lines l JOIN stock s ON s.id = l.item"
                  " WHERE l.order_no > (SELECT max(id) FROM orders) - 10 AND s.quantity < 15",
    [STRETCH] = "SELECT sum(quantity * price) FROM stock WHERE id BETWEEN ?1 AND ?1 + 300",
};

static const char schema[] =
    "CREATE TABLE customers(id INTEGER PRIMARY KEY, name TEXT, balance INTEGER, orders INTEGER, data TEXT);"
    "CREATE TABLE stock(id INTEGER PRIMARY KEY, name TEXT, price INTEGER, quantity INTEGER, sold INTEGER, data TEXT);"
    "CREATE TABLE orders(id INTEGER PRIMARY KEY AUTOINCREMENT, customer INTEGER, total INTEGER, lines INTEGER);"
    "CREATE INDEX orders_of ON orders(customer, id);"
    "CREATE TABLE order_lines(order_no INTEGER, line INTEGER, item INTEGER, quantity INTEGER, amount INTEGER, PRIMARY KEY(order_no, line))"
    " WITHOUT ROWID;"
    "WITH RECURSIVE n(i) AS (SELECT 1 UNION ALL SELECT i + 1 FROM n LIMIT %d)"
    " INSERT INTO customers SELECT i, 'customer ' || i, 0, 0, hex(zeroblob(180)) FROM n;"
    "WITH RECURSIVE n(i) AS (SELECT 1 UNION ALL SELECT i + 1 FROM n LIMIT %d)"
    " INSERT INTO stock SELECT i, 'item ' || i, 100 + i * 7919 %% 900, 10 + i * 31 %% 90, 0, hex(zeroblob(160)) FROM n;";

int orders_create(sqlite3 *db) {
    int result = sqlite3_table_column_metadata(db, NULL, "order_lines", NULL, NULL, NULL, NULL, NULL, NULL);
    if (result != SQLITE_ERROR) return result;
    char *sql = sqlite3_mprintf(schema, ORDER_CUSTOMERS, ORDER_ITEMS);
    if (sql == NULL) return SQLITE_NOMEM;
    result = sqlite3_exec(db, "BEGIN", NULL, NULL, NULL);
    if (result == SQLITE_OK) result = sqlite3_exec(db, sql, NULL, NULL, NULL);
    if (result == SQLITE_OK) result = sqlite3_exec(db, "COMMIT", NULL, NULL, NULL);
    sqlite3_free(sql);
    return result;
}

int orders_begin(orders *work, sqlite3 *db, uint64_t seed) {
    *work = (orders){.db = db, .random = seed, .answers = FNV_START};
    for (int at = 0; at < ORDER_STATEMENTS; at++) {
        int result = sqlite3_prepare_v3(db, texts[at], -1, SQLITE_PREPARE_PERSISTENT, &work->statements[at], NULL);
        if (result != SQLITE_OK) return result;
    }
    return SQLITE_OK;
}

void orders_end(orders *work) {
    for (int at = 0; at < ORDER_STATEMENTS; at++) sqlite3_finalize(work->statements[at]);
}

static uint32_t draw(orders *work, uint32_t below) {
    work->random = work->random * 6364136223846793005u + 1442695040888963407u;
    return (uint32_t)((work->random >> 32) * below >> 32);
}

/* A key from 1 to count. Half of the draws are among an eighth of the keys, which stand side by side, as a season's items do. */
static int64_t draw_key(orders *work, uint32_t count) {
    double part = draw(work, 1u << 20) / (double)(1u << 20);
    return 1 + ((uint32_t)(part * part * part * count) + count / 3) % count;
}

/* Each column of a row, by its type and its bytes. */
static void add_answer(orders *work, sqlite3_stmt *statement) {
    for (int column = 0; column < sqlite3_column_count(statement); column++) {
        int type = sqlite3_column_type(statement, column);
        const void *bytes = sqlite3_column_text(statement, column);
        work->answers = fnv_add(fnv_add(work->answers, &type, sizeof type), bytes, (size_t)sqlite3_column_bytes(statement, column));
    }
}

/* Runs a statement with these numbers, and writes the first column of its last row, where wanted. */
static int step(orders *work, int which, int numbers, const int64_t *values, int64_t *first) {
    sqlite3_stmt *statement = work->statements[which];
    int result = SQLITE_OK;
    for (int at = 0; at < numbers && result == SQLITE_OK; at++) result = sqlite3_bind_int64(statement, at + 1, values[at]);
    if (result != SQLITE_OK) return result;
    while ((result = sqlite3_step(statement)) == SQLITE_ROW) {
        if (first != NULL) *first = sqlite3_column_int64(statement, 0);
        if (work->keeps_answers) add_answer(work, statement);
    }
    if (work->keeps_answers) work->answers = fnv_add(work->answers, &result, sizeof result);
    int reset = sqlite3_reset(statement);
    return result == SQLITE_DONE ? reset : result;
}

#define STEP(work, which, first, ...) \
    step(work, which, (int)(sizeof((int64_t[]){__VA_ARGS__}) / sizeof(int64_t)), (int64_t[]){__VA_ARGS__}, first)

static int add_line(orders *work, int64_t order, int64_t line, int64_t *total) {
    int64_t item = draw_key(work, ORDER_ITEMS), quantity = 1 + draw(work, 9), price = 0;
    int result = STEP(work, ITEM, &price, item);
    if (result == SQLITE_OK) result = STEP(work, SELL, NULL, item, quantity);
    if (result == SQLITE_OK) result = STEP(work, ADD_LINE, NULL, order, line, item, quantity, price * quantity);
    *total += price * quantity;
    return result;
}

static int enter_order(orders *work, int64_t *order) {
    int64_t customer = draw_key(work, ORDER_CUSTOMERS), lines = 5 + draw(work, 11), total = 0, balance = 0;
    int result = STEP(work, CUSTOMER, &balance, customer);
    if (result == SQLITE_OK) result = STEP(work, NEW_ORDER, NULL, customer);
    *order = sqlite3_last_insert_rowid(work->db);
    for (int64_t line = 1; line <= lines && result == SQLITE_OK; line++) result = add_line(work, *order, line, &total);
    if (result == SQLITE_OK) result = STEP(work, SET_TOTAL, NULL, *order, total, lines);
    if (result == SQLITE_OK) result = STEP(work, CHARGE, NULL, customer, total);
    return result;
}

static int any_of(orders *work, int64_t *order) {
    uint32_t kind = draw(work, 20);
    *order = 0;
    if (kind < 11 && !work->reads_only) return enter_order(work, order);
    if (kind < 17) return STEP(work, LAST_ORDER, NULL, draw_key(work, ORDER_CUSTOMERS));
    if (kind < 19) return step(work, LOW_STOCK, 0, NULL, NULL);
    return STEP(work, STRETCH, NULL, 1 + (int64_t)draw(work, ORDER_ITEMS - 300));
}

int orders_next(orders *work, int64_t *order) {
    int result = step(work, BEGIN, 0, NULL, NULL);
    if (result != SQLITE_OK) return result;
    result = any_of(work, order);
    if (result == SQLITE_OK) result = step(work, COMMIT, 0, NULL, NULL);
    if (result != SQLITE_OK) step(work, ROLLBACK, 0, NULL, NULL);
    return result;
}

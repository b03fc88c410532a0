/* Makes a database of one empty table with SQLite's library, or times rows inserted into that table in one transaction, which is taken back then.
   Words: make PATH (tells the root of the table); time PATH ROWS in_order|at_random. A line tells the order, its nanoseconds, how many rows went in, and how many
   pages the database had then. */
#include <sqlite3.h>
#include <stdint.h>
#include <stdio.h>
#include <stdlib.h>
#include <string.h>
#include <time.h>

static sqlite3 *db;

static void fail(void) {
    fprintf(stderr, "%s\n", sqlite3_errmsg(db));
    exit(1);
}

static void run(const char *text) {
    if (sqlite3_exec(db, text, NULL, NULL, NULL) != SQLITE_OK) fail();
}

static sqlite3_stmt *prepared(const char *text) {
    sqlite3_stmt *statement;
    if (sqlite3_prepare_v2(db, text, -1, &statement, NULL) != SQLITE_OK) fail();
    return statement;
}

/* The number of a query's one row. */
static int number(const char *text) {
    sqlite3_stmt *query = prepared(text);
    if (sqlite3_step(query) != SQLITE_ROW) fail();
    int number = sqlite3_column_int(query, 0);
    sqlite3_finalize(query);
    return number;
}

static uint64_t now(void) {
    struct timespec time;
    clock_gettime(CLOCK_MONOTONIC, &time);
    return (uint64_t)time.tv_sec * 1000000000u + (uint64_t)time.tv_nsec;
}

static void make(void) {
    run("PRAGMA page_size = 4096");
    run("CREATE TABLE t(a INTEGER PRIMARY KEY, b INTEGER, c TEXT)");
    printf("%d\n", number("SELECT rootpage FROM sqlite_master"));
}

/* Numbers from a seed: Knuth's linear congruential generator of 64 bits, of which the high half is used. */
static uint64_t state = 13;

static int64_t drawn(void) {
    state = state * 6364136223846793005u + 1442695040888963407u;
    return (int64_t)(state >> 32);
}

/* Rows of an integer and a text of 20 to 59 bytes. A rowid that is drawn again is left out. */
static void insert(int64_t rows, int is_random) {
    run("PRAGMA cache_size = 1000000");
    run("BEGIN");
    sqlite3_stmt *insert = prepared("INSERT OR IGNORE INTO t VALUES(?, ?, ?)");
    char text[64];
    memset(text, 'x', sizeof text);
    uint64_t start = now();
    for (int64_t row = 1; row <= rows; row++) {
        sqlite3_bind_int64(insert, 1, is_random ? drawn() : row);
        sqlite3_bind_int64(insert, 2, row * 7919 % 1000003);
        sqlite3_bind_text(insert, 3, text, (int)(20 + row % 40), SQLITE_STATIC);
        if (sqlite3_step(insert) != SQLITE_DONE) fail();
        sqlite3_reset(insert);
    }
    uint64_t spent = now() - start;
    sqlite3_finalize(insert);
    printf("%s %llu %d %d\n", is_random ? "at_random" : "in_order", (unsigned long long)spent, number("SELECT COUNT(*) FROM t"), number("PRAGMA page_count"));
    run("ROLLBACK");
}

int main(int words, char **word) {
    if (words < 3 || sqlite3_open(word[2], &db) != SQLITE_OK) return 1;
    if (strcmp(word[1], "make") == 0) {
        make();
    } else if (words == 5) {
        insert(atoll(word[3]), strcmp(word[4], "at_random") == 0);
    }
    sqlite3_close(db);
    return 0;
}

/* Makes a database of one table with SQLite's library, or times a scan of the table and look-ups of random rowids in it.
   Words: make PATH ROWS (tells the root of the table); time PATH ROWS LOOKUPS. A line tells what was done, its nanoseconds, how many rows were given, and
   a sum over them. All of a scan or of the look-ups is one transaction, so that locks are taken once. */
#include <sqlite3.h>
#include <stdint.h>
#include <stdio.h>
#include <stdlib.h>
#include <string.h>
#include <time.h>

static sqlite3 *db;

static void fail(void) {
    fprintf(stderr, "%s\n", sqlite3_errmsg(db));
    exit(1);
}

static void run(const char *text) {
    if (sqlite3_exec(db, text, NULL, NULL, NULL) != SQLITE_OK) fail();
}

static sqlite3_stmt *prepared(const char *text) {
    sqlite3_stmt *statement;
    if (sqlite3_prepare_v2(db, text, -1, &statement, NULL) != SQLITE_OK) fail();
    return statement;
}

static uint64_t now(void) {
    struct timespec time;
    clock_gettime(CLOCK_MONOTONIC, &time);
    return (uint64_t)time.tv_sec * 1000000000u + (uint64_t)time.tv_nsec;
}

/* Rows of an integer and a text of 20 to 59 bytes. */
static void make(int64_t rows) {
    run("PRAGMA page_size = 4096");
    run("PRAGMA synchronous = OFF");
    run("CREATE TABLE t(a INTEGER PRIMARY KEY, b INTEGER, c TEXT)");
    run("BEGIN");
    sqlite3_stmt *insert = prepared("INSERT INTO t VALUES(?, ?, ?)");
    char text[64];
    memset(text, 'x', sizeof text);
    for (int64_t row = 1; row <= rows; row++) {
        sqlite3_bind_int64(insert, 1, row);
        sqlite3_bind_int64(insert, 2, row * 7919 % 1000003);
        sqlite3_bind_text(insert, 3, text, (int)(20 + row % 40), SQLITE_STATIC);
        if (sqlite3_step(insert) != SQLITE_DONE) fail();
        sqlite3_reset(insert);
    }
    sqlite3_finalize(insert);
    run("COMMIT");
    sqlite3_stmt *root = prepared("SELECT rootpage FROM sqlite_master");
    sqlite3_step(root);
    printf("%d\n", sqlite3_column_int(root, 0));
    sqlite3_finalize(root);
}

/* What a row adds: its integer, the count of its text's bytes, and the last of them. */
static uint64_t worth(sqlite3_stmt *row) {
    const unsigned char *text = sqlite3_column_text(row, 1);
    int count = sqlite3_column_bytes(row, 1);
    return (uint64_t)sqlite3_column_int64(row, 0) + (uint64_t)count + text[count - 1];
}

static void scan(void) {
    run("BEGIN");
    sqlite3_stmt *rows = prepared("SELECT b, c FROM t");
    uint64_t start = now(), sum = 0, count = 0;
    while (sqlite3_step(rows) == SQLITE_ROW) {
        sum += worth(rows);
        count++;
    }
    printf("scan %llu %llu %llu\n", (unsigned long long)(now() - start), (unsigned long long)count, (unsigned long long)sum);
    sqlite3_finalize(rows);
    run("COMMIT");
}

/* Numbers from a seed: Knuth's linear congruential generator of 64 bits, of which the high half is used. */
static uint64_t state = 13;

static int64_t below(int64_t end) {
    state = state * 6364136223846793005u + 1442695040888963407u;
    return (int64_t)((state >> 32) % (uint64_t)end);
}

static void find(int64_t rows, int64_t lookups) {
    run("BEGIN");
    sqlite3_stmt *row = prepared("SELECT b, c FROM t WHERE a = ?");
    uint64_t start = now(), sum = 0, count = 0;
    for (int64_t i = 0; i < lookups; i++) {
        sqlite3_bind_int64(row, 1, 1 + below(rows));
        if (sqlite3_step(row) == SQLITE_ROW) {
            sum += worth(row);
            count++;
        }
        sqlite3_reset(row);
    }
    printf("find %llu %llu %llu\n", (unsigned long long)(now() - start), (unsigned long long)count, (unsigned long long)sum);
    sqlite3_finalize(row);
    run("COMMIT");
}

int main(int words, char **word) {
    if (words < 4 || sqlite3_open(word[2], &db) != SQLITE_OK) return 1;
    if (strcmp(word[1], "make") == 0) {
        make(atoll(word[3]));
    } else if (words == 5) {
        scan();
        find(atoll(word[3]), atoll(word[4]));
    }
    sqlite3_close(db);
    return 0;
}

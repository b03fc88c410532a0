/* The peer of commits.program: the same commits to a database of SQLite's, in its log mode with each commit on the medium
   (synchronous=FULL), by two connections in turn. Each commit changes one row that fills most of a page. It tells the nanoseconds. */
#include <sqlite3.h>
#include <stdio.h>
#include <stdlib.h>
#include <string.h>
#include <time.h>

static void must(int ok, sqlite3 *db) {
    if (!ok) {
        fprintf(stderr, "%s\n", sqlite3_errmsg(db));
        exit(1);
    }
}

static void run(sqlite3 *db, const char *text) { must(sqlite3_exec(db, text, 0, 0, 0) == SQLITE_OK, db); }

static void write_row(sqlite3 *db, sqlite3_stmt *update, int row, int byte) {
    static char bytes[4000];
    memset(bytes, byte, sizeof bytes);
    sqlite3_bind_blob(update, 1, bytes, sizeof bytes, SQLITE_STATIC);
    sqlite3_bind_int(update, 2, row);
    must(sqlite3_step(update) == SQLITE_DONE, db);
    sqlite3_reset(update);
}

int main(int count_of_words, char **words) {
    sqlite3 *db[2];
    sqlite3_stmt *update[2];
    if (count_of_words != 3) return 2;
    int count = atoi(words[2]);
    for (int i = 0; i < 2; i++) {
        must(sqlite3_open(words[1], &db[i]) == SQLITE_OK, db[i]);
        run(db[i], "PRAGMA journal_mode=WAL; PRAGMA synchronous=FULL; PRAGMA wal_autocheckpoint=2000");
        if (i == 0) {
            run(db[0], "CREATE TABLE pages(number INTEGER PRIMARY KEY, bytes BLOB)");
            for (int row = 2; row <= 16; row++) {
                char text[100];
                snprintf(text, sizeof text, "INSERT INTO pages VALUES (%d, zeroblob(4000))", row);
                run(db[0], text);
            }
        }
        must(sqlite3_prepare_v2(db[i], "UPDATE pages SET bytes = ? WHERE number = ?", -1, &update[i], 0) == SQLITE_OK, db[i]);
    }
    struct timespec start, end;
    clock_gettime(CLOCK_MONOTONIC, &start);
    for (int i = 0; i < count; i++) {
        int who = i % 2;
        run(db[who], "BEGIN");
        write_row(db[who], update[who], 2 + i % 15, i % 256);
        run(db[who], "COMMIT");
        if (i % 10 == 0) {
            run(db[who], "BEGIN");
            write_row(db[who], update[who], 2 + i % 15, i % 256);
            run(db[who], "ROLLBACK");
        }
    }
    clock_gettime(CLOCK_MONOTONIC, &end);
    printf("%lld\n", (end.tv_sec - start.tv_sec) * 1000000000LL + (end.tv_nsec - start.tv_nsec));
    return 0;
}

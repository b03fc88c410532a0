/* Lets SQLite prepare each line of a file, in memory over the tables t and u: statements FILE. It writes how many were prepared. */
#include <sqlite3.h>
#include <stdio.h>
#include <stdlib.h>
#include <string.h>

static const char *const TABLES =
    "CREATE TABLE t(a INTEGER PRIMARY KEY, b INTEGER, c TEXT, d BLOB); CREATE TABLE u(a INTEGER PRIMARY KEY, b INTEGER)";

int main(int count, char **words) {
    FILE *file = count == 2 ? fopen(words[1], "rb") : NULL;
    if (!file) return 2;
    fseek(file, 0, SEEK_END);
    size_t size = (size_t)ftell(file);
    rewind(file);
    char *text = malloc(size + 1);
    if (!text || fread(text, 1, size, file) != size) return 3;
    sqlite3 *db;
    if (sqlite3_open(":memory:", &db) || sqlite3_exec(db, TABLES, 0, 0, 0)) return 7;
    unsigned long done = 0;
    for (char *at = text, *stop; (stop = memchr(at, '\n', (size_t)(text + size - at))); at = stop + 1) {
        sqlite3_stmt *statement;
        if (sqlite3_prepare_v2(db, at, (int)(stop - at), &statement, 0) == SQLITE_OK) done++;
        sqlite3_finalize(statement);
    }
    printf("%lu\n", done);
    return 0;
}

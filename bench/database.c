#include "database.h"

#include <sqlite3.h>
#include <stdio.h>
#include <stdlib.h>

static sqlite3 *database;
static sqlite3_stmt *query;

static void expect(int given, int expected) {
    if (given != expected) {
        fprintf(stderr, "SQLite: %s\n", sqlite3_errmsg(database));
        exit(1);
    }
}

static void execute(const char *sql) {
    expect(sqlite3_exec(database, sql, NULL, NULL, NULL), SQLITE_OK);
}

static sqlite3_stmt *prepare(const char *sql) {
    sqlite3_stmt *statement;
    expect(sqlite3_prepare_v2(database, sql, -1, &statement, NULL), SQLITE_OK);
    return statement;
}

static sqlite3_stmt *prepare_insert(const char *name, size_t width) {
    char sql[128];
    int at = snprintf(sql, sizeof sql, "INSERT INTO %s VALUES (?", name);
    for (size_t i = 1; i < width; i++) at += snprintf(sql + at, sizeof sql - (size_t)at, ", ?");
    snprintf(sql + at, sizeof sql - (size_t)at, ")");
    return prepare(sql);
}

static void insert_row(sqlite3_stmt *insert, const int64_t *cells, const uint8_t *marks, size_t width) {
    for (size_t i = 0; i < width; i++) {
        int column = (int)i + 1;
        expect(marks[i] != 0 ? sqlite3_bind_null(insert, column) : sqlite3_bind_int64(insert, column, cells[i]), SQLITE_OK);
    }
    expect(sqlite3_step(insert), SQLITE_DONE);
    expect(sqlite3_reset(insert), SQLITE_OK);
}

static void load_table(const tables *loaded, size_t table) {
    const size_t *numbers = loaded->numbers + 3 * table;
    size_t width = numbers[0], rows = numbers[1], start = numbers[2];
    char sql[256];
    snprintf(sql, sizeof sql, "CREATE TABLE %s (%s)", loaded->names[table], loaded->columns[table]);
    execute(sql);
    sqlite3_stmt *insert = prepare_insert(loaded->names[table], width);
    for (size_t i = 0; i < rows; i++) {
        insert_row(insert, loaded->cells + start + i * width, loaded->marks + start + i * width, width);
    }
    sqlite3_finalize(insert);
}

void database_open(const tables *loaded, const char *sql) {
    expect(sqlite3_open(":memory:", &database), SQLITE_OK);
    execute("BEGIN");
    for (size_t table = 0; table < loaded->count; table++) load_table(loaded, table);
    execute("COMMIT");
    query = prepare(sql);
}

size_t database_run(const areas *lent) {
    size_t rows = 0, at = 0;
    int width = sqlite3_column_count(query), step;
    while ((step = sqlite3_step(query)) == SQLITE_ROW) {
        for (int column = 0; column < width; column++, at++) {
            lent->result_marks[at] = sqlite3_column_type(query, column) == SQLITE_NULL;
            lent->result[at] = sqlite3_column_int64(query, column);
        }
        rows++;
    }
    expect(step, SQLITE_DONE);
    expect(sqlite3_reset(query), SQLITE_OK);
    return rows;
}

void database_close(void) {
    sqlite3_finalize(query);
    sqlite3_close(database);
}

const char *database_version(void) {
    return sqlite3_libversion();
}

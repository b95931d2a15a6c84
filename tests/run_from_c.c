/* Runs plan A as a host in C does: the header's example, then the depot again with a refusal of every number. */
#include "../include/firuvanta.h"
#include "plan_a.h"

#include <stdio.h>
#include <string.h>

/* print_depot, which tests/run cuts out of the header's comment */
#include "example.inc"

enum {
    NODES = 4,
    WIDTH = 6,
    LIMIT = 7, /* the joined rows of the depot */
    CELLS = 24,
    WORK = NODES * 16 * LIMIT,
    RESULT = WIDTH * LIMIT,
    RESULT_ROWS = 4,
    MORE_ROWS = 1025
};
/* the place of the age that is null in the lent run */
enum { NULL_AGE = 11 };

/* What a host lends; work and result are filled before each run. */
static struct {
    uint8_t plan[sizeof PLAN_A];
    size_t plan_length, tables[6], tables_length;
    int64_t cells[3 * MORE_ROWS + CELLS], work[WORK], result[RESULT];
    uint8_t marks[3 * MORE_ROWS + CELLS], work_marks[WORK], result_marks[RESULT];
    size_t cells_length, marks_length, limit, work_length, work_marks_length, result_length, result_marks_length, rows;
} lent;

static int answers, mismatches;

static void lend_depot(void) {
    static const size_t tables[6] = {3, 4, 0, 3, 4, 12};
    static const int64_t cells[CELLS] = {1, 10, 5, 1, 10, 7, 1, 20, 4, 2, 30, 0, 10, 1, 30, 10, 1, 40, 20, 2, 50, 40, 2, 20};
    memset(&lent, 0, sizeof lent);
    memcpy(lent.plan, PLAN_A, sizeof PLAN_A);
    memcpy(lent.tables, tables, sizeof tables);
    memcpy(lent.cells, cells, sizeof cells);
    lent.marks[NULL_AGE] = 1;
    lent.plan_length = sizeof PLAN_A;
    lent.tables_length = 6;
    lent.cells_length = lent.marks_length = CELLS;
    lent.limit = LIMIT;
    lent.work_length = lent.work_marks_length = WORK;
    lent.result_length = lent.result_marks_length = RESULT;
}

/* Whether every byte of an area is this one. */
static int all(const void *area, size_t size, int byte) {
    const uint8_t *bytes = area;
    for (size_t i = 0; i < size; i++) {
        if (bytes[i] != byte) return 0;
    }
    return 1;
}

static int work_holds(int byte) {
    return all(lent.work, sizeof lent.work, byte) && all(lent.work_marks, sizeof lent.work_marks, byte);
}

/* Whether the result area has only this byte behind the first rows. */
static int result_holds(size_t rows, int byte) {
    size_t from = rows * WIDTH;
    return all(lent.result + from, sizeof lent.result - from * sizeof *lent.result, byte)
        && all(lent.result_marks + from, sizeof lent.result_marks - from, byte);
}

/* Whether the depot's rows stand at the front of the result area; the last one has the age at NULL_AGE alone. */
static int depot_rows(void) {
    int64_t cells[RESULT_ROWS * WIDTH] = {0, 2, 1, 0, 20, 0, 1, 1, 4, 24, 140, 4, 1, 2, 1, 4, 50, 1, 2, 0, 1, 0, 0, 0};
    uint8_t marks[RESULT_ROWS * WIDTH] = {[0] = 1, [3] = 1, [19] = 1, [21] = 1, [22] = 1};
    cells[21] = lent.cells[NULL_AGE];
    cells[23] = !lent.marks[NULL_AGE];
    marks[21] = lent.marks[NULL_AGE];
    return memcmp(lent.result, cells, sizeof cells) == 0 && memcmp(lent.result_marks, marks, sizeof marks) == 0;
}

/* Runs what is lent, with a byte all over the written areas, and holds the number and the areas to what is expected. */
static void expect(const char *what, uint32_t expected) {
    enum { FILL = 0xA5 };
    memset(lent.work, FILL, sizeof lent.work);
    memset(lent.work_marks, FILL, sizeof lent.work_marks);
    memset(lent.result, FILL, sizeof lent.result);
    memset(lent.result_marks, FILL, sizeof lent.result_marks);
    uint32_t number = firuvanta_run(lent.plan, lent.plan_length, lent.tables, lent.tables_length, lent.cells,
                                    lent.cells_length, lent.marks, lent.marks_length, lent.limit, lent.work,
                                    lent.work_length, lent.work_marks, lent.work_marks_length, lent.result,
                                    lent.result_length, lent.result_marks, lent.result_marks_length, &lent.rows);
    int cleared = expected == FIRUVANTA_PASS || expected == FIRUVANTA_ROWS;
    size_t rows = expected == FIRUVANTA_PASS ? RESULT_ROWS : 0;
    int right = number == expected && lent.rows == rows && work_holds(cleared ? 0 : FILL) && result_holds(rows, FILL)
        && (rows == 0 || depot_rows());
    printf("%s: %u\n", what, (unsigned)number);
    answers++;
    if (!right) {
        printf("    %u was expected, or an area is not as it should be\n", (unsigned)expected);
        mismatches++;
    }
}

static void expect_plan_byte(const char *what, size_t place, uint8_t value, uint32_t expected) {
    lend_depot();
    lent.plan[place] = value;
    expect(what, expected);
}

static void expect_cell(const char *what, int64_t cell, uint8_t mark, uint32_t expected) {
    lend_depot();
    lent.cells[NULL_AGE] = cell;
    lent.marks[NULL_AGE] = mark;
    expect(what, expected);
}

/* A length or a number of what is lent, changed. */
static void expect_with(const char *what, size_t *place, size_t value, uint32_t expected) {
    lend_depot();
    *place = value;
    expect(what, expected);
}

static void expect_plans(void) {
    expect_plan_byte("plan A, unknown node", UNKNOWN_NODE, 5, FIRUVANTA_NO_PLAN);
    expect_with("plan A, last byte cut off", &lent.plan_length, sizeof PLAN_A - 1, FIRUVANTA_NO_PLAN);
    expect_plan_byte("plan A, releases of 17 columns", RELEASES_WIDTH, 17, FIRUVANTA_LIMITS);
    expect_plan_byte("plan A, tile at column 3", PAIR_LEFT, 3, FIRUVANTA_COLUMNS);
    lend_depot();
    memcpy(lent.plan + FIRST_DEFAULT, (const uint8_t[]){0, 0, 0, 0, 0, 1, 0, 0, 0}, 9);
    expect("plan A, depot 2147483648 by default", FIRUVANTA_WEIGHTS);
}

static void expect_tables(void) {
    expect_cell("age 2147483647", 2147483647, 0, FIRUVANTA_PASS);
    expect_cell("age -2147483647", -2147483647, 0, FIRUVANTA_PASS);
    expect_cell("age 2147483648", INT64_C(2147483648), 0, FIRUVANTA_TABLES);
    expect_cell("age -2147483648", INT64_C(-2147483648), 0, FIRUVANTA_TABLES);
    expect_cell("age null and 1", 1, 1, FIRUVANTA_TABLES);
    expect_cell("age with mark 2", 0, 2, FIRUVANTA_TABLES);
    expect_with("one table", &lent.tables_length, 3, FIRUVANTA_TABLES);
    expect_with("two tables less a number", &lent.tables_length, 5, FIRUVANTA_TABLES);
    expect_with("releases of 2 columns", &lent.tables[3], 2, FIRUVANTA_TABLES);
    expect_with("releases from SIZE_MAX", &lent.tables[5], SIZE_MAX, FIRUVANTA_TABLES);
    expect_with("23 cells", &lent.cells_length, CELLS - 1, FIRUVANTA_TABLES);
    expect_with("23 marks", &lent.marks_length, CELLS - 1, FIRUVANTA_TABLES);
    lend_depot();
    lent.cells_length = lent.marks_length = sizeof lent.marks;
    lent.tables[4] = MORE_ROWS;
    expect("1,025 releases", FIRUVANTA_TABLES);
}

static void expect_room(void) {
    expect_with("row limit 0", &lent.limit, 0, FIRUVANTA_ROOM);
    expect_with("row limit 4097", &lent.limit, 4097, FIRUVANTA_ROOM);
    expect_with("a cell of work too few", &lent.work_length, WORK - 1, FIRUVANTA_ROOM);
    expect_with("a mark of work too few", &lent.work_marks_length, WORK - 1, FIRUVANTA_ROOM);
    expect_with("a cell of the result too few", &lent.result_length, RESULT - 1, FIRUVANTA_ROOM);
    expect_with("a mark of the result too few", &lent.result_marks_length, RESULT - 1, FIRUVANTA_ROOM);
    expect_with("row limit 6", &lent.limit, 6, FIRUVANTA_ROWS);
}

/* Nothing lent at all: no bytes, no plan. */
static void expect_nothing(void) {
    size_t rows = 1;
    uint32_t number = firuvanta_run(NULL, 0, NULL, 0, NULL, 0, NULL, 0, 1, NULL, 0, NULL, 0, NULL, 0, NULL, 0, &rows);
    printf("nothing, NULL: %u\n", (unsigned)number);
    answers++;
    mismatches += number != FIRUVANTA_NO_PLAN || rows != 0;
}

int main(void) {
    puts("depot,class,uses,age_sum,limit_sum,age_count");
    answers++;
    mismatches += print_depot() != FIRUVANTA_PASS;
    lend_depot();
    expect("the depot in just enough room", FIRUVANTA_PASS);
    expect_plans();
    expect_tables();
    expect_room();
    expect_nothing();
    printf("run from C: %d of %d answers as expected\n", answers - mismatches, answers);
    return mismatches != 0;
}

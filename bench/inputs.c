#include "inputs.h"

#include "twelve_nodes.h"

enum { INNER = 1, LEFT = 2, FULL = 3 };

/* Plans */

#define USES_AND_RELEASES 0, 0, 3, 0, 1, 3
#define LOADS_AND_COPIES 0, 0, 4, 0, 1, 2, INNER, 1, 0, 0, 0, 0
#define BY_DEPOT_AND_CLASS 4, 2, 4, 0, 4, 0, 0, 0, 2, 2, 0, 2, 5, 0, 1, 2, 0

static const uint8_t DEPOT_FULL[] = {
    USES_AND_RELEASES, FULL, 1, 3, 3, 1, 0, THREE_NULLS, THREE_NULLS, BY_DEPOT_AND_CLASS,
};
static const uint8_t DEPOT_LEFT[] = {USES_AND_RELEASES, LEFT, 1, 0, 3, 1, 0, THREE_NULLS, BY_DEPOT_AND_CLASS};
static const uint8_t JOIN[] = {USES_AND_RELEASES, INNER, 1, 0, 0, 1, 0};
/* by tile and copy: count of rows, sum of age */
static const uint8_t MANY_GROUPS[] = {LOADS_AND_COPIES, 4, 2, 2, 1, 5, 0, 0, 0, 2, 3, 0};
/* by class: count of rows, sum, least and greatest of age */
static const uint8_t EIGHT_GROUPS[] = {LOADS_AND_COPIES, 4, 1, 4, 2, 0, 0, 0, 2, 3, 0, 3, 3, 0, 4, 3, 0};
/* distinct sum of age, distinct count of tile */
static const uint8_t DISTINCT[] = {LOADS_AND_COPIES, 4, 0, 2, 5, 3, 0, 6, 1, 0};

/* The same in SQL; rows are asked for in order where a run gives them so for a grouping's sake. */

#define DEPOT_SQL(kind) \
    "SELECT u.depot, r.class, count(*), sum(u.age), sum(r.limits), count(u.age) FROM uses u " kind \
    " JOIN releases r ON u.tile = r.tile GROUP BY u.depot, r.class ORDER BY u.depot, r.class"
#define FROM_LOADS " FROM loads l JOIN copies c ON l.depot = c.depot "

static const char JOIN_SQL[] =
    "SELECT u.depot, u.tile, u.age, r.tile, r.class, r.limits FROM uses u JOIN releases r ON u.tile = r.tile";
static const char MANY_GROUPS_SQL[] =
    "SELECT l.tile, c.copy, count(*), sum(l.age)" FROM_LOADS "GROUP BY l.tile, c.copy ORDER BY l.tile, c.copy";
static const char EIGHT_GROUPS_SQL[] =
    "SELECT l.class, count(*), sum(l.age), min(l.age), max(l.age)" FROM_LOADS "GROUP BY l.class ORDER BY l.class";
static const char DISTINCT_SQL[] = "SELECT sum(DISTINCT l.age), count(DISTINCT l.tile)" FROM_LOADS;
static const char TWELVE_NODES_SQL[] =
    "WITH n1 AS (SELECT depot, tile, sum(age) AS ages, count(age) AS aged FROM uses GROUP BY depot, tile),"
    " n3 AS (SELECT tile, class, min(limits) AS least, count(*) AS copies FROM releases GROUP BY tile, class),"
    " n5 AS (SELECT n1.depot, n3.class, sum(n1.ages * ifnull(n3.copies, 1)) AS ages,"
    "  ifnull(sum(CASE WHEN n1.ages IS NOT NULL THEN ifnull(n3.copies, 1) END), 0) AS aged,"
    "  max(n3.least) AS least, count(DISTINCT n1.tile) AS tiles"
    "  FROM n1 FULL JOIN n3 ON n1.tile = n3.tile GROUP BY n1.depot, n3.class),"
    " n8 AS (SELECT n5.depot, n5.class, s.depot AS shift, sum(n5.ages) AS ages, sum(n5.aged) AS aged, count(*) AS shifts"
    "  FROM n5 LEFT JOIN shifts s ON n5.depot = s.depot GROUP BY n5.depot, n5.class, s.depot),"
    " n9 AS (SELECT depot, class, sum(ages) AS ages, sum(aged) AS aged, sum(shifts) AS shifts FROM n8 GROUP BY depot, class),"
    " n10 AS (SELECT depot, sum(ages) AS ages, max(aged) AS aged FROM n9 GROUP BY depot)"
    " SELECT depot, min(ages), sum(DISTINCT aged) FROM n10 GROUP BY depot ORDER BY depot";

/* Tables */

static uint64_t drawn;

/* A number below this one; the same numbers at every run. */
static int64_t draw(uint64_t below) {
    drawn = drawn * 6364136223846793005u + 1442695040888963407u;
    return (int64_t)((drawn >> 33) % below);
}

static void put_cell(tables *out, int64_t number) {
    out->cells[out->length] = number;
    out->marks[out->length++] = 0;
}

/* One cell in so many is null. */
static void put_or_null(tables *out, int64_t number, uint64_t nulls) {
    int null = draw(nulls) == 0;
    out->cells[out->length] = null ? 0 : number;
    out->marks[out->length++] = (uint8_t)null;
}

static void start_table(tables *out, const char *name, const char *columns, size_t width, size_t rows) {
    size_t *numbers = out->numbers + 3 * out->count;
    numbers[0] = width;
    numbers[1] = rows;
    numbers[2] = out->length;
    out->names[out->count] = name;
    out->columns[out->count++] = columns;
}

static void start(tables *out) {
    drawn = 2024;
    out->count = out->length = 0;
}

/* Uses of tiles 0 to 767, releases of tiles 256 to 1,023, drawn by chance: a third of either meets none of the other. */
static void put_week(tables *out, size_t rows, uint64_t depots) {
    start_table(out, "uses", "depot INTEGER, tile INTEGER, age INTEGER", 3, rows);
    for (size_t i = 0; i < rows; i++) {
        put_cell(out, draw(depots));
        put_or_null(out, draw(768), 64);
        put_or_null(out, draw(400), 16);
    }
    start_table(out, "releases", "tile INTEGER, class INTEGER, limits INTEGER", 3, rows);
    for (size_t i = 0; i < rows; i++) {
        put_cell(out, 256 + draw(768));
        put_cell(out, 1 + draw(6));
        put_or_null(out, 20 + 10 * draw(11), 32);
    }
}

static void fill_week(tables *out, size_t rows) {
    start(out);
    put_week(out, rows, 7);
}

/* 256 tiles, each in 4 uses and in 4 releases: 4,096 joined rows of 1,024 and 1,024. */
static void fill_join(tables *out, size_t rows) {
    start(out);
    put_week(out, rows, 7);
    for (size_t i = 0; i < 2 * rows; i++) {
        size_t at = i < rows ? 3 * i + 1 : 3 * i;
        out->cells[at] = (int64_t)(i * 89 % 256);
        out->marks[at] = 0;
    }
}

/* Loads of one depot, each on 4 copies; tiles are out of order, and each in one load. */
static void fill_loads(tables *out, size_t rows) {
    start(out);
    start_table(out, "loads", "depot INTEGER, tile INTEGER, class INTEGER, age INTEGER", 4, rows);
    for (size_t i = 0; i < rows; i++) {
        int64_t tile = (int64_t)((i * 389 + 7) % rows);
        put_cell(out, 1);
        put_cell(out, tile);
        put_cell(out, tile % 8);
        put_or_null(out, draw(100000), 16);
    }
    start_table(out, "copies", "depot INTEGER, copy INTEGER", 2, 4);
    for (int64_t copy = 4; copy > 0; copy--) {
        put_cell(out, 1);
        put_cell(out, copy);
    }
}

/* A week of many depots, and two shifts a depot, some of depots that had no use. */
static void fill_twelve_nodes(tables *out, size_t rows) {
    start(out);
    put_week(out, rows, 256);
    start_table(out, "shifts", "depot INTEGER, a INTEGER, b INTEGER, c INTEGER", 4, rows);
    for (size_t i = 0; i < rows; i++) {
        put_cell(out, draw(512));
        for (int column = 1; column < 4; column++) put_or_null(out, draw(100), 16);
    }
}

#define PLAN(bytes) bytes, sizeof bytes

const input INPUTS[INPUT_COUNT] = {
    {"depot's week, full join", PLAN(DEPOT_FULL), 4, 6, 4096, twin_depot_full, DEPOT_SQL("FULL"), fill_week, 1024, 0},
    {"depot's week, left outer join", PLAN(DEPOT_LEFT), 4, 6, 4096, twin_depot_left, DEPOT_SQL("LEFT"), fill_week, 1024, 0},
    {"join at the row limit", PLAN(JOIN), 3, 6, 4096, twin_join, JOIN_SQL, fill_join, 1024, 0},
    {"1,024 rows into 1,024 groups", PLAN(MANY_GROUPS), 4, 4, 1024, twin_many_groups, MANY_GROUPS_SQL, fill_loads, 256, 0},
    {"4,096 rows into 4,096 groups", PLAN(MANY_GROUPS), 4, 4, 4096, twin_many_groups, MANY_GROUPS_SQL, fill_loads, 1024, 1},
    {"1,024 rows into 8 groups", PLAN(EIGHT_GROUPS), 4, 5, 1024, twin_eight_groups, EIGHT_GROUPS_SQL, fill_loads, 256, 0},
    {"4,096 rows into 8 groups", PLAN(EIGHT_GROUPS), 4, 5, 4096, twin_eight_groups, EIGHT_GROUPS_SQL, fill_loads, 1024, 1},
    {"distinct over 1,024 rows", PLAN(DISTINCT), 4, 2, 1024, twin_distinct, DISTINCT_SQL, fill_loads, 256, 0},
    {"distinct over 4,096 rows", PLAN(DISTINCT), 4, 2, 4096, twin_distinct, DISTINCT_SQL, fill_loads, 1024, 1},
    {"12 nodes, 3 leaves", PLAN(TWELVE_NODES), 12, 3, 4096, twin_twelve_nodes, TWELVE_NODES_SQL, fill_twelve_nodes, 1024, 0},
};

/* How deep a stack a run needs: the deepest plans are run on a stack of their own that is painted before and looked at after.
 *
 * What is counted is the stack from its top down to the lowest byte that was written, with the frame of the caller.
 */
#define _XOPEN_SOURCE 700

#include "../include/firuvanta.h"

#include <stdio.h>
#include <stdlib.h>
#include <string.h>
#include <ucontext.h>

enum {
    STACK = 1 << 20,
    NODES = 12,
    LEAVES = 3,
    COLUMNS = 16,
    LIMIT = 4096,
    TABLE_ROWS = 64,
    KEYS = 16,
    MOST_BYTES = NODES * 512,
    CELLS = TABLE_ROWS * COLUMNS,
    WORK = NODES * COLUMNS * LIMIT,
    RESULT = COLUMNS * LIMIT
};
/* what the header says that a run and a check take less than */
enum { MOST_RUN = 6 << 10, MOST_CHECK = 4 << 10 };
/* the width of a grouping by one column with the seven aggregates that are not weighted */
enum { GROUPED = 8 };

static uint8_t plan[MOST_BYTES], marks[CELLS], work_marks[WORK], result_marks[RESULT];
static int64_t cells[CELLS], work[WORK], result[RESULT];
static size_t plan_length, limit, tables[3 * LEAVES], rows;
static uint32_t number;

/* Plans, node by node. */

static void put(const uint8_t *node, size_t length) {
    memcpy(plan + plan_length, node, length);
    plan_length += length;
}

static void put_table(uint8_t table, uint8_t width) {
    const uint8_t node[] = {0, table, width};
    const size_t numbers[] = {width, TABLE_ROWS, 0};
    put(node, sizeof node);
    memcpy(tables + 3 * table, numbers, sizeof numbers);
}

/* By column 0: the number of rows, then six aggregates of column 1, distinct ones among them. */
static void put_groupings(int count) {
    static const uint8_t node[] = {4, 1, 7, 0, 0, 0, 0, 1, 1, 0, 2, 1, 0, 3, 1, 0, 4, 1, 0, 5, 1, 0, 6, 1, 0};
    for (int i = 0; i < count; i++) put(node, sizeof node);
}

/* Weighted sums of the left columns by the right input's number of rows; both inputs are groupings as above. */
static void put_weighted(void) {
    const uint8_t head[] = {4, 1, GROUPED - 1, 0};
    put(head, sizeof head);
    for (uint8_t v = 0; v < GROUPED - 1; v++) {
        const uint8_t aggregate[] = {7, v, GROUPED + 1};
        put(aggregate, sizeof aggregate);
    }
}

/* A full join on column 0 of both, all defaults null. */
static void put_join(uint8_t left, uint8_t right) {
    static const uint8_t null[] = {1, 0, 0, 0, 0, 0, 0, 0, 0};
    const uint8_t head[] = {3, 1, left, right, 0, 0};
    put(head, sizeof head);
    for (int i = 0; i < left + right; i++) put(null, sizeof null);
}

static void groupings_above_a_table(void) {
    put_table(0, COLUMNS);
    put_groupings(11);
}

static void groupings_above_left_joins(void) {
    put_table(0, GROUPED);
    put_table(1, GROUPED);
    put_join(GROUPED, GROUPED);
    put_groupings(1);
    put_table(2, GROUPED);
    put_join(GROUPED, GROUPED);
    put_groupings(6);
}

static void joins_above_left_groupings(void) {
    put_table(0, COLUMNS);
    put_groupings(7);
    put_table(1, 4);
    put_join(GROUPED, 4);
    put_table(2, 4);
    put_join(GROUPED + 4, 4);
}

static void joins_above_right_groupings(void) {
    put_table(0, 4);
    put_table(1, 4);
    put_table(2, COLUMNS);
    put_groupings(7);
    put_join(4, GROUPED);
    put_join(4, 4 + GROUPED);
}

static void groupings_above_weighted_sums(void) {
    put_table(0, COLUMNS);
    put_groupings(1);
    put_table(1, COLUMNS);
    put_groupings(1);
    put_join(GROUPED, GROUPED);
    put_weighted();
    put_groupings(6);
}

static const struct {
    const char *what;
    void (*build)(void);
} PLANS[] = {
    {"11 groupings above a table", groupings_above_a_table},
    {"6 groupings above joins to the left", groupings_above_left_joins},
    {"joins above 7 groupings to the left", joins_above_left_groupings},
    {"joins above 7 groupings to the right", joins_above_right_groupings},
    {"6 groupings above weighted sums", groupings_above_weighted_sums},
};

static size_t greater(size_t one, size_t other) {
    return one > other ? one : other;
}

/* A stack of its own. */

static uint8_t stack[STACK];
static ucontext_t here, there;

static void call_nothing(void) {
}

static void call_run(void) {
    number = firuvanta_run(plan, plan_length, tables, 3 * LEAVES, cells, CELLS, marks, CELLS, limit, work, WORK, work_marks,
                           WORK, result, RESULT, result_marks, RESULT, &rows);
}

static void call_check(void) {
    number = firuvanta_check(plan, plan_length);
}

/* The bytes of stack that a call wrote over this paint. */
static size_t used_over(void (*call)(void), uint8_t paint) {
    memset(stack, paint, sizeof stack);
    getcontext(&there);
    there.uc_stack.ss_sp = stack;
    there.uc_stack.ss_size = sizeof stack;
    there.uc_link = &here;
    makecontext(&there, call, 0);
    swapcontext(&here, &there);
    size_t untouched = 0;
    while (untouched < sizeof stack && stack[untouched] == paint) untouched++;
    return sizeof stack - untouched;
}

/* Twice, since what is written may look like the paint. */
static size_t used(void (*call)(void)) {
    return greater(used_over(call, 0xA5), used_over(call, 0x5A));
}

/* The bytes of a call that has to answer this number. */
static size_t used_for(void (*call)(void), uint32_t expected) {
    size_t bytes = used(call);
    if (number != expected) {
        printf("stack: %u was given and %u expected\n", (unsigned)number, (unsigned)expected);
        exit(1);
    }
    return bytes;
}

/* The bytes of a run of the plan, with a result and with too many rows. */
static size_t used_by_run(void) {
    limit = LIMIT;
    size_t with_result = used_for(call_run, FIRUVANTA_PASS);
    limit = TABLE_ROWS - 1;
    return greater(with_result, used_for(call_run, FIRUVANTA_ROWS));
}

static void fill_tables(void) {
    for (size_t i = 0; i < CELLS; i++) {
        cells[i] = (int64_t)((i / COLUMNS * 29 + i % COLUMNS) % KEYS);
        marks[i] = cells[i] == 0;
    }
}

int main(void) {
    size_t deepest = 0, deepest_check = 0;
    fill_tables();
    for (size_t i = 0; i < sizeof PLANS / sizeof *PLANS; i++) {
        plan_length = 0;
        PLANS[i].build();
        size_t run = used_by_run(), check = used_for(call_check, FIRUVANTA_PASS);
        printf("stack: %s: %zu bytes for a run, %zu for a check\n", PLANS[i].what, run, check);
        deepest = greater(deepest, run);
        deepest_check = greater(deepest_check, check);
    }
    printf("stack: the deepest run took %zu bytes, of which a call of nothing takes %zu\n", deepest, used(call_nothing));
    return deepest >= MOST_RUN || deepest_check >= MOST_CHECK;
}

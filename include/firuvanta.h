/* Firuvanta: check a plan over integer tables, and run it.
 *
 * Link with libfiruvanta.a, which asks for nothing from outside but `memset`.
 * No function allocates, keeps a pointer, reads or writes outside what is lent, or fails to return.
 */
#ifndef FIRUVANTA_H
#define FIRUVANTA_H

#include <stddef.h>
#include <stdint.h>

#ifdef __cplusplus
extern "C" {
#endif

/* The numbers that come back. */
enum {
    FIRUVANTA_PASS = 0,    /* the plan passes; of a run, there is a result */
    FIRUVANTA_NO_PLAN = 1, /* the bytes, or no bytes, are not the arrangement of a tree of known nodes */
    FIRUVANTA_LIMITS = 2,  /* nodes, leaves, widths or pairs are outside the limits */
    FIRUVANTA_COLUMNS = 3, /* a column is not there, a side has not one default a column, or a grouping column is repeated */
    FIRUVANTA_WEIGHTS = 4, /* a weight's place or kind is wrong, or a default is outside its range */
    FIRUVANTA_TABLES = 5,  /* a table that the plan names is missing, has another width than the leaf that names it, more than
                              1,024 rows, cells or marks outside the lent run, a mark above 1, a null cell that is not 0, or a
                              cell outside -2,147,483,647 to 2,147,483,647 */
    FIRUVANTA_ROOM = 6,    /* the row limit is outside 1 to 4,096, or the work area or the result area is too short */
    FIRUVANTA_ROWS = 7     /* some node of the plan, leaves included, has more rows than the row limit */
};

/* Checks a plan.
 *
 * plan, length  the bytes of the plan, arranged as docs/ARRANGEMENT.md says; lent for the call, and only read. Any bytes are
 *               allowed. plan may be NULL where length is 0: no bytes are no plan, 1.
 * returns       0 where the plan passes, else the first of 1, 2, 3, 4 that holds of the whole plan.
 *
 * The time is linear in length, and the stack does not grow with it; the deepest plan was measured to take less than 4 KiB.
 */
uint32_t firuvanta_check(const uint8_t *plan, size_t length);

/* Runs a plan over tables.
 *
 * Every area is the caller's, before the call and after it, and is lent for the call. An area is a pointer and how many things
 * it holds (bytes of a plan, numbers, cells or marks), of any count; the pointer may be NULL where that is 0. The areas must not
 * overlap. Nothing has to be checked before: whatever the areas hold, there is a result or one of the numbers 1 to 7.
 *
 * Only read:
 *
 * plan    plan_length bytes, the plan, as in firuvanta_check.
 * tables  tables_length numbers, three a table: its width, its row count, and its start, the place of its first cell in the lent
 *         run, from 0. A leaf names a table by its place in this list, from 0; two leaves may name one table. A rest of one or
 *         two numbers is not looked at, nor is a table that no leaf names.
 * cells   cells_length cells, the lent run: the rows of a table stand one behind the other, the cells of a row too. Tables may
 *         overlap there, and what lies outside the tables that the plan names is not looked at.
 * marks   marks_length marks, one for the cell at the same place: 0 present, 1 null. A null cell holds 0. The lent run reaches
 *         as far as both cells and marks do. A table of no rows has no cell outside it, wherever it starts.
 * limit   the row limit, 1 to 4,096: the most rows that a node of this plan may have, whatever the result has.
 *
 * Written:
 *
 * work, work_marks      work_length cells and work_marks_length marks to work in, each at least nodes x 16 x limit. What they
 *                       hold on entry does not matter.
 * result, result_marks  result_length cells and result_marks_length marks for the result, each at least width x limit, width
 *                       being that of the plan's root, however few rows come out.
 * rows                  one number, how many rows the result has; never NULL.
 *
 * returns  0 where there is a result, else the first of 1, 2, 3, 4, 5, 6, 7 that holds of the whole plan. The row count of a
 *          refusal is 0, and a result may have 0 rows too: the number tells them apart.
 *
 * What the areas hold then:
 *
 * number  result, result_marks                         work, work_marks            *rows
 * 0       the rows from the front, the rest as it was  0 over their whole length   how many rows
 * 7       as they were                                 0 over their whole length   0
 * 1 to 6  as they were                                 as they were                0
 *
 * Of a result the first *rows x width cells and marks are written, row after row; a null is cell 0 with mark 1. A table has its
 * rows in order. A join has its left rows in order, each with its right matches in order, an unmatched left row of an outer join
 * in its place, and the unmatched right rows of a full join last. The rows of a grouping ascend by the grouping columns as
 * listed, null before every number.
 *
 * A join takes a time that grows with left rows x right rows, a grouping of n rows one that grows with n log n. The stack does
 * not grow with the rows; the deepest plan was measured to take less than 6 KiB.
 *
 * Example, plan A of docs/ARRANGEMENT.md over a depot's uses and releases, with at most 64 rows a node; a null is printed as
 * an empty field:
 *
 *     static uint32_t print_depot(void) {
 *         enum { NODES = 4, WIDTH = 6, LIMIT = 64, CELLS = 24, WORK = NODES * 16 * LIMIT, RESULT = WIDTH * LIMIT };
 *         static const int64_t cells[CELLS] = {1,  10, 5,  1,  10, 7,  1,  20, 4,  2,  30, 0,   // uses: depot, tile, age
 *                                              10, 1,  30, 10, 1,  40, 20, 2,  50, 40, 2,  20}; // releases: tile, class, limit
 *         static const uint8_t marks[CELLS] = {[11] = 1};     // the last use's age is null
 *         static const size_t tables[] = {3, 4, 0, 3, 4, 12}; // 3 columns and 4 rows from 0, 3 columns and 4 rows from 12
 *         static int64_t work[WORK], result[RESULT];
 *         static uint8_t work_marks[WORK], result_marks[RESULT];
 *         size_t rows;
 *         uint32_t number = firuvanta_run(PLAN_A, sizeof PLAN_A, tables, 6, cells, CELLS, marks, CELLS, LIMIT, work, WORK,
 *                                         work_marks, WORK, result, RESULT, result_marks, RESULT, &rows);
 *         for (size_t i = 0; i < rows * WIDTH; i++) {
 *             if (result_marks[i] == 0) printf("%lld", (long long)result[i]);
 *             putchar(i % WIDTH < WIDTH - 1 ? ',' : '\n');
 *         }
 *         return number;
 *     }
 */
uint32_t firuvanta_run(const uint8_t *plan, size_t plan_length, const size_t *tables, size_t tables_length,
                       const int64_t *cells, size_t cells_length, const uint8_t *marks, size_t marks_length, size_t limit,
                       int64_t *work, size_t work_length, uint8_t *work_marks, size_t work_marks_length,
                       int64_t *result, size_t result_length, uint8_t *result_marks, size_t result_marks_length, size_t *rows);

#ifdef __cplusplus
}
#endif

#endif

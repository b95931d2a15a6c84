/* Runs the cases that write_sample.py wrote, each area just as long as it is lent, for a tool that watches every read and write.
 *
 * Usage: run_sample FILE
 */
#include "../include/firuvanta.h"

#include <inttypes.h>
#include <stdio.h>
#include <stdlib.h>
#include <string.h>

enum { FILL = 0xA5, NUMBERS = FIRUVANTA_ROWS + 1 };

typedef struct {
    size_t length;
    uint8_t *at;
} bytes;

typedef struct {
    size_t length;
    int64_t *at;
} cells;

typedef struct {
    size_t length;
    size_t *at;
} numbers;

typedef struct {
    bytes plan, marks, expected_marks;
    numbers tables;
    cells run, expected;
    size_t limit, work, work_marks, result, result_marks, number, rows;
} sample_case;

static void stop(const char *why) {
    fprintf(stderr, "run_sample: %s\n", why);
    exit(2);
}

static void *room(size_t count, size_t size) {
    /* a length of 0 has room too, of no bytes */
    void *area = malloc(count * size);
    if (area == NULL && count != 0) stop("no memory");
    return area;
}

static size_t read_number(FILE *file) {
    uint64_t number;
    if (fscanf(file, "%" SCNu64, &number) != 1) stop("a number was expected");
    return (size_t)number;
}

static int64_t read_cell(FILE *file) {
    int64_t cell;
    if (fscanf(file, "%" SCNd64, &cell) != 1) stop("a cell was expected");
    return cell;
}

static bytes read_bytes(FILE *file) {
    bytes list = {.length = read_number(file)};
    list.at = room(list.length, sizeof *list.at);
    for (size_t i = 0; i < list.length; i++) list.at[i] = (uint8_t)read_number(file);
    return list;
}

static numbers read_numbers(FILE *file) {
    numbers list = {.length = read_number(file)};
    list.at = room(list.length, sizeof *list.at);
    for (size_t i = 0; i < list.length; i++) list.at[i] = read_number(file);
    return list;
}

static cells read_cells(FILE *file) {
    cells list = {.length = read_number(file)};
    list.at = room(list.length, sizeof *list.at);
    for (size_t i = 0; i < list.length; i++) list.at[i] = read_cell(file);
    return list;
}

static sample_case read_case(FILE *file) {
    sample_case c;
    c.plan = read_bytes(file);
    c.tables = read_numbers(file);
    c.run = read_cells(file);
    c.marks = read_bytes(file);
    c.limit = read_number(file);
    c.work = read_number(file);
    c.work_marks = read_number(file);
    c.result = read_number(file);
    c.result_marks = read_number(file);
    c.number = read_number(file);
    c.rows = read_number(file);
    c.expected = read_cells(file);
    c.expected_marks = read_bytes(file);
    return c;
}

static void give_back(sample_case c) {
    free(c.plan.at);
    free(c.tables.at);
    free(c.run.at);
    free(c.marks.at);
    free(c.expected.at);
    free(c.expected_marks.at);
}

/* Whether every byte from a place of an area on is this one. */
static int all_from(const void *area, size_t from, size_t size, int byte) {
    const uint8_t *at = area;
    for (size_t i = from; i < size; i++) {
        if (at[i] != byte) return 0;
    }
    return 1;
}

static int result_right(const sample_case *c, const int64_t *result, const uint8_t *marks) {
    size_t count = c->expected.length;
    return memcmp(result, c->expected.at, count * sizeof *result) == 0
        && memcmp(marks, c->expected_marks.at, count) == 0
        && all_from(result, count * sizeof *result, c->result * sizeof *result, FILL)
        && all_from(marks, count, c->result_marks, FILL);
}

/* The work area is lent as malloc gives it, so that a run that goes by what it held is seen. */
static int case_right(const sample_case *c) {
    size_t rows = 1;
    int64_t *work = room(c->work, sizeof *work), *result = room(c->result, sizeof *result);
    uint8_t *work_marks = room(c->work_marks, 1), *result_marks = room(c->result_marks, 1);
    memset(result, FILL, c->result * sizeof *result);
    memset(result_marks, FILL, c->result_marks);
    uint32_t number = firuvanta_run(c->plan.at, c->plan.length, c->tables.at, c->tables.length, c->run.at, c->run.length,
                                    c->marks.at, c->marks.length, c->limit, work, c->work, work_marks, c->work_marks,
                                    result, c->result, result_marks, c->result_marks, &rows);
    int right = number == c->number && rows == c->rows && result_right(c, result, result_marks);
    if (number == FIRUVANTA_PASS || number == FIRUVANTA_ROWS) {
        right = right && all_from(work, 0, c->work * sizeof *work, 0) && all_from(work_marks, 0, c->work_marks, 0);
    }
    free(work);
    free(work_marks);
    free(result);
    free(result_marks);
    return right;
}

int main(int count, char **arguments) {
    size_t ran[NUMBERS] = {0}, wrong = 0;
    FILE *file = count == 2 ? fopen(arguments[1], "r") : NULL;
    if (file == NULL) stop("a file of cases was expected");
    size_t cases = read_number(file);
    for (size_t i = 0; i < cases; i++) {
        sample_case c = read_case(file);
        if (c.number >= NUMBERS) stop("a number of a run was expected");
        ran[c.number]++;
        if (!case_right(&c)) {
            printf("case %zu of the sample is not as expected\n", i);
            wrong++;
        }
        give_back(c);
    }
    fclose(file);
    printf("sample: %zu cases,", cases);
    for (size_t i = 0; i < NUMBERS; i++) printf(" %zu of %zu%s", ran[i], i, i + 1 < NUMBERS ? "," : "\n");
    return wrong != 0;
}

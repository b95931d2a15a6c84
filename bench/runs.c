/* Microseconds a run, beside those of the same plan by hand in C and of the same query in SQLite. */
#define _POSIX_C_SOURCE 199309L

#include "../include/firuvanta.h"
#include "clock.h"
#include "database.h"

#include <stdio.h>
#include <stdlib.h>
#include <string.h>

enum { ROUNDS = 30, ROUND_MS = 5, WORK = MOST_NODES * COLUMNS * MOST_LIMIT, RESULT = COLUMNS * MOST_LIMIT };
enum { RUN, TWIN, DATABASE, WAYS };

typedef size_t way(const areas *lent);

typedef struct {
    size_t rows;
    double microseconds[WAYS];
} measured;

static tables loaded;
static int64_t work[WORK], result[RESULT], expected[RESULT];
static uint8_t work_marks[WORK], result_marks[RESULT], expected_marks[RESULT];

/* The input that is measured. */
static const input *current;

static size_t library_run(const areas *lent) {
    size_t rows;
    uint32_t number = firuvanta_run(current->plan, current->plan_length, lent->tables, lent->tables_length, lent->cells,
                                    lent->run_length, lent->marks, lent->run_length, lent->limit, lent->work,
                                    lent->work_length, lent->work_marks, lent->work_length, lent->result,
                                    lent->result_length, lent->result_marks, lent->result_length, &rows);
    return number == FIRUVANTA_PASS ? rows : TWIN_TOO_MANY_ROWS;
}

static areas lend(void) {
    return (areas){
        .tables = loaded.numbers,
        .tables_length = 3 * loaded.count,
        .cells = loaded.cells,
        .marks = loaded.marks,
        .run_length = loaded.length,
        .limit = current->limit,
        .work = work,
        .work_marks = work_marks,
        .work_length = current->nodes * COLUMNS * current->limit,
        .result = result,
        .result_marks = result_marks,
        .result_length = current->width * current->limit,
    };
}

/* A number for the rows that does not hang on their order, since a join in SQL has none. */
static uint64_t fingerprint(size_t rows) {
    uint64_t sum = 0;
    for (size_t row = 0; row < rows; row++) {
        uint64_t mixed = 14695981039346656037u;
        for (size_t at = row * current->width; at < (row + 1) * current->width; at++) {
            mixed = (mixed ^ ((uint64_t)result[at] * 2 + result_marks[at])) * 1099511628211u;
            mixed ^= mixed >> 29;
        }
        sum += mixed;
    }
    return sum;
}

static void stop(const char *why) {
    printf("%s: %s\n", current->name, why);
    exit(1);
}

/* All three have to give the same rows, the twin in the same order; gives how many. */
static size_t same_rows(const areas *lent) {
    size_t rows = library_run(lent);
    if (rows == TWIN_TOO_MANY_ROWS) stop("the run gives no result");
    size_t cells = rows * current->width;
    uint64_t of_run = fingerprint(rows);
    memcpy(expected, result, sizeof result);
    memcpy(expected_marks, result_marks, sizeof result_marks);
    if (current->by_hand(lent) != rows || memcmp(result, expected, cells * sizeof *result) != 0
        || memcmp(result_marks, expected_marks, cells) != 0) stop("the twin gives other rows");
    if (database_run(lent) != rows || fingerprint(rows) != of_run) stop("SQLite gives other rows");
    return rows;
}

static double time_calls(way *how, const areas *lent, long calls) {
    /* read anew at each call, so that no call is taken out of the loop */
    way *volatile anew = how;
    double start = now_ns();
    for (long i = 0; i < calls; i++) anew(lent);
    return now_ns() - start;
}

static long calls_a_round(way *how, const areas *lent) {
    long calls = 1;
    while (time_calls(how, lent, calls) < ROUND_MS * 1e6) calls *= 2;
    return calls;
}

/* The best round of each way; the ways take turns, so that a busy machine meets all of them. */
static measured measure(const input *in) {
    current = in;
    in->fill(&loaded, in->rows);
    database_open(&loaded, in->sql);
    const areas lent = lend();
    way *const ways[WAYS] = {library_run, in->by_hand, database_run};
    measured out = {.rows = same_rows(&lent)};
    long calls[WAYS];
    for (int i = 0; i < WAYS; i++) calls[i] = calls_a_round(ways[i], &lent);
    for (int round = 0; round < ROUNDS; round++) {
        for (int i = 0; i < WAYS; i++) {
            double taken = time_calls(ways[i], &lent, calls[i]) / (double)calls[i] / 1e3;
            if (round == 0 || taken < out.microseconds[i]) out.microseconds[i] = taken;
        }
    }
    database_close();
    return out;
}

static void print_row(const input *in, const measured *m) {
    double run = m->microseconds[RUN], by_hand = m->microseconds[TWIN], database = m->microseconds[DATABASE];
    printf("| %-29s | %5zu | %8.1f | %8.1f | %10.2f | %8.1f | %12.2f |\n", in->name, m->rows, run, by_hand, run / by_hand,
           database, database / run);
    fflush(stdout);
}

static void print_growth(const input *in, const measured *before, const measured *m) {
    printf("%s, four times the rows: run %.1f times, C twin %.1f, SQLite %.1f\n", in->name,
           m->microseconds[RUN] / before->microseconds[RUN], m->microseconds[TWIN] / before->microseconds[TWIN],
           m->microseconds[DATABASE] / before->microseconds[DATABASE]);
}

int main(void) {
    measured all[INPUT_COUNT];
    printf("SQLite:   %s, in memory, tables loaded, no index, statement prepared\n", database_version());
    printf("unit:     microseconds of processor time a run, the best of %d rounds of %d ms or more\n\n", ROUNDS, ROUND_MS);
    puts("| input                         |  rows |      run |   C twin | run / twin |   SQLite | SQLite / run |");
    puts("|-------------------------------|------:|---------:|---------:|-----------:|---------:|-------------:|");
    for (size_t i = 0; i < INPUT_COUNT; i++) {
        all[i] = measure(&INPUTS[i]);
        print_row(&INPUTS[i], &all[i]);
    }
    puts("");
    for (size_t i = 1; i < INPUT_COUNT; i++) {
        if (INPUTS[i].grown) print_growth(&INPUTS[i], &all[i - 1], &all[i]);
    }
    return 0;
}

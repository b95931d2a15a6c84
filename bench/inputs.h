/* The inputs of the benchmark: a plan in bytes, by hand in C and in SQL, and the tables that it runs over. */
#ifndef INPUTS_H
#define INPUTS_H

#include "twin.h"

enum { INPUT_COUNT = 10, MOST_TABLES = 3, MOST_NODES = 12, MOST_LIMIT = 4096, MOST_CELLS = 3 * 1024 * 4 };

/* Tables in one run of cells, with the names that SQL gives them. */
typedef struct {
    size_t count, numbers[3 * MOST_TABLES], length;
    const char *names[MOST_TABLES], *columns[MOST_TABLES];
    int64_t cells[MOST_CELLS];
    uint8_t marks[MOST_CELLS];
} tables;

typedef struct {
    const char *name;
    const uint8_t *plan;
    size_t plan_length, nodes, width, limit;
    twin *by_hand;
    const char *sql;
    /* puts the tables in, of as many rows */
    void (*fill)(tables *out, size_t rows);
    size_t rows;
    int grown; /* whether it is the input before it, over four times the rows */
} input;

extern const input INPUTS[INPUT_COUNT];

#endif

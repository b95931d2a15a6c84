/* What a run is lent, by name. */
#ifndef AREAS_H
#define AREAS_H

#include <stddef.h>
#include <stdint.h>

enum { COLUMNS = 16 };

typedef struct {
    const size_t *tables; /* width, row count and start of each */
    size_t tables_length;
    const int64_t *cells;
    const uint8_t *marks;
    size_t run_length, limit;
    int64_t *work, *result;
    uint8_t *work_marks, *result_marks;
    size_t work_length, result_length;
} areas;

#endif

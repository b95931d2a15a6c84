/* The plans of the benchmark by hand in C, each with nested loops of its own: the measure that a run is held against.
 *
 * A twin takes the tables as they are (refusals 1 to 6 are the library's), stops where a join has more rows than the limit, clears
 * the whole work area at its end, and gives the row count.
 */
#ifndef TWIN_H
#define TWIN_H

#include "areas.h"

typedef size_t twin(const areas *lent);

#define TWIN_TOO_MANY_ROWS SIZE_MAX

twin twin_depot_full, twin_depot_left, twin_join, twin_many_groups, twin_eight_groups, twin_distinct, twin_twelve_nodes;

#endif

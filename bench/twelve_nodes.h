/* A plan of 12 nodes and 3 leaves, the most that is allowed. */
#ifndef TWELVE_NODES_H
#define TWELVE_NODES_H

#include <stdint.h>

#define NULL_DEFAULT 1, 0, 0, 0, 0, 0, 0, 0, 0
#define THREE_NULLS NULL_DEFAULT, NULL_DEFAULT, NULL_DEFAULT

/* Uses and releases grouped before a full join, a left join with a third table, and a chain of groupings. */
static const uint8_t TWELVE_NODES[] = {
    0, 0, 3,                                                     /* uses: depot, tile, age */
    4, 2, 3, 0, 1, 2, 2, 0, 1, 2, 0, 0, 0, 0,                    /* sum and count of age, count of rows */
    0, 1, 3,                                                     /* releases: tile, class, limit */
    4, 2, 2, 0, 1, 3, 2, 0, 0, 0, 0,                             /* least limit, count of rows */
    3, 1, 5, 4, 1, 0,                                            /* full join on tile */
    THREE_NULLS, 0, 0, 0, 0, 0, 0, 0, 0, 0,                      /* left: null, null, null, 0, .. */
    0, 2, 0, 0, 0, 0, 0, 0, 0,                                   /* .. 1 */
    THREE_NULLS, 0, 2, 0, 0, 0, 0, 0, 0, 0,                      /* right: null, null, null, 1 */
    4, 2, 4, 0, 6, 7, 2, 8, 8, 2, 8, 4, 7, 0, 6, 1, 0,           /* weighted sum, weighted count, greatest, distinct count */
    0, 2, 4,                                                     /* a third table */
    2, 1, 0, 4, 0, 0, THREE_NULLS, 0, 9, 0, 0, 0, 0, 0, 0, 0,    /* left join, right: null, null, null, -5 */
    4, 3, 3, 0, 1, 6, 2, 2, 0, 2, 3, 0, 0, 0, 0,                 /* groupings up to the root */
    4, 2, 3, 0, 1, 2, 3, 0, 2, 4, 0, 2, 5, 0,
    4, 1, 2, 0, 2, 2, 0, 4, 3, 0,
    4, 1, 2, 0, 3, 1, 0, 5, 2, 0,
};

#endif

/* The bytes of the worked depot's plan A. */
#ifndef PLAN_A_H
#define PLAN_A_H

#include <stdint.h>

/* docs/ARRANGEMENT.md, Plan A */
static const uint8_t PLAN_A[] = {
    0, 0, 3,                   /* table 0, the uses: depot, tile, age */
    0, 1, 3,                   /* table 1, the releases: tile, class, limit */
    3, 1, 3, 3,                /* full join, 1 pair, 3 left and 3 right defaults */
    1, 0,                      /* the uses' tile = the releases' tile */
    1, 0, 0, 0, 0, 0, 0, 0, 0, /* a use that is not there: depot null */
    1, 0, 0, 0, 0, 0, 0, 0, 0, /* tile null */
    1, 0, 0, 0, 0, 0, 0, 0, 0, /* age null */
    1, 0, 0, 0, 0, 0, 0, 0, 0, /* a release that is not there: tile null */
    1, 0, 0, 0, 0, 0, 0, 0, 0, /* class null */
    1, 0, 0, 0, 0, 0, 0, 0, 0, /* limit null */
    4, 2, 4,                   /* grouping, 2 columns, 4 aggregates */
    0, 4,                      /* by depot and class */
    0, 0, 0,                   /* count of rows */
    2, 2, 0,                   /* sum of age */
    2, 5, 0,                   /* sum of limit */
    1, 2, 0                    /* count of age */
};

/* places in it */
enum { UNKNOWN_NODE = 0, RELEASES_WIDTH = 5, PAIR_LEFT = 10, FIRST_DEFAULT = 12 };

#endif

#include "reader.h"

#include <string.h>

/* A node's length is 0 where its bytes are no node's; left is how many bytes are left from its first on. */

static size_t table_length(size_t left) {
    return left >= 3 ? 3 : 0;
}

static int default_is_known(const uint8_t *bytes) {
    uint64_t number;
    memcpy(&number, bytes + 1, sizeof number);
    return bytes[0] == 0 || (bytes[0] == 1 && number == 0);
}

static size_t join_length(const uint8_t *node, size_t left) {
    if (left < 4) return 0;
    size_t pairs = node[1], left_defaults = node[2], right_defaults = node[3];
    if (left_defaults != 0 && node[0] != 3) return 0;
    if (right_defaults != 0 && node[0] == 1) return 0;
    size_t defaults = left_defaults + right_defaults, length = 4 + 2 * pairs + 9 * defaults;
    if (left < length) return 0;
    const uint8_t *bytes = node + 4 + 2 * pairs;
    for (size_t i = 0; i < defaults; i++) {
        if (!default_is_known(bytes + 9 * i)) return 0;
    }
    return length;
}

static int aggregate_is_known(const uint8_t *bytes) {
    if (bytes[0] > 8) return 0;
    if (bytes[0] == 0 && bytes[1] != 0) return 0;
    return bytes[0] >= 7 || bytes[2] == 0;
}

static size_t grouping_length(const uint8_t *node, size_t left) {
    if (left < 3) return 0;
    size_t columns = node[1], aggregates = node[2], length = 3 + columns + 3 * aggregates;
    if (left < length) return 0;
    for (size_t i = 0; i < aggregates; i++) {
        if (!aggregate_is_known(node + 3 + columns + 3 * i)) return 0;
    }
    return length;
}

uint32_t reader_check(const uint8_t *plan, size_t length) {
    size_t at = 0, trees = 0;
    while (at < length) {
        size_t taken, step;
        if (plan[at] == 0) {
            taken = 0;
            step = table_length(length - at);
        } else if (plan[at] <= 3) {
            taken = 2;
            step = join_length(plan + at, length - at);
        } else if (plan[at] == 4) {
            taken = 1;
            step = grouping_length(plan + at, length - at);
        } else {
            return 1;
        }
        if (step == 0 || trees < taken) return 1;
        trees = trees - taken + 1;
        at += step;
    }
    return trees != 1;
}

/* Calls the check as a host in C does: plan A of the worked depot, no bytes, damaged plans and a long string. */
#include "../include/firuvanta.h"
#include "plan_a.h"

#include <stdio.h>
#include <string.h>

static int answers, mismatches;

static void expect(const char *what, uint32_t given, uint32_t expected) {
    printf("%s: %u\n", what, (unsigned)given);
    answers++;
    if (given != expected) {
        printf("    %u was expected\n", (unsigned)expected);
        mismatches++;
    }
}

/* The check of plan A with one byte changed. */
static uint32_t check_changed(size_t place, uint8_t value) {
    uint8_t plan[sizeof PLAN_A];
    memcpy(plan, PLAN_A, sizeof plan);
    plan[place] = value;
    return firuvanta_check(plan, sizeof plan);
}

/* The check of plan A with a present default for the depot. */
static uint32_t check_default(int64_t value) {
    uint8_t plan[sizeof PLAN_A];
    uint64_t number = ((uint64_t)value << 1) ^ (uint64_t)(value >> 63);
    memcpy(plan, PLAN_A, sizeof plan);
    plan[FIRST_DEFAULT] = 0;
    for (int i = 0; i < 8; i++) {
        plan[FIRST_DEFAULT + 1 + i] = (uint8_t)(number >> (8 * i));
    }
    return firuvanta_check(plan, sizeof plan);
}

/* A table and groupings above it, each of 4 bytes: a tree as deep as the string is long. */
static uint32_t check_deep(void) {
    static const uint8_t table[] = {0, 0, 1}, grouping[] = {4, 1, 0, 0};
    static uint8_t plan[(1 << 20) - 1];
    memcpy(plan, table, sizeof table);
    for (size_t at = sizeof table; at < sizeof plan; at += sizeof grouping) {
        memcpy(plan + at, grouping, sizeof grouping);
    }
    return firuvanta_check(plan, sizeof plan);
}

int main(void) {
    expect("plan A", firuvanta_check(PLAN_A, sizeof PLAN_A), FIRUVANTA_PASS);
    expect("no bytes, NULL", firuvanta_check(NULL, 0), FIRUVANTA_NO_PLAN);
    expect("no bytes", firuvanta_check(PLAN_A, 0), FIRUVANTA_NO_PLAN);
    expect("plan A, last byte cut off", firuvanta_check(PLAN_A, sizeof PLAN_A - 1), FIRUVANTA_NO_PLAN);
    expect("plan A, unknown node", check_changed(0, 5), FIRUVANTA_NO_PLAN);
    expect("plan A, unknown mark", check_changed(FIRST_DEFAULT, 2), FIRUVANTA_NO_PLAN);
    expect("plan A, null with a number", check_changed(FIRST_DEFAULT + 1, 1), FIRUVANTA_NO_PLAN);
    expect("plan A, releases of 17 columns", check_changed(RELEASES_WIDTH, 17), FIRUVANTA_LIMITS);
    expect("plan A, tile at column 3", check_changed(PAIR_LEFT, 3), FIRUVANTA_COLUMNS);
    expect("plan A, depot -2147483647 by default", check_default(-2147483647), FIRUVANTA_PASS);
    expect("plan A, depot 2147483647 by default", check_default(2147483647), FIRUVANTA_PASS);
    expect("plan A, depot -2147483648 by default", check_default(INT64_C(-2147483648)), FIRUVANTA_WEIGHTS);
    expect("plan A, depot 2147483648 by default", check_default(INT64_C(2147483648)), FIRUVANTA_WEIGHTS);
    expect("plan A, depot -2^63 by default", check_default(INT64_MIN), FIRUVANTA_WEIGHTS);
    expect("1 MiB of groupings", check_deep(), FIRUVANTA_LIMITS);
    printf("check from C: %d of %d answers as expected\n", answers - mismatches, answers);
    return mismatches != 0;
}

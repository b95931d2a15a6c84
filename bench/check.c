/* Nanoseconds a byte of the check, beside those of a reader in C that does refusal 1 alone. */
#define _POSIX_C_SOURCE 199309L

#include "../include/firuvanta.h"
#include "clock.h"
#include "reader.h"
#include "twelve_nodes.h"

#include <stdio.h>
#include <stdlib.h>
#include <string.h>

enum { ROUNDS = 9, ROUND_MS = 20, MOST_BYTES = 1 << 20 };

typedef uint32_t checker(const uint8_t *plan, size_t length);

/* Nodes of the worked depot's plan A, which the long strings repeat. */
#define TABLE 0, 0, 3
#define FULL_JOIN 3, 1, 3, 3, 1, 0, THREE_NULLS, THREE_NULLS
#define GROUPING 4, 2, 4, 0, 4, 0, 0, 0, 2, 2, 0, 2, 5, 0, 1, 2, 0

static const uint8_t ONE_TABLE[] = {TABLE};
static const uint8_t UNIT[] = {TABLE, FULL_JOIN, GROUPING};

static uint8_t string[MOST_BYTES];

static size_t put(size_t at, const uint8_t *bytes, size_t length) {
    memcpy(string + at, bytes, length);
    return at + length;
}

/* Fills the string to this length, with as many trees left at its end. */
static void build(size_t length, int trees) {
    size_t at = 0;
    for (int i = 0; i < trees; i++) at = put(at, ONE_TABLE, sizeof ONE_TABLE);
    /* the last grouping takes what is left, 3 bytes at least */
    while (length - at >= sizeof UNIT + 3) at = put(at, UNIT, sizeof UNIT);
    memset(string + at, 0, length - at);
    string[at] = 4;
    string[at + 1] = (uint8_t)(length - at - 3);
}

static double time_calls(checker *check, size_t length, long calls) {
    /* read anew at each call, so that no call is taken out of the loop */
    checker *volatile anew = check;
    double start = now_ns();
    for (long i = 0; i < calls; i++) anew(string, length);
    return now_ns() - start;
}

/* The best round's nanoseconds a byte. */
static double measure(checker *check, size_t length) {
    long calls = 1;
    while (time_calls(check, length, calls) < ROUND_MS * 1e6) calls *= 2;
    double best = time_calls(check, length, calls);
    for (int i = 1; i < ROUNDS; i++) {
        double round = time_calls(check, length, calls);
        if (round < best) best = round;
    }
    return best / (double)calls / (double)length;
}

static void row(const char *input, size_t length, uint32_t expected) {
    uint32_t number = firuvanta_check(string, length);
    if (number != expected || reader_check(string, length) != (expected == FIRUVANTA_NO_PLAN)) {
        printf("%s: %u was expected of both, the check gives %u\n", input, (unsigned)expected, (unsigned)number);
        exit(1);
    }
    double check = measure(firuvanta_check, length), reader = measure(reader_check, length);
    printf("| %-26s | %7zu | %6u | %6.3f | %8.3f | %5.1f |\n", input, length, (unsigned)number, check, reader, check / reader);
}

static void long_rows(const char *input, int trees, uint32_t expected) {
    static const struct {
        const char *size;
        size_t length;
    } sizes[] = {{"1 KiB", 1 << 10}, {"32 KiB", 1 << 15}, {"1 MiB", 1 << 20}};
    for (size_t i = 0; i < sizeof sizes / sizeof *sizes; i++) {
        char name[64];
        snprintf(name, sizeof name, "%s, %s", input, sizes[i].size);
        build(sizes[i].length, trees);
        row(name, sizes[i].length, expected);
    }
}

int main(void) {
    printf("input:    long strings repeat plan A's table, full join and grouping, %zu bytes\n", sizeof UNIT);
    printf("unit:     nanoseconds of processor time a byte, the best of %d rounds of %d ms or more\n\n", ROUNDS, ROUND_MS);
    puts("| input                      |   bytes | number |  check | C reader | ratio |");
    puts("|----------------------------|--------:|-------:|-------:|---------:|------:|");
    put(0, TWELVE_NODES, sizeof TWELVE_NODES);
    row("12 nodes, passes", sizeof TWELVE_NODES, FIRUVANTA_PASS);
    long_rows("two trees left", 2, FIRUVANTA_NO_PLAN);
    long_rows("too many nodes", 1, FIRUVANTA_LIMITS);
    return 0;
}

/* Refusal 1 by hand, as a host in C would write it without the library: the measure that the check is held against. */
#ifndef READER_H
#define READER_H

#include <stddef.h>
#include <stdint.h>

/* 0 where the string is the arrangement of a tree of known nodes (docs/ARRANGEMENT.md), else 1. */
uint32_t reader_check(const uint8_t *plan, size_t length);

#endif

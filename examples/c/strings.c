// Lengths of texts, comparisons of two (1, 0, or -1 as 2^64 - 1), and a number read from digits.
#include "cells.h"

CELL(length);
CELL(order);
CELL(number);
static const char *const words[6] = {"fault", "faults", "", "tolerant", "tolerance", "fault"};
static const char digits[] = "18446744073709551615";

static uint32_t length_of(const char *text) {
  uint32_t count = 0;
  while (text[count])
    count++;
  return count;
}

static int compare(const char *a, const char *b) {
  while (*a && *a == *b)
    a++, b++;
  return (*a > *b) - (*a < *b);
}

ENTRY {
  for (int i = 0; i < 6; i++)
    PUT(length, length_of(words[i]));
  for (int i = 0; i < 6; i++)
    PUT(order, (int64_t)compare(words[i], words[(i + 1) % 6]));
  uint64_t value = 0;
  for (const char *digit = digits; *digit; digit++)
    value = value * 10 + (uint64_t)(*digit - '0');
  PUT(number, value);
}

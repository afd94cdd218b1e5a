// Quotients and remainders of signed and unsigned words of 32 and 64 bits, and greatest common divisors.
#include "cells.h"

CELL(quotient);
CELL(rest);
CELL(divisor);
static volatile uint64_t numbers[4] = {UINT64_MAX, 12345000086415, 5, 0x8000000000000000};
static volatile int64_t parts[4] = {-3, 12345, 1 << 20, INT64_MAX};

static uint32_t common(uint32_t a, uint32_t b) {
  while (b) {
    uint32_t left = a % b;
    a = b;
    b = left;
  }
  return a;
}

ENTRY {
  for (int i = 0; i < 4; i++) {
    uint64_t a = numbers[i], b = (uint64_t)parts[i];
    PUT(quotient, a / b);
    PUT(rest, a % b);
    PUT(quotient, (int64_t)a / (int64_t)b);
    PUT(rest, (int64_t)a % (int64_t)b);
    PUT(quotient, (uint32_t)a / (uint32_t)b);
    PUT(rest, (uint32_t)a % (uint32_t)b);
    PUT(quotient, (int64_t)((int32_t)((uint32_t)a >> 1) / (int32_t)b));
    PUT(rest, (int64_t)((int32_t)a % 10));
  }
  for (uint32_t i = 1; i < 8; i++)
    PUT(divisor, common(i * 360, 84 * (9 - i)));
}

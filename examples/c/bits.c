// Bit counts, rotations, and unaligned numbers of 1 to 8 bytes.
#include "cells.h"

CELL(counts);
CELL(turned);
CELL(packed);
static volatile uint64_t words[5] = {0, 1, 0x8000000000000000, 0x0123456789ABCDEF, 0xFFFFFFFF00000000};
static struct __attribute__((packed)) { uint8_t a; uint32_t b; uint16_t c; uint64_t d; } record;

ENTRY {
  for (int i = 0; i < 5; i++) {
    uint64_t word = words[i];
    PUT(counts, __builtin_popcountll(word) + 100 * __builtin_popcount((uint32_t)word));
    if (word)
      PUT(counts, __builtin_clzll(word) + 100 * __builtin_ctzll(word));
    PUT(turned, word << (i * 13 & 63) | word >> (-(i * 13) & 63));
    PUT(turned, (uint32_t)((uint32_t)word << (i * 7 & 31) | (uint32_t)word >> (-(i * 7) & 31)));
    PUT(turned, (int64_t)word >> (i * 11 & 63));
    record.a = word, record.b = word >> 3, record.c = word >> 5, record.d = word * 3;
    const volatile uint8_t *bytes = (const volatile uint8_t *)&record;
    PUT(packed, record.a + record.b + record.c + record.d);
    PUT(packed, bytes[i * 3] * 256 + bytes[14 - i]);
  }
}

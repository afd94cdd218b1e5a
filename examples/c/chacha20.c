// The block function of ChaCha20 (RFC 8439, section 2.3.2). Each `stream` line holds 8 bytes, least significant first.
#include "cells.h"

CELL(stream);
static const uint32_t start[16] = {0x61707865, 0x3320646e, 0x79622d32, 0x6b206574, 0x03020100, 0x07060504,
                                   0x0b0a0908, 0x0f0e0d0c, 0x13121110, 0x17161514, 0x1b1a1918, 0x1f1e1d1c,
                                   0x00000001, 0x09000000, 0x4a000000, 0x00000000};

static uint32_t turned(uint32_t word, int by) { return word << by | word >> (32 - by); }

static void quarter(uint32_t *a, uint32_t *b, uint32_t *c, uint32_t *d) {
  *a += *b, *d = turned(*d ^ *a, 16);
  *c += *d, *b = turned(*b ^ *c, 12);
  *a += *b, *d = turned(*d ^ *a, 8);
  *c += *d, *b = turned(*b ^ *c, 7);
}

ENTRY {
  uint32_t x[16];
  for (int i = 0; i < 16; i++)
    x[i] = start[i];
  for (int round = 0; round < 10; round++) {
    for (int i = 0; i < 4; i++)
      quarter(&x[i], &x[4 + i], &x[8 + i], &x[12 + i]);
    for (int i = 0; i < 4; i++)
      quarter(&x[i], &x[4 + (i + 1) % 4], &x[8 + (i + 2) % 4], &x[12 + (i + 3) % 4]);
  }
  for (int i = 0; i < 16; i += 2)
    PUT(stream, (uint64_t)(x[i + 1] + start[i + 1]) << 32 | (uint32_t)(x[i] + start[i]));
}

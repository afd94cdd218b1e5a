// CRC-32 of the first 1 to 9 bytes of "123456789", a bit at a time. The last line is the check value 0xCBF43926.
#include "cells.h"

CELL(crc);
static const char text[] = "123456789";

static uint32_t checksum(const char *bytes, unsigned length) {
  uint32_t rest = 0xFFFFFFFF;
  while (length--) {
    rest ^= (uint8_t)*bytes++;
    for (int bit = 0; bit < 8; bit++)
      rest = rest >> 1 ^ (rest & 1 ? 0xEDB88320 : 0);
  }
  return ~rest;
}

ENTRY {
  for (unsigned length = 1; length <= 9; length++)
    PUT(crc, checksum(text, length));
}

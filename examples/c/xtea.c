// XTEA with 32 rounds: the block "ABCDEFGH" under the key 00 01 .. 0f, encrypted and decrypted.
#include "cells.h"

CELL(block);
static const uint32_t key[4] = {0x00010203, 0x04050607, 0x08090a0b, 0x0c0d0e0f};
static volatile uint32_t plain[2] = {0x41424344, 0x45464748};

static uint32_t mixed(uint32_t half, uint32_t sum, int which) {
  return ((half << 4 ^ half >> 5) + half) ^ (sum + key[which & 3]);
}

ENTRY {
  uint32_t left = plain[0], right = plain[1], sum = 0, golden = 0x9E3779B9;
  for (int round = 0; round < 32; round++) {
    left += mixed(right, sum, sum);
    sum += golden;
    right += mixed(left, sum, sum >> 11);
  }
  PUT(block, (uint64_t)left << 32 | right);
  for (int round = 0; round < 32; round++) {
    right -= mixed(left, sum, sum >> 11);
    sum -= golden;
    left -= mixed(right, sum, sum);
  }
  PUT(block, (uint64_t)left << 32 | right);
}

// SHA3-256 (FIPS 202) of "abc". The four `digest` lines are its 32 bytes, 8 in each, least significant byte first.
#include "cells.h"

CELL(digest);
static uint64_t state[25] = {0x0000000006636261, [16] = 0x8000000000000000};
static const uint64_t constants[24] = {
  0x0000000000000001, 0x0000000000008082, 0x800000000000808a, 0x8000000080008000,
  0x000000000000808b, 0x0000000080000001, 0x8000000080008081, 0x8000000000008009,
  0x000000000000008a, 0x0000000000000088, 0x0000000080008009, 0x000000008000000a,
  0x000000008000808b, 0x800000000000008b, 0x8000000000008089, 0x8000000000008003,
  0x8000000000008002, 0x8000000000000080, 0x000000000000800a, 0x800000008000000a,
  0x8000000080008081, 0x8000000000008080, 0x0000000080000001, 0x8000000080008008};
static const uint8_t lanes[24] = {10, 7,  11, 17, 18, 3, 5,  16, 8,  21, 24, 4,
                                  15, 23, 19, 13, 12, 2, 20, 14, 22, 9,  6,  1};
static const uint8_t turns[24] = {1,  3,  6,  10, 15, 21, 28, 36, 45, 55, 2,  14,
                                  27, 41, 56, 8,  25, 43, 62, 18, 39, 61, 20, 44};

static uint64_t turned(uint64_t word, int by) { return word << by | word >> (64 - by); }

static void mix_columns(void) {
  uint64_t sums[5];
  for (int x = 0; x < 5; x++)
    sums[x] = state[x] ^ state[x + 5] ^ state[x + 10] ^ state[x + 15] ^ state[x + 20];
  for (int x = 0; x < 5; x++) {
    uint64_t change = sums[(x + 4) % 5] ^ turned(sums[(x + 1) % 5], 1);
    for (int y = 0; y < 25; y += 5)
      state[x + y] ^= change;
  }
}

static void turn_and_move(void) {
  uint64_t moved = state[1];
  for (int i = 0; i < 24; i++) {
    uint64_t next = state[lanes[i]];
    state[lanes[i]] = turned(moved, turns[i]);
    moved = next;
  }
}

static void mix_rows(void) {
  for (int y = 0; y < 25; y += 5) {
    uint64_t first = state[y], second = state[y + 1];
    for (int x = 0; x < 3; x++)
      state[y + x] ^= ~state[y + x + 1] & state[y + x + 2];
    state[y + 3] ^= ~state[y + 4] & first;
    state[y + 4] ^= ~first & second;
  }
}

ENTRY {
  for (int round = 0; round < 24; round++) {
    mix_columns();
    turn_and_move();
    mix_rows();
    state[0] ^= constants[round];
  }
  for (int i = 0; i < 4; i++)
    PUT(digest, state[i]);
}

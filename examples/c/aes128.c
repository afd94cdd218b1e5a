// AES-128 (FIPS 197, appendix C.1) of one block. The two `cipher` lines hold 8 bytes each, most significant byte first.
#include "cells.h"

CELL(cipher);
static uint8_t box[256], state[16], key[16];

static uint8_t doubled(uint8_t x) { return x << 1 ^ (x >> 7) * 0x1b; }
static uint8_t turned(uint8_t x, int by) { return x << by | x >> (8 - by); }

// The S-box, from the powers of 3 and of its inverse.
static void fill_box(void) {
  uint8_t power = 1, inverse = 1;
  do {
    power ^= doubled(power);
    inverse ^= inverse << 1;
    inverse ^= inverse << 2;
    inverse ^= inverse << 4;
    inverse ^= (inverse >> 7) * 0x09;
    box[power] = inverse ^ turned(inverse, 1) ^ turned(inverse, 2) ^ turned(inverse, 3) ^ turned(inverse, 4) ^ 0x63;
  } while (power != 1);
  box[0] = 0x63;
}

static void next_key(uint8_t constant) {
  for (int i = 0; i < 4; i++)
    key[i] ^= box[key[12 + (i + 1) % 4]];
  key[0] ^= constant;
  for (int i = 4; i < 16; i++)
    key[i] ^= key[i - 4];
}

static void one_round(int is_last) {
  uint8_t moved[16];
  for (int i = 0; i < 16; i++)
    moved[i] = box[state[(i + 4 * (i % 4)) % 16]];
  for (int i = 0; i < 16; i += 4) {
    uint8_t all = moved[i] ^ moved[i + 1] ^ moved[i + 2] ^ moved[i + 3];
    for (int j = 0; j < 4; j++) {
      uint8_t mixed = moved[i + j] ^ all ^ doubled(moved[i + j] ^ moved[i + (j + 1) % 4]);
      state[i + j] = (is_last ? moved[i + j] : mixed) ^ key[i + j];
    }
  }
}

ENTRY {
  fill_box();
  for (int i = 0; i < 16; i++) {
    key[i] = i;
    state[i] = 0x11 * i ^ key[i];
  }
  uint8_t constant = 1;
  for (int round = 1; round <= 10; round++) {
    next_key(constant);
    one_round(round == 10);
    constant = doubled(constant);
  }
  for (int i = 0; i < 16; i += 8) {
    uint64_t word = 0;
    for (int j = 0; j < 8; j++)
      word = word << 8 | state[i + j];
    PUT(cipher, word);
  }
}

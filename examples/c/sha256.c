// SHA-256 (FIPS 180-4) of "abc". The four `digest` lines are its 32 bytes, 8 in each, most significant byte first.
#include "cells.h"

CELL(digest);
static const uint8_t message[] = {'a', 'b', 'c'};
static uint8_t block[64];
static uint32_t schedule[64];
static const uint32_t constants[64] = {
  0x428a2f98, 0x71374491, 0xb5c0fbcf, 0xe9b5dba5, 0x3956c25b, 0x59f111f1, 0x923f82a4, 0xab1c5ed5,
  0xd807aa98, 0x12835b01, 0x243185be, 0x550c7dc3, 0x72be5d74, 0x80deb1fe, 0x9bdc06a7, 0xc19bf174,
  0xe49b69c1, 0xefbe4786, 0x0fc19dc6, 0x240ca1cc, 0x2de92c6f, 0x4a7484aa, 0x5cb0a9dc, 0x76f988da,
  0x983e5152, 0xa831c66d, 0xb00327c8, 0xbf597fc7, 0xc6e00bf3, 0xd5a79147, 0x06ca6351, 0x14292967,
  0x27b70a85, 0x2e1b2138, 0x4d2c6dfc, 0x53380d13, 0x650a7354, 0x766a0abb, 0x81c2c92e, 0x92722c85,
  0xa2bfe8a1, 0xa81a664b, 0xc24b8b70, 0xc76c51a3, 0xd192e819, 0xd6990624, 0xf40e3585, 0x106aa070,
  0x19a4c116, 0x1e376c08, 0x2748774c, 0x34b0bcb5, 0x391c0cb3, 0x4ed8aa4a, 0x5b9cca4f, 0x682e6ff3,
  0x748f82ee, 0x78a5636f, 0x84c87814, 0x8cc70208, 0x90befffa, 0xa4506ceb, 0xbef9a3f7, 0xc67178f2};

static uint32_t turned(uint32_t word, int by) { return word >> by | word << (32 - by); }

static void pad(void) {
  for (unsigned i = 0; i < sizeof message; i++)
    block[i] = message[i];
  block[sizeof message] = 0x80;
  block[63] = 8 * sizeof message;
}

static void expand(void) {
  for (int i = 0; i < 16; i++)
    schedule[i] = (uint32_t)block[4 * i] << 24 | block[4 * i + 1] << 16 | block[4 * i + 2] << 8 | block[4 * i + 3];
  for (int i = 16; i < 64; i++) {
    uint32_t early = schedule[i - 15], late = schedule[i - 2];
    schedule[i] = schedule[i - 16] + (turned(early, 7) ^ turned(early, 18) ^ early >> 3) + schedule[i - 7] +
                  (turned(late, 17) ^ turned(late, 19) ^ late >> 10);
  }
}

ENTRY {
  pad();
  expand();
  uint32_t a = 0x6a09e667, b = 0xbb67ae85, c = 0x3c6ef372, d = 0xa54ff53a;
  uint32_t e = 0x510e527f, f = 0x9b05688c, g = 0x1f83d9ab, h = 0x5be0cd19;
  for (int i = 0; i < 64; i++) {
    uint32_t first = h + (turned(e, 6) ^ turned(e, 11) ^ turned(e, 25)) + ((e & f) ^ (~e & g)) + constants[i] +
                     schedule[i];
    uint32_t second = (turned(a, 2) ^ turned(a, 13) ^ turned(a, 22)) + ((a & b) ^ (a & c) ^ (b & c));
    h = g, g = f, f = e, e = d + first;
    d = c, c = b, b = a, a = first + second;
  }
  PUT(digest, (uint64_t)(a + 0x6a09e667) << 32 | (uint32_t)(b + 0xbb67ae85));
  PUT(digest, (uint64_t)(c + 0x3c6ef372) << 32 | (uint32_t)(d + 0xa54ff53a));
  PUT(digest, (uint64_t)(e + 0x510e527f) << 32 | (uint32_t)(f + 0x9b05688c));
  PUT(digest, (uint64_t)(g + 0x1f83d9ab) << 32 | (uint32_t)(h + 0x5be0cd19));
}

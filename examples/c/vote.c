// Two out of three: each bit is the majority of three sensors; `disagree` marks the words on which one was wrong.
#include "cells.h"

CELL(voted);
CELL(disagree);
static volatile uint32_t one[8] = {1, 2, 3, 4, 5, 6, 7, 8};
static volatile uint32_t two[8] = {1, 2, 9, 4, 5, 6, 7, 8};
static volatile uint32_t three[8] = {1, 7, 3, 4, 5, 0, 7, 0};

ENTRY {
  uint32_t wrong = 0;
  for (int i = 0; i < 8; i++) {
    uint32_t a = one[i], b = two[i], c = three[i];
    PUT(voted, (a & b) | (a & c) | (b & c));
    if (a != b || b != c)
      wrong |= 1u << i;
  }
  PUT(disagree, wrong);
}

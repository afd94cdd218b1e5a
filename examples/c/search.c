// Binary search in the squares of 1 to 32: the index from 0, or -1, which a cell holds as 2^64 - 1.
#include "cells.h"

CELL(place);
static const uint16_t squares[32] = {1,   4,   9,   16,  25,  36,  49,  64,  81,  100, 121, 144, 169, 196, 225,  256,
                                     289, 324, 361, 400, 441, 484, 529, 576, 625, 676, 729, 784, 841, 900, 961, 1024};

static int32_t search(uint32_t wanted) {
  int32_t low = 0, high = 31;
  while (low <= high) {
    int32_t middle = (low + high) / 2;
    if (squares[middle] == wanted)
      return middle;
    if (squares[middle] < wanted)
      low = middle + 1;
    else
      high = middle - 1;
  }
  return -1;
}

ENTRY {
  for (uint32_t number = 0; number < 1100; number += 49)
    PUT(place, (int64_t)search(number));
  PUT(place, (int64_t)search(1024));
}

// The product of two matrices of 4 by 4 words, row by row.
#include "cells.h"

CELL(element);
static const int32_t left[4][4] = {{1, -2, 3, 4}, {5, 6, -7, 8}, {9, 10, 11, -12}, {-13, 14, 15, 16}};
static const int32_t right[4][4] = {{2, 0, 1, -1}, {3, 5, 7, 9}, {-2, 4, -6, 8}, {1, 1, 2, 3}};

ENTRY {
  for (int i = 0; i < 4; i++)
    for (int j = 0; j < 4; j++) {
      int64_t sum = 0;
      for (int k = 0; k < 4; k++)
        sum += (int64_t)left[i][k] * right[k][j];
      PUT(element, sum);
    }
}

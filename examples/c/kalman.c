// A scalar Kalman filter in fixed point (20 fraction bits), with a division in each step.
#include "cells.h"

CELL(gain);
CELL(estimate);
static const int32_t measured[12] = {1049000, 1100000, 990000,  1060000, 1020000, 1048576,
                                     1200000, 900000,  1048000, 1049999, 1030000, 1070000};

ENTRY {
  const int64_t of_process = 1 << 10, of_sensor = 1 << 17;
  int64_t state = 0, variance = 1 << 20;
  for (int i = 0; i < 12; i++) {
    variance += of_process;
    int64_t share = (variance << 20) / (variance + of_sensor);
    state += share * (measured[i] - state) >> 20;
    variance = ((1 << 20) - share) * variance >> 20;
    PUT(gain, share);
    PUT(estimate, state);
  }
}

// One cycle of a PID controller in fixed point (16 fraction bits). Cells keep the state for the next cycle.
#include "cells.h"

CELL(goal);
CELL(measured);
CELL(sum);
CELL(last);
CELL(force);

static int64_t product(int64_t a, int64_t b) { return a * b >> 16; }
static int64_t within(int64_t x, int64_t most) { return x < -most ? -most : x > most ? most : x; }

ENTRY {
  int64_t error = (int64_t)(goal - measured);
  int64_t change = error - (int64_t)last;
  PUT(sum, within((int64_t)sum + error, 50 << 16));
  PUT(last, error);
  PUT(force, within(product(0x18000, error) + product(0x2000, (int64_t)sum) + product(0x8000, change), 8 << 16));
}

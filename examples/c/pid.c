// A PID controller in fixed point (16 fraction bits) that moves a heavy body to position 10 in 40 cycles.
#include "cells.h"

CELL(actuator);
CELL(position);

static int32_t product(int32_t a, int32_t b) { return (int32_t)((int64_t)a * b >> 16); }
static int32_t within(int32_t x, int32_t most) { return x < -most ? -most : x > most ? most : x; }

ENTRY {
  const int32_t of_error = 0x18000, of_sum = 0x2000, of_change = 0x8000, goal = 10 << 16;
  int32_t place = 0, speed = 0, sum = 0, last = 0;
  for (int cycle = 0; cycle < 40; cycle++) {
    int32_t error = goal - place;
    sum = within(sum + error, 50 << 16);
    int32_t force = product(of_error, error) + product(of_sum, sum) + product(of_change, error - last);
    force = within(force, 8 << 16);
    last = error;
    speed += product(force - product(speed, 0xC000), 0x4000);
    place += speed >> 2;
    PUT(actuator, (int64_t)force);
    PUT(position, (int64_t)place);
  }
}

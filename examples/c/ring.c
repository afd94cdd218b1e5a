// A ring of the last 8 samples, with their mean, rounded down, and their peak after each new one.
#include "cells.h"

CELL(mean);
CELL(peak);
static uint16_t ring[8];
static uint32_t head, seed = 7;

static uint16_t sample(void) {
  seed = seed * 1103515245 + 12345;
  return seed >> 18;
}

ENTRY {
  for (int cycle = 0; cycle < 20; cycle++) {
    ring[head++ % 8] = sample();
    uint32_t sum = 0, most = 0;
    for (int i = 0; i < 8; i++) {
      sum += ring[i];
      most = ring[i] > most ? ring[i] : most;
    }
    PUT(mean, sum / 8);
    PUT(peak, most);
  }
}

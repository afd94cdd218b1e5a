// The results of more calls than there are registers: each is read at once, and again at the end.
#include "cells.h"

CELL(word) = 1;
CELL(now);
CELL(later);

#define EACH(X) X(0) X(1) X(2) X(3) X(4) X(5) X(6) X(7) X(8) X(9) X(10) X(11) X(12) X(13) X(14) X(15) X(16) X(17) \
  X(18) X(19) X(20) X(21) X(22) X(23) X(24) X(25) X(26) X(27) X(28) X(29) X(30) X(31) X(32) X(33)
#define FIRST(i) uint64_t x##i = mixed(word + i); PUT(now, x##i + 1);
#define LAST(i) PUT(later, x##i);

static __attribute__((noinline)) uint64_t mixed(uint64_t x) {
  x = (x ^ x >> 3) * 5;
  return (x ^ x << 7) + x;
}

ENTRY {
  EACH(FIRST)
  EACH(LAST)
#ifndef __wasm__
  return 0;
#endif
}

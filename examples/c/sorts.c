// Insertion sort, exchange sort and heap sort of words, each with its output.
#include "cells.h"

CELL(inserted);
CELL(exchanged);
CELL(heaped);
static int32_t first[16] = {5, -3, 99, 0, 12, 7, -40, 8, 8, 1, 1000, -1, 3, 2, 77, 6};
static int16_t second[10] = {9, -8, 7, -6, 5, -4, 3, -2, 1, 0};
static int64_t third[12] = {31, 41, 59, 26, 53, 58, 97, 93, 23, 84, 62, -64};

static void insertion(void) {
  for (int i = 1; i < 16; i++) {
    int32_t word = first[i];
    int at = i;
    for (; at > 0 && first[at - 1] > word; at--)
      first[at] = first[at - 1];
    first[at] = word;
  }
}

static void exchange(void) {
  for (int left = 9; left > 0; left--)
    for (int i = 0; i < left; i++)
      if (second[i] > second[i + 1]) {
        int16_t word = second[i];
        second[i] = second[i + 1];
        second[i + 1] = word;
      }
}

static void sink(int at, int length) {
  int64_t word = third[at];
  for (int child; (child = 2 * at + 1) < length; at = child) {
    if (child + 1 < length && third[child + 1] > third[child])
      child++;
    if (third[child] <= word)
      break;
    third[at] = third[child];
  }
  third[at] = word;
}

static void heap(void) {
  for (int at = 5; at >= 0; at--)
    sink(at, 12);
  for (int length = 11; length > 0; length--) {
    int64_t word = third[0];
    third[0] = third[length];
    third[length] = word;
    sink(0, length);
  }
}

ENTRY {
  insertion();
  exchange();
  heap();
  for (int i = 0; i < 16; i++)
    PUT(inserted, (int64_t)first[i]);
  for (int i = 0; i < 10; i++)
    PUT(exchanged, (int64_t)second[i]);
  for (int i = 0; i < 12; i++)
    PUT(heaped, third[i]);
}

// Cells for the examples: each PUT writes a line `NAME VALUE`, on talft's machine and on any other.
#ifndef CELLS_H
#define CELLS_H

#include <stdint.h>

#ifdef __wasm__
// A word of 8 bytes at an address of its own, so that its cell gets its name; volatile, so that each store is kept.
#define CELL(name) volatile uint64_t name __attribute__((aligned(8)))
#define PUT(name, value) ((name) = (uint64_t)(value))
#define ENTRY void run(void)
#else
#include <inttypes.h>
#include <stdio.h>
#define CELL(name) volatile uint64_t name
#define PUT(name, value) ((name) = (uint64_t)(value), (void)printf(#name " %" PRIu64 "\n", name))
#define ENTRY int main(void)
#endif

#endif

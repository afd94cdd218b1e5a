/* Makes allocation number $FAIL_AT fail, counted from 1, and writes how many there were to the file $COUNT_TO. It is
   loaded before the C library. */
#define _GNU_SOURCE
#include <dlfcn.h>
#include <stddef.h>
#include <stdio.h>
#include <stdlib.h>

static unsigned long count;
static unsigned long fail_at;

__attribute__((constructor)) static void begin(void) {
  const char *number = getenv("FAIL_AT");
  fail_at = number ? strtoul(number, NULL, 10) : 0;
  count = 0;
}

__attribute__((destructor)) static void end(void) {
  const char *name = getenv("COUNT_TO");
  unsigned long total = count;
  FILE *file = name ? fopen(name, "w") : NULL;
  if (file) {
    fprintf(file, "%lu\n", total);
    fclose(file);
  }
}

static int fails(void) { return ++count == fail_at; }

void *malloc(size_t size) {
  static void *(*next)(size_t);
  if (!next) next = (void *(*)(size_t))dlsym(RTLD_NEXT, "malloc");
  return fails() ? NULL : next(size);
}

void *realloc(void *old, size_t size) {
  static void *(*next)(void *, size_t);
  if (!next) next = (void *(*)(void *, size_t))dlsym(RTLD_NEXT, "realloc");
  return fails() ? NULL : next(old, size);
}

void *aligned_alloc(size_t alignment, size_t size) {
  static void *(*next)(size_t, size_t);
  if (!next) next = (void *(*)(size_t, size_t))dlsym(RTLD_NEXT, "aligned_alloc");
  return fails() ? NULL : next(alignment, size);
}

int posix_memalign(void **place, size_t alignment, size_t size) {
  static int (*next)(void **, size_t, size_t);
  if (!next) next = (int (*)(void **, size_t, size_t))dlsym(RTLD_NEXT, "posix_memalign");
  return fails() ? 12 : next(place, alignment, size);
}

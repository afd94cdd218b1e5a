/* Makes writes to standard output unreliable. Every other write is interrupted by a signal, and the rest take at most
   $TAKES bytes each. After $ROOM bytes, writes fail as on a full disk; without ROOM there is room for all. It is loaded
   before the C library. */
#define _GNU_SOURCE
#include <errno.h>
#include <stdlib.h>
#include <sys/syscall.h>
#include <unistd.h>

static unsigned long number_of(const char *name, unsigned long otherwise) {
  const char *value = getenv(name);
  return value ? strtoul(value, NULL, 10) : otherwise;
}

ssize_t write(int file, const void *bytes, size_t count) {
  static unsigned long written;
  static int is_interrupted;
  if (file != STDOUT_FILENO) return syscall(SYS_write, file, bytes, count);
  is_interrupted = !is_interrupted;
  if (is_interrupted) {
    errno = EINTR;
    return -1;
  }
  unsigned long room = number_of("ROOM", -1UL) - written;
  unsigned long takes = number_of("TAKES", -1UL);
  if (room == 0) {
    errno = ENOSPC;
    return -1;
  }
  if (count > takes) count = takes;
  if (count > room) count = room;
  ssize_t done = syscall(SYS_write, file, bytes, count);
  if (done > 0) written += done;
  return done;
}

// The functions that clang may call on its own: they move and compare bytes. A program's own versions replace them.
#define WEAK __attribute__((weak))
typedef __SIZE_TYPE__ size;

WEAK void *memcpy(void *restrict to, const void *restrict from, size count) {
  for (size i = 0; i < count; i++)
    ((char *)to)[i] = ((const char *)from)[i];
  return to;
}

WEAK void *memmove(void *to, const void *from, size count) {
  if (to <= from)
    for (size i = 0; i < count; i++)
      ((char *)to)[i] = ((const char *)from)[i];
  else
    while (count--)
      ((char *)to)[count] = ((const char *)from)[count];
  return to;
}

WEAK void *memset(void *to, int byte, size count) {
  for (size i = 0; i < count; i++)
    ((char *)to)[i] = (char)byte;
  return to;
}

WEAK int memcmp(const void *one, const void *other, size count) {
  for (size i = 0; i < count; i++) {
    int difference = ((const unsigned char *)one)[i] - ((const unsigned char *)other)[i];
    if (difference)
      return difference;
  }
  return 0;
}

WEAK size strlen(const char *text) {
  size length = 0;
  while (text[length])
    length++;
  return length;
}

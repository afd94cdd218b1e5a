/* The C functions that the program talft needs besides heap.c and the C library, for a processor for which the kit has
 * no C code. They follow the declarations in the kit's crate os. */
#include <errno.h>
#include <stddef.h>
#include <stdint.h>
#include <stdlib.h>

extern char **environ;

ptrdiff_t rattle_arg(size_t i, uint8_t *buf, size_t room);
ptrdiff_t rattle_env(const char *name, uint8_t *buf, size_t room);
ptrdiff_t rattle_env_at(size_t i, uint8_t *buf, size_t room);
int32_t rattle_errno(void);
void rattle_set_errno(int32_t error);

static int count;
static char **words;

/* The GNU C library passes a program's arguments to each constructor; others need not. */
__attribute__((constructor)) static void keep(int argc, char **argv)
{
    count = argc;
    words = argv;
}

/* Copies a text into a buffer. Returns its length, -1 if there is no text, or -2 if it is longer than the buffer. */
static ptrdiff_t put(const char *text, uint8_t *buf, size_t room)
{
    size_t at = 0;

    if (text == NULL)
        return -1;
    for (; text[at] != '\0'; at++) {
        if (at == room)
            return -2;
        buf[at] = (uint8_t)text[at];
    }
    return (ptrdiff_t)at;
}

ptrdiff_t rattle_arg(size_t i, uint8_t *buf, size_t room)
{
    return put(i < (size_t)count ? words[i] : NULL, buf, room);
}

ptrdiff_t rattle_env(const char *name, uint8_t *buf, size_t room)
{
    return put(getenv(name), buf, room);
}

ptrdiff_t rattle_env_at(size_t i, uint8_t *buf, size_t room)
{
    size_t at = 0;

    while (environ != NULL && environ[at] != NULL && at < i)
        at++;
    return put(environ != NULL ? environ[at] : NULL, buf, room);
}

int32_t rattle_errno(void)
{
    return errno;
}

void rattle_set_errno(int32_t error)
{
    errno = error;
}

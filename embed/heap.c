/* The memory that the library takes from the C library. arena.c may replace this file. */
#include "rattle.h"

#include <stdlib.h>

/* Its address stands in for a block when malloc fails. Nothing reads or writes it. */
static char nothing[16];

/* The result of an allocation for which malloc or realloc returned p. A request for 0 bytes gets a block, too. */
static struct tried told(void *p)
{
    struct tried tried = {p != NULL, p != NULL ? p : nothing};
    return tried;
}

struct tried rattle_alloc(size_t n, size_t align)
{
    return told(malloc(n != 0 ? n : align));
}

struct tried rattle_realloc(void *p, size_t kept, size_t n, size_t align)
{
    (void)kept;
    return told(realloc(p, n != 0 ? n : align));
}

void rattle_dealloc(void *p)
{
    free(p);
}

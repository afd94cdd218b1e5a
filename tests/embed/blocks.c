/*
 * Allocates, resizes and frees blocks at random with embed/arena.c. Checks that each block is aligned, keeps its bytes, and
 * shares none with another block or with what is outside the arena; that memory is refused only if no gap has a sixteenth
 * more than what is asked; and that all of it is one free block again at the end.
 *
 *     blocks TURNS SEED
 *     blocks many COUNT      so many blocks that a search through them would take minutes
 */
#include "rattle.h"
#include "talft.h"

#include <stdio.h>
#include <stdlib.h>
#include <string.h>

enum { SIZE = 1 << 20, EDGE = 64, MOST = 500 };

static unsigned char arena[SIZE + 2 * EDGE];
static struct { unsigned char *at; size_t size; unsigned char filled; } blocks[MOST];
static unsigned long long state;

static size_t below(size_t bound)
{
    state = state * 6364136223846793005ULL + 1442695040888963407ULL;
    return (size_t)(state >> 33) % bound;
}

static int failed(const char *what)
{
    printf("%s\n", what);
    return 1;
}

static int holds(size_t i, size_t count)
{
    for (size_t k = 0; k < count; k++)
        if (blocks[i].at[k] != blocks[i].filled)
            return 0;
    return 1;
}

static void fill(size_t i, unsigned char with)
{
    memset(blocks[i].at, with, blocks[i].size);
    blocks[i].filled = with;
}

/* The largest distance from the arena's beginning, or a block's end, to the next block, or the arena's end. */
static size_t largest_gap(void)
{
    size_t largest = 0;

    for (size_t i = 0; i <= MOST; i++) {
        const unsigned char *from = i == MOST ? arena + EDGE : blocks[i].at + blocks[i].size, *to = arena + EDGE + SIZE;

        if (i < MOST && blocks[i].at == NULL)
            continue;
        for (size_t k = 0; k < MOST; k++)
            if (blocks[k].at != NULL && blocks[k].at >= from && blocks[k].at < to)
                to = blocks[k].at;
        if ((size_t)(to - from) > largest)
            largest = (size_t)(to - from);
    }
    return largest;
}

/* Allocates block i, or resizes it. Returns what is wrong. */
static const char *turn(size_t i)
{
    size_t size = below(4) ? below(300) : below(30000), kept = blocks[i].size < size ? blocks[i].size : size;
    struct tried got = blocks[i].at == NULL ? rattle_alloc(size, 16) : rattle_realloc(blocks[i].at, kept, size, 16);

    if (!got.ok)
        return largest_gap() > size + size / 16 + 4 * 16 ? "memory is refused although a gap is large enough" : NULL;
    if ((size_t)got.p % 16 != 0)
        return "a block is not aligned";
    if ((unsigned char *)got.p < arena + EDGE || (unsigned char *)got.p + size > arena + EDGE + SIZE)
        return "a block is outside the arena";
    if (blocks[i].at != NULL) {
        blocks[i].at = got.p;
        if (!holds(i, kept))
            return "bytes are lost when a block moves";
    }
    blocks[i].at = got.p;
    blocks[i].size = size;
    fill(i, (unsigned char)below(256));
    return NULL;
}

/* Allocates small blocks, frees every second of them, and allocates larger ones, which fit into none of the gaps. */
static int many(size_t count)
{
    size_t size = count * 160;
    unsigned char *memory = malloc(size);
    void **small = malloc(count * sizeof *small);

    if (memory == NULL || small == NULL)
        return failed("there is no memory for the arena");
    talft_arena(memory, size);
    for (size_t i = 0; i < count; i++) {
        struct tried got = rattle_alloc(32, 16);

        if (!got.ok)
            return failed("a small block is refused");
        small[i] = got.p;
    }
    for (size_t i = 0; i < count; i += 2)
        rattle_dealloc(small[i]);
    for (size_t i = 0; i < count / 2; i++)
        if (!rattle_alloc(64, 16).ok)
            return failed("a larger block is refused");
    puts("all blocks are right");
    free(small);
    free(memory);
    return 0;
}

int main(int argc, char **argv)
{
    long turns = argc > 1 ? atol(argv[1]) : 1000;
    size_t taken = 0;

    if (argc == 3 && strcmp(argv[1], "many") == 0)
        return many(strtoull(argv[2], NULL, 10));
    state = argc > 2 ? strtoull(argv[2], NULL, 10) : 1;
    memset(arena, 0xA5, sizeof arena);
    /* An arena that is too small has no block. */
    talft_arena(arena + EDGE, 31);
    if (rattle_alloc(0, 16).ok)
        return failed("a block in no memory");
    talft_arena(arena + EDGE, SIZE);
    while (turns-- > 0) {
        size_t i = below(MOST);
        const char *wrong = NULL;

        if (blocks[i].at != NULL && !holds(i, blocks[i].size))
            return failed("another block has written over this one");
        taken -= blocks[i].size;
        if (blocks[i].at != NULL && below(3) == 0) {
            rattle_dealloc(blocks[i].at);
            blocks[i].at = NULL;
            blocks[i].size = 0;
        } else {
            wrong = turn(i);
        }
        taken += blocks[i].size;
        if (wrong != NULL)
            return failed(wrong);
        if (talft_arena_most() < taken || talft_arena_most() > SIZE)
            return failed("the most bytes that were taken");
    }
    for (size_t i = 0; i < MOST; i++) {
        if (blocks[i].at != NULL) {
            if (!holds(i, blocks[i].size))
                return failed("another block has written over this one");
            rattle_dealloc(blocks[i].at);
        }
    }
    for (size_t k = 0; k < EDGE; k++)
        if (arena[k] != 0xA5 || arena[EDGE + SIZE + k] != 0xA5)
            return failed("a byte outside the arena is changed");
    if (!rattle_alloc(SIZE - 16, 16).ok)
        return failed("the memory is not one free block again");
    puts("all blocks are right");
    return 0;
}

/* An on-board loader: it reads, checks and runs an object, or says why it is refused. It prints what the commands
 * `talft check` and `talft run` print, and exits with their status. docs/EMBEDDING.md explains how to build it.
 *
 *     loader FILE [STEPS [FAULT [WILD]]]    - for FILE reads standard input; FAULT and WILD as in `talft run`
 *     loader --damaged FILE                 checks the object with each of its bits flipped, one at a time
 */
#include "talft.h"

#include <inttypes.h>
#include <stdio.h>
#include <stdlib.h>
#include <string.h>

enum { MOST = 67108864, ROOM = 256 };

/* The file's bytes, at most MOST + 1 of them, or NULL. */
static uint8_t *read_all(const char *name, size_t *len)
{
    FILE *file = strcmp(name, "-") == 0 ? stdin : fopen(name, "rb");
    size_t room = 4096, have = 0;
    uint8_t *bytes = file != NULL ? malloc(room) : NULL;

    while (bytes != NULL) {
        size_t got = fread(bytes + have, 1, room - have, file);
        have += got;
        if (got == 0 || have > MOST)
            break;
        if (have == room) {
            uint8_t *more = realloc(bytes, 2 * room);
            if (more == NULL) {
                free(bytes);
                bytes = NULL;
            } else {
                bytes = more;
                room *= 2;
            }
        }
    }
    if (bytes != NULL && ferror(file)) {
        free(bytes);
        bytes = NULL;
    }
    if (file != NULL && file != stdin)
        fclose(file);
    *len = have;
    return bytes;
}

/* Prints the line of a refusal. */
static void tell(const talft_refusal *why)
{
    switch (why->part) {
    case 1:
        printf("object %" PRIu32 " %" PRIu64 "\n", why->number, why->place);
        break;
    case 2:
        printf("check entry\n");
        break;
    case 3:
        printf("check cell %" PRIu64 "\n", why->place);
        break;
    case 4:
        printf("check block %" PRIu64 " index %" PRIu64 " premise %" PRIu32 "\n", why->place, why->index, why->number);
        break;
    default:
        break;
    }
}

/* Prints the line of an output. */
static void put(const uint8_t *bytes, size_t len, const talft_output *output)
{
    uint8_t name[40] = {0};
    size_t made = 0;
    talft_refusal why = {0, 0, 0, 0};

    if (talft_name(bytes, len, (uint32_t)output->cell, name, sizeof name, &made, &why) == TALFT_OK)
        printf("%.*s %" PRIu64 "\n", (int)made, (const char *)name, output->value);
}

/* Checks the object with each bit flipped, one at a time. */
static int try_damaged(uint8_t *bytes, size_t len)
{
    size_t accepted = 0, malformed = 0, refused = 0;

    for (size_t at = 0; at < len; at++) {
        for (int bit = 0; bit < 8; bit++) {
            talft_refusal why = {0, 0, 0, 0};
            bytes[at] ^= (uint8_t)(1u << bit);
            switch (talft_check(bytes, len, &why)) {
            case TALFT_OK:
                accepted++;
                break;
            case TALFT_MALFORMED:
                malformed++;
                break;
            case TALFT_REFUSED:
                refused++;
                break;
            default:
                return TALFT_NO_MEMORY;
            }
            bytes[at] ^= (uint8_t)(1u << bit);
        }
    }
    printf("of %zu turned bits: %zu malformed, %zu refused, %zu make another accepted object\n", 8 * len, malformed,
           refused, accepted);
    return 0;
}

/* Runs an object with growing room for its outputs, until they fit. */
static int run(const uint8_t *bytes, size_t len, const char *fault, const char *wild, uint64_t steps)
{
    size_t room = ROOM;

    for (;;) {
        talft_output *outputs = calloc(room, sizeof *outputs);
        talft_ran ran = {0, 0, 0, 0};
        talft_refusal why = {0, 0, 0, 0};
        uint32_t status = TALFT_NO_MEMORY;

        if (outputs != NULL)
            status = talft_run(bytes, len, (const uint8_t *)fault, strlen(fault), (const uint8_t *)wild, strlen(wild),
                               steps, outputs, room, &ran, &why);
        if (status == TALFT_FULL && room < SIZE_MAX / 32) {
            free(outputs);
            room *= 2;
            continue;
        }
        if (status == TALFT_OK || status == TALFT_DETECTED || status == TALFT_CUT)
            for (uint64_t i = 0; i < ran.count; i++)
                put(bytes, len, &outputs[i]);
        else
            tell(&why);
        free(outputs);
        return (int)status;
    }
}

int main(int argc, char **argv)
{
    int damaged = argc == 3 && strcmp(argv[1], "--damaged") == 0;
    size_t len = 0;
    int status;

    if (argc < 2 || argc > 5) {
        printf("usage\n");
        return 2;
    }
    uint8_t *bytes = read_all(damaged ? argv[2] : argv[1], &len);
    if (bytes == NULL)
        return 3;
    if (damaged) {
        status = try_damaged(bytes, len);
    } else if (argc == 2) {
        talft_refusal why = {0, 0, 0, 0};
        status = (int)talft_check(bytes, len, &why);
        if (status == TALFT_OK)
            printf("accepted\n");
        else
            tell(&why);
    } else {
        status = run(bytes, len, argc > 3 ? argv[3] : "", argc > 4 ? argv[4] : "", strtoull(argv[2], NULL, 10));
    }
    free(bytes);
    return status;
}

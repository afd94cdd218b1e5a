/* An on-board task. Before each cycle it sets its input, a cell of the object. It runs the object in slices, and hands out
 * the outputs as they come. The first cycle is struck by a fault; if the fault is detected, the task restarts the run and
 * skips the outputs that it has already handed out. So the outputs of each cycle are those of the run without a fault.
 *
 *     task FILE SLICE [CYCLES [STEP SITE VALUE]] [CELL=WORD,WORD,..]
 *
 * prints the lines of each cycle, and exits with the status of the last one. Cycle i starts with word i in the cell;
 * once the words are used up, the cell keeps the last one.
 */
#include "talft.h"

#include <inttypes.h>
#include <stdio.h>
#include <stdlib.h>
#include <string.h>

enum { MOST = 1 << 20, ROOM = 64, STEPS = 100000 };

static uint8_t bytes[MOST];
static size_t len;

/* Hands out an output: here, as a line. */
static void hand_out(const talft_output *output)
{
    uint8_t name[40] = {0};
    size_t made = 0;
    talft_refusal why = {0, 0, 0, 0};

    if (talft_name(bytes, len, (uint32_t)output->cell, name, sizeof name, &made, &why) == TALFT_OK)
        printf("%.*s %" PRIu64 "\n", (int)made, (const char *)name, output->value);
}

/* Sets a cell, given by its name, to the first word of a text. Returns the rest of the text, or NULL if that fails. */
static const char *set_input(const char *text, size_t name_len, const char *words)
{
    uint8_t name[40] = {0};
    size_t made = 0;
    char *end = NULL;
    talft_refusal why = {0, 0, 0, 0};
    uint64_t word = strtoull(words, &end, 0);

    for (uint32_t cell = 0; talft_name(bytes, len, cell, name, sizeof name, &made, &why) == TALFT_OK; cell++)
        if (made == name_len && memcmp(name, text, made) == 0)
            return talft_set_cell(bytes, len, cell, word, &why) == TALFT_OK ? end : NULL;
    return NULL;
}

/* Runs one cycle from start to end. The fault, if there is one, strikes before a step. */
static uint32_t cycle(talft_machine *machine, uint64_t slice, uint64_t strike, const char *site, uint64_t value)
{
    talft_output outputs[ROOM] = {{0, 0}};
    talft_ran ran = {0, 0, 0, 0};
    uint64_t steps = 0, handed = 0, seen = 0;
    uint32_t status;

    for (;;) {
        uint64_t most = STEPS - steps < slice ? STEPS - steps : slice;
        if (site != NULL && steps < strike && strike - steps < most)
            most = strike - steps;
        if (site != NULL && steps == strike) {
            talft_strike(machine, (const uint8_t *)site, strlen(site), value);
            site = NULL;
        }
        status = talft_advance(machine, most, outputs, ROOM, &ran);
        for (uint64_t i = 0; i < ran.count; i++)
            if (++seen > handed) {
                hand_out(&outputs[i]);
                handed = seen;
            }
        steps += ran.steps;
        if (status == TALFT_DETECTED) {
            if (talft_restart(machine) != TALFT_OK)
                return TALFT_NO_MEMORY;
            steps = seen = 0;
            site = NULL;
        } else if (status != TALFT_FULL && (status != TALFT_CUT || steps >= STEPS)) {
            return status;
        }
    }
}

int main(int argc, char **argv)
{
    talft_machine machine = TALFT_NO_MACHINE;
    talft_refusal why = {0, 0, 0, 0};
    const char *input = argc > 3 ? strchr(argv[argc - 1], '=') : NULL, *words = input != NULL ? input + 1 : NULL;
    int count = argc - (input != NULL);
    FILE *file = count == 3 || count == 4 || count == 7 ? fopen(argv[1], "rb") : NULL;
    uint64_t slice = file != NULL ? strtoull(argv[2], NULL, 10) : 0;
    uint64_t cycles = count > 3 ? strtoull(argv[3], NULL, 10) : 1;
    uint32_t status = TALFT_OK;
    int is_open = 0;

    if (file == NULL || slice == 0)
        return 2;
    len = fread(bytes, 1, sizeof bytes, file);
    fclose(file);
    for (uint64_t i = 0; (status == TALFT_OK || status == TALFT_CUT) && i < cycles; i++) {
        if (input != NULL && *words != '\0') {
            talft_close(&machine);
            is_open = 0;
            words = set_input(argv[argc - 1], (size_t)(input - argv[argc - 1]), words);
            if (words == NULL)
                return 2;
            words += *words == ',';
        }
        status = is_open ? talft_restart(&machine) : talft_open(bytes, len, &machine, &why);
        if (status != TALFT_OK)
            break;
        is_open = 1;
        if (count == 7 && i == 0)
            status = cycle(&machine, slice, strtoull(argv[4], NULL, 10), argv[5], strtoull(argv[6], NULL, 10));
        else
            status = cycle(&machine, slice, 0, NULL, 0);
    }
    talft_close(&machine);
    return (int)status;
}

/* Runs objects with the library that takes its memory from one block of the caller. Enlarges the block by 1 KiB until a run
 * returns something other than status 5, and checks that repeated runs in this block end the same way.
 *
 *     arena FILE..
 */
#include "talft.h"

#include <stdio.h>
#include <stdlib.h>

static uint8_t bytes[1 << 20], block[1 << 24];

int main(int argc, char **argv)
{
    for (int i = 1; i < argc; i++) {
        talft_refusal why = {0, 0, 0, 0};
        talft_output outputs[64] = {{0, 0}};
        talft_ran ran = {0, 0, 0, 0};
        FILE *file = fopen(argv[i], "rb");
        size_t len = file != NULL ? fread(bytes, 1, sizeof bytes, file) : 0, size = 0;
        uint32_t verdict, first = 0;

        if (file == NULL || fclose(file) != 0)
            return 3;
        do {
            size += 1024;
            if (size > sizeof block)
                return 5;
            talft_arena(block + 1, size);
            verdict = talft_run(bytes, len, (const uint8_t *)"", 0, (const uint8_t *)"", 0, 1000, outputs, 64, &ran, &why);
        } while (verdict == TALFT_NO_MEMORY);
        for (int n = 0; n < 1000; n++) {
            uint32_t status = talft_run(bytes, len, (const uint8_t *)"4:r1:6", 6, (const uint8_t *)"", 0, 1000, outputs,
                                        64, &ran, &why);
            if (n == 0)
                first = status;
            if (status != first || status == TALFT_NO_MEMORY)
                return 1;
        }
        printf("%s: status %u in a block of %zu bytes\n", argv[i], (unsigned)verdict, size);
    }
    return 0;
}

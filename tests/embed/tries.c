/* Tries the C library on damaged objects and with failing allocations. It is linked with the archive instead of heap.c:
 * its own heap counts the blocks, and makes one allocation fail.
 *
 *     tries COUNT SEED FILE..
 *
 * For each object, intact, with each bit flipped in turn if it is small, and randomly damaged COUNT times, it checks
 * that talft_check, talft_run, talft_recover and talft_open agree on the status and the refusal; that setting a cell
 * keeps the verdict, and setting it back restores the bytes; that a campaign and a link agree with the check; and that no
 * block is left. If an allocation fails, a call on an intact object must end with status 5 or its usual answer. The
 * last line has the number of calls, and a sum over all answers, by which processors can be compared.
 */
#include "../../embed/rattle.h"
#include "talft.h"

#include <inttypes.h>
#include <stdbool.h>
#include <stdio.h>
#include <stdlib.h>
#include <string.h>

static uint64_t asked, fail_at, live;
static char nothing[16];

static struct tried told(void *p)
{
    struct tried tried = {p != NULL, p != NULL ? p : nothing};
    return tried;
}

struct tried rattle_alloc(size_t n, size_t align)
{
    void *p = ++asked == fail_at ? NULL : malloc(n != 0 ? n : align);
    live += p != NULL;
    return told(p);
}

struct tried rattle_realloc(void *p, size_t kept, size_t n, size_t align)
{
    (void)kept;
    return told(++asked == fail_at ? NULL : realloc(p, n != 0 ? n : align));
}

void rattle_dealloc(void *p)
{
    live--;
    free(p);
}

enum { MOST = 1 << 20, ROOM = 64, STEPS = 2000 };

static uint8_t bytes[MOST], text[16 * MOST], again[MOST];
static uint64_t calls, sum = 14695981039346656037u, random_state;

static uint64_t draw(void)
{
    random_state ^= random_state << 13;
    random_state ^= random_state >> 7;
    random_state ^= random_state << 17;
    return random_state;
}

static void add(uint64_t word)
{
    sum = (sum ^ word) * 1099511628211u;
}

static void wrong(const char *what)
{
    printf("%s\n", what);
    exit(1);
}

/* Adds what a call answers to the sum. */
static uint32_t answered(uint32_t status, const talft_refusal *why)
{
    calls++;
    add(status);
    add(why->part);
    add(why->number);
    add(why->place);
    add(why->index);
    return status;
}

static bool same(const talft_refusal *a, const talft_refusal *b)
{
    return a->part == b->part && a->number == b->number && a->place == b->place && a->index == b->index;
}

/* Makes a run in several calls, with a strike and a restart. */
static uint32_t by_machine(size_t len, talft_refusal *why)
{
    talft_machine machine = TALFT_NO_MACHINE;
    talft_output outputs[ROOM] = {{0, 0}};
    talft_ran ran = {0, 0, 0, 0};
    uint32_t status = talft_open(bytes, len, &machine, why);

    if (status == TALFT_OK) {
        *why = (talft_refusal){9, 9, 9, 9};
        if (talft_open(bytes, len, &machine, why) != TALFT_NOT_NOW || why->part != 0)
            wrong("an open machine is opened");
        add(talft_advance(&machine, 1 + draw() % 50, outputs, ROOM, &ran));
        add(ran.steps);
        add(talft_strike(&machine, (const uint8_t *)"r1", 2, draw()));
        add(talft_strike(&machine, (const uint8_t *)"d", 1, 1));
        add(talft_advance(&machine, STEPS, outputs, draw() % ROOM, &ran));
        add(ran.count);
        add(talft_restart(&machine));
        add(talft_advance(&machine, STEPS, outputs, ROOM, &ran));
        for (uint64_t i = 0; i < ran.count; i++)
            add(outputs[i].value);
    }
    talft_close(&machine);
    talft_close(&machine);
    if (talft_advance(&machine, 1, outputs, ROOM, &ran) != TALFT_NOT_NOW)
        wrong("a closed machine advances");
    return status;
}

/* Sets a cell, and sets it back. What was accepted stays accepted, and what was refused stays refused. */
static void by_cell(size_t len, uint32_t verdict)
{
    talft_refusal why = {9, 9, 9, 9}, other = {9, 9, 9, 9};
    uint32_t cell = (uint32_t)(draw() % 4), status;
    uint64_t word = draw(), before = 0;

    if (verdict != TALFT_MALFORMED && cell < bytes[11] + 256u * bytes[10])
        for (int i = 0; i < 8; i++)
            before = before << 8 | bytes[56 + 16 * cell + (uint32_t)i];
    memcpy(again, bytes, len);
    status = answered(talft_set_cell(bytes, len, cell, word, &why), &why);
    if ((status == TALFT_MALFORMED) != (verdict == TALFT_MALFORMED))
        wrong("talft_set_cell and talft_check differ");
    if (status == TALFT_OK) {
        if (talft_check(bytes, len, &other) != verdict)
            wrong("a cell that is set changes the verdict");
        if (talft_set_cell(bytes, len, cell, before, &why) != TALFT_OK)
            wrong("a cell cannot be set again");
    }
    if (memcmp(again, bytes, len) != 0)
        wrong("the bytes are not as they were");
}

/* Runs a campaign of a few faults, and links the object alone. */
static void by_lists(size_t len, uint32_t verdict, const talft_refusal *refused)
{
    static const char list[] = "4:r1:6\n7:r33:99\n20:pcg:3\n31:d:9\n9:qv0:1\n900:r2:7", map[] = "module own\n";
    talft_verdict verdicts[6] = {{0, 0}};
    talft_totals totals = {9, 9, 9, 9};
    talft_refusal why = {9, 9, 9, 9};
    talft_module modules[2] = {{(const uint8_t *)"other", 5, bytes, 0}, {(const uint8_t *)"own", 3, bytes, len}};
    size_t room = draw() % 8 == 0 ? 5 : 6, made = 0;
    uint32_t module = 9, status;

    status = answered(talft_campaign(bytes, len, (const uint8_t *)list, sizeof list - 1, (const uint8_t *)"", 0, STEPS,
                                     verdicts, room, &totals, &why), &why);
    if (verdict != TALFT_OK ? status != verdict || !same(&why, refused) : status != (room == 6 ? TALFT_OK : TALFT_NO_ROOM))
        wrong("talft_campaign and talft_check differ");
    if (status != TALFT_OK && status != TALFT_NO_ROOM && (totals.count | totals.masked | totals.detected | totals.idle) != 0)
        wrong("totals are told of a refusal");
    if (status == TALFT_NO_ROOM && (totals.masked | totals.detected | totals.idle) != 0)
        wrong("totals are told of faults that were not tried");
    if (verdict == TALFT_OK && totals.count != 6)
        wrong("a campaign leaves out faults");
    if (status == TALFT_OK && totals.masked + totals.detected + totals.idle != 6)
        wrong("a campaign counts other verdicts");
    for (size_t i = 0; i < 6; i++) {
        add(verdicts[i].verdict);
        add(verdicts[i].at);
    }
    status = answered(talft_link((const uint8_t *)map, sizeof map - 1, modules, 2, again, draw() % sizeof again, &made,
                                 &module, &why), &why);
    if (verdict != TALFT_OK ? status != verdict || !same(&why, refused)
                            : status != TALFT_OK && status != TALFT_NO_ROOM && status != TALFT_NOT_LINKED)
        wrong("talft_link and talft_check differ");
    if (module != 0)
        wrong("a link tells another module");
    if (status == TALFT_OK && talft_check(again, made, &why) != TALFT_OK)
        wrong("what is linked is not accepted");
    add(made);
    if (answered(talft_link((const uint8_t *)map, sizeof map - 1, modules, 1, again, 64, &made, &module, &why), &why) !=
        TALFT_NO_MODULE)
        wrong("a module is found that is not there");
}

/* Makes each call over the object: they must agree on its refusal. */
static void try_all(size_t len)
{
    talft_refusal why = {9, 9, 9, 9}, other = {9, 9, 9, 9};
    talft_output outputs[ROOM] = {{0, 0}};
    talft_ran ran = {0, 0, 0, 0};
    size_t made = 0, made_again = 0;
    uint32_t verdict = answered(talft_check(bytes, len, &why), &why), status, cell;
    static const char *const faults[] = {"", "4:r1:6", "7:r33:99", "20:pcg:3", "31:d:9", "9:qv0:1"};
    const char *fault = faults[draw() % 6];

    status = answered(talft_run(bytes, len, (const uint8_t *)fault, strlen(fault), (const uint8_t *)"5,stop", 6, STEPS,
                                outputs, draw() % ROOM, &ran, &other), &other);
    if (verdict != TALFT_OK && (status != verdict || !same(&why, &other) || ran.steps != 0 || ran.count != 0))
        wrong("talft_run and talft_check differ");
    status = answered(talft_recover(bytes, len, (const uint8_t *)fault, strlen(fault), (const uint8_t *)"", 0, STEPS,
                                    outputs, draw() % ROOM, &ran, &other), &other);
    if (status == TALFT_DETECTED || (verdict != TALFT_OK && (status != verdict || !same(&why, &other))))
        wrong("talft_recover and talft_check differ");
    status = answered(by_machine(len, &other), &other);
    if (status != verdict || (verdict != TALFT_OK && !same(&why, &other)))
        wrong("talft_open and talft_check differ");
    status = answered(talft_disassemble(bytes, len, text, sizeof text, &made, &other), &other);
    if ((status == TALFT_MALFORMED) != (verdict == TALFT_MALFORMED))
        wrong("talft_disassemble and talft_check differ");
    if (status == TALFT_OK && answered(talft_assemble(text, made, again, sizeof again, &made_again, &other), &other) != TALFT_OK)
        wrong("a text is refused that was written");
    answered(talft_upgrade(bytes, len, again, draw() % sizeof again, &made, &other), &other);
    answered(talft_schedule(bytes, len, again, draw() % sizeof again, &made, &other), &other);
    cell = (uint32_t)(draw() % 4);
    answered(talft_name(bytes, len, cell, again, draw() % 40, &made, &other), &other);
    by_cell(len, verdict);
    by_lists(len, verdict, &why);
    if (live != 0)
        wrong("a block is left");
}

/* Makes each allocation of the calls fail, one at a time. */
static void try_failing(size_t len)
{
    talft_refusal why = {0, 0, 0, 0};
    talft_output outputs[ROOM] = {{0, 0}};
    talft_ran ran = {0, 0, 0, 0};
    size_t made = 0;

    static const char list[] = "4:r1:6\n9:r2:7\n", map[] = "module own\n";
    talft_verdict verdicts[2] = {{0, 0}};
    talft_totals totals = {0, 0, 0, 0};
    talft_module own = {(const uint8_t *)"own", 3, bytes, len};
    uint32_t module = 0;

    for (int call = 0; call < 8; call++) {
        uint32_t usual = 0;
        for (uint64_t n = 0;; n++) {
            uint32_t status = 0;
            uint64_t state = random_state;
            asked = 0;
            fail_at = n;
            switch (call) {
            case 0: status = talft_check(bytes, len, &why); break;
            case 1: status = talft_run(bytes, len, (const uint8_t *)"4:r1:6", 6, (const uint8_t *)"5", 1, STEPS, outputs,
                                       ROOM, &ran, &why); break;
            case 2: status = talft_recover(bytes, len, (const uint8_t *)"4:r1:6", 6, (const uint8_t *)"", 0, STEPS,
                                           outputs, ROOM, &ran, &why); break;
            case 3: status = by_machine(len, &why); break;
            case 4: status = talft_disassemble(bytes, len, text, sizeof text, &made, &why); break;
            case 5: status = talft_campaign(bytes, len, (const uint8_t *)list, sizeof list - 1, (const uint8_t *)"", 0, STEPS,
                                            verdicts, 2, &totals, &why); break;
            case 6: status = talft_link((const uint8_t *)map, sizeof map - 1, &own, 1, again, sizeof again, &made, &module,
                                        &why); break;
            default: status = talft_schedule(bytes, len, again, sizeof again, &made, &why); break;
            }
            random_state = state;
            calls++;
            fail_at = 0;
            if (live != 0)
                wrong("a block is left where memory ran out");
            if (n == 0)
                usual = status;
            else if (status != TALFT_NO_MEMORY && status != usual)
                wrong("another answer where memory ran out");
            if (n > 0 && asked < n)
                break;
        }
    }
}

int main(int argc, char **argv)
{
    uint64_t count = argc > 3 ? strtoull(argv[1], NULL, 10) : 0;

    random_state = argc > 3 ? 2 * strtoull(argv[2], NULL, 10) + 1 : 1;
    for (int i = 3; i < argc; i++) {
        FILE *file = fopen(argv[i], "rb");
        size_t len = file != NULL ? fread(bytes, 1, sizeof bytes, file) : 0;
        if (file == NULL || fclose(file) != 0 || len == 0)
            return 3;
        try_all(len);
        try_failing(len);
        for (size_t bit = 0; len <= 2048 && bit < 8 * len; bit++) {
            bytes[bit / 8] ^= (uint8_t)(1u << bit % 8);
            try_all(len);
            bytes[bit / 8] ^= (uint8_t)(1u << bit % 8);
        }
        for (uint64_t n = 0; n < count; n++) {
            uint64_t at[4];
            uint8_t was[4];
            int damages = 1 + (int)(draw() % 4);
            size_t most = draw() % 8 == 0 ? draw() % (len + 1) : len;
            for (int k = 0; k < damages; k++) {
                at[k] = draw() % len;
                was[k] = bytes[at[k]];
                bytes[at[k]] = (uint8_t)draw();
            }
            try_all(most);
            for (int k = damages; k-- > 0;)
                bytes[at[k]] = was[k];
        }
    }
    printf("%" PRIu64 " calls, sum %016" PRIx64 "\n", calls, sum);
    return 0;
}

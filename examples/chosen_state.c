/*
 * The input that drives a hardware core to a chosen state: `chosen_state ROUNDS <wanted >start`. The wanted state is read from standard
 * input and the start written to standard output, a word in a line, 16 hex digits, in word order (include/core.h), as $readmemh of
 * Verilog reads them. From the start, ROUNDS rounds reach the wanted state; before it writes, the program runs them and sees it.
 */
#include <inttypes.h>
#include <stdio.h>
#include <stdlib.h>
#include <string.h>
#include "core.h"

enum { WORDS = CORE_STATE_BYTES / 8 };

static int fail(const char *what)
{
    fprintf(stderr, "chosen_state: %s\n", what);
    return 1;
}

/* The words on standard input as the bytes of a state; 0 where there are not just twenty. */
static int read_state(uint8_t state[CORE_STATE_BYTES])
{
    uint64_t word;
    char more;
    for (int w = 0; w < WORDS; w++) {
        if (scanf("%16" SCNx64, &word) != 1)
            return 0;
        for (int i = 0; i < 8; i++)
            state[8 * w + i] = (uint8_t)(word >> 8 * i);
    }
    return scanf(" %c", &more) != 1;
}

static void write_state(const uint8_t state[CORE_STATE_BYTES])
{
    for (int w = 0; w < WORDS; w++) {
        for (int i = 7; i >= 0; i--)
            printf("%02X", state[8 * w + i]);
        putchar('\n');
    }
}

int main(int argc, char **argv)
{
    uint8_t wanted[CORE_STATE_BYTES], start[CORE_STATE_BYTES], reached[CORE_STATE_BYTES];
    char *end;
    if (argc != 2)
        return fail("usage: chosen_state ROUNDS <wanted >start");
    unsigned long rounds = strtoul(argv[1], &end, 10);
    if (end == argv[1] || *end != '\0' || rounds > UINT32_MAX)
        return fail("ROUNDS is a number from 0 to 12");
    if (!read_state(wanted))
        return fail("the wanted state is twenty words of 16 hex digits");
    memcpy(start, wanted, sizeof start);
    switch (icepole_rounds_back(start, sizeof start, (uint32_t)rounds)) {
    case CORE_DONE:
        break;
    case CORE_TOO_MANY_ROUNDS:
        return fail("at most 12 rounds");
    default:
        return fail("refused");
    }
    memcpy(reached, start, sizeof reached);
    if (icepole_rounds_forward(reached, sizeof reached, (uint32_t)rounds) != CORE_DONE || memcmp(reached, wanted, sizeof reached) != 0)
        return fail("the rounds do not reach the wanted state");
    write_state(start);
    return 0;
}

/* Rounds back and forward by the C calls: stored starts, round trips, runs whose
   log the call of round logs judges, slices longer than a state, and what is
   refused. Every slice is its own piece of the heap, exactly as long as it must
   be, so that a memory checker sees a call that reads or writes past it. */

#include <stdio.h>
#include <stdlib.h>
#include <string.h>

#include "core.h"

enum { STATE = 160, MOST_ROUNDS = 12, LONGEST = 400, TOO_SHORT = 5, TOO_MANY = 20 };

/* The header has the same numbers. */
_Static_assert(CORE_STATE_BYTES == STATE && CORE_MAX_ROUNDS == MOST_ROUNDS, "states and rounds");
_Static_assert(CORE_DONE == 0 && (int)CORE_STATE_TOO_SHORT == (int)TOO_SHORT, "refusal numbers");
_Static_assert((int)CORE_TOO_MANY_ROUNDS == (int)TOO_MANY, "refusal numbers");

/* The state from which 12 rounds reach that of the bytes 0 to 159, and the one
   from which they reach zeros. Both were written by the Rust reference, whose
   tests look at them here. A line is a word. */
static const uint8_t START_OF_COUNTING[STATE] = {
    0x7D, 0xC9, 0xA6, 0xB8, 0xBF, 0xF9, 0x03, 0xB9,
    0xD0, 0x59, 0x7F, 0xB8, 0xB7, 0x01, 0xA0, 0x66,
    0x32, 0x2A, 0x9D, 0xE5, 0xDC, 0x26, 0x84, 0x81,
    0x95, 0xD2, 0x1D, 0xA8, 0x91, 0xB5, 0x3B, 0x3E,
    0x26, 0xE1, 0xDD, 0xD4, 0x36, 0x06, 0x56, 0x18,
    0x5D, 0x1D, 0xC3, 0x97, 0xBD, 0x7F, 0x34, 0x4E,
    0x40, 0x8C, 0xA8, 0xA1, 0xDE, 0x58, 0x03, 0x41,
    0x42, 0x89, 0xB0, 0x84, 0x02, 0x2D, 0x1D, 0xE6,
    0xA8, 0x8E, 0x33, 0xC9, 0x92, 0xD1, 0x3C, 0x34,
    0x3E, 0xD3, 0x9C, 0x6A, 0xEF, 0xCB, 0x73, 0x46,
    0x1F, 0xFA, 0xF2, 0xA7, 0x25, 0x65, 0xAF, 0x5D,
    0xC2, 0x6A, 0x90, 0xF1, 0x67, 0xF7, 0xD2, 0x35,
    0x69, 0xC7, 0x11, 0x41, 0x5A, 0x75, 0xE4, 0xFE,
    0x2F, 0x9B, 0x54, 0x23, 0xF3, 0x60, 0x72, 0xD0,
    0x3B, 0x21, 0x86, 0xB4, 0xA9, 0x26, 0xDE, 0x98,
    0x32, 0x00, 0x4C, 0x49, 0x8A, 0x63, 0xD9, 0x3F,
    0xCC, 0x71, 0xE8, 0xFA, 0x33, 0xBF, 0xDA, 0xC6,
    0x49, 0xD9, 0x9B, 0xF2, 0xA5, 0x62, 0xE8, 0xB6,
    0x75, 0x80, 0xAE, 0xF7, 0xDF, 0x03, 0x08, 0x8D,
    0x0F, 0xEC, 0x47, 0x2B, 0x83, 0xC7, 0xEA, 0xA4,
};
static const uint8_t START_OF_ZEROS[STATE] = {
    0x27, 0x07, 0x83, 0xD2, 0x46, 0x3F, 0x58, 0xED,
    0xA0, 0x7D, 0xF4, 0xEA, 0x11, 0xF5, 0x1B, 0xDB,
    0x35, 0x38, 0xC7, 0x0F, 0xE3, 0x2B, 0x4C, 0x64,
    0x53, 0x02, 0x0D, 0x5A, 0x00, 0x1F, 0x19, 0x35,
    0x79, 0x02, 0xA9, 0x1B, 0x29, 0x70, 0x4D, 0x35,
    0xFC, 0xFE, 0xB7, 0x32, 0x6A, 0xA2, 0x96, 0xBE,
    0x80, 0x6B, 0xE2, 0x65, 0x00, 0x15, 0x6F, 0xFC,
    0xDD, 0x74, 0x84, 0x36, 0x72, 0x0F, 0x35, 0xD9,
    0xAF, 0xD5, 0xBA, 0xEC, 0x52, 0x72, 0x7E, 0x7A,
    0x6D, 0x29, 0x8D, 0xBF, 0x60, 0xAC, 0xA6, 0xEC,
    0x0C, 0x77, 0x49, 0x1F, 0x27, 0xD5, 0x45, 0x4A,
    0xBA, 0xC7, 0xC4, 0xBB, 0x7B, 0xA4, 0x56, 0x33,
    0xCC, 0x89, 0xD7, 0x7D, 0x97, 0xF5, 0xBD, 0xB3,
    0x7A, 0x24, 0xC3, 0x1D, 0x1F, 0x33, 0x87, 0x93,
    0x9B, 0xF7, 0xFE, 0x3F, 0xE8, 0x8D, 0x9F, 0x00,
    0x3C, 0x32, 0x59, 0xB6, 0x6C, 0x31, 0x44, 0x53,
    0xCB, 0x2A, 0xF7, 0xA6, 0x1D, 0x03, 0xEF, 0xA8,
    0x22, 0xA6, 0x2B, 0x73, 0x6C, 0x65, 0x55, 0x33,
    0xD4, 0x68, 0xDE, 0xD7, 0x74, 0xD7, 0xCF, 0x6C,
    0x5B, 0xC1, 0x4C, 0xF3, 0x83, 0xDC, 0x35, 0x8F,
};

/* One of the two calls. */
typedef uint32_t rounds_call(uint8_t *state, size_t state_len, uint32_t rounds);

static unsigned long calls;

static void fail(const char *what, size_t length, uint32_t rounds)
{
    printf("call %lu, %zu bytes, %lu rounds: %s\n", calls, length,
           (unsigned long)rounds, what);
    exit(1);
}

/* A piece of the heap. The calls want a pointer that is not null even where the
   length is 0; malloc of the C library at hand gives one. */
static uint8_t *allocate(size_t length)
{
    uint8_t *bytes = malloc(length);
    if (bytes == NULL) {
        puts("no memory");
        exit(1);
    }
    return bytes;
}

/* The call gives this number, or that is said. */
static void expect(rounds_call *call, uint8_t *slice, size_t length,
                   uint32_t rounds, uint32_t number)
{
    calls++;
    if (call(slice, length, rounds) != number) {
        fail("another number", length, rounds);
    }
}

/* The state after a call, which is not refused. */
static void run(rounds_call *call, const uint8_t *before, uint32_t rounds,
                uint8_t *after)
{
    uint8_t *slice = allocate(STATE);

    memcpy(slice, before, STATE);
    expect(call, slice, STATE, rounds, 0);
    memcpy(after, slice, STATE);
    free(slice);
}

/* The call leads from one state to the other, or that is said. */
static void leads(rounds_call *call, const uint8_t *from, uint32_t rounds,
                  const uint8_t *to)
{
    uint8_t after[STATE];

    run(call, from, rounds, after);
    if (memcmp(after, to, STATE) != 0) {
        fail("another state", STATE, rounds);
    }
}

/* The states of a run, each led to by a call of its own: the call of round logs
   finds every round right, and the last state is the wanted one. */
static void try_log(const uint8_t *start, uint32_t rounds,
                    const uint8_t *wanted)
{
    uint8_t *log = allocate(CORE_LOG_BYTES(rounds));
    uint32_t agrees = 0, judged = 0;

    for (uint32_t number = 0; number <= rounds; number++) {
        run(icepole_rounds_forward, start, number, log + STATE * number);
    }
    if (icepole_check_log(log, CORE_LOG_BYTES(rounds), &agrees, &judged) != 0 ||
        agrees != 1 || judged != rounds) {
        fail("the log of the run differs", CORE_LOG_BYTES(rounds), rounds);
    }
    if (memcmp(log + STATE * rounds, wanted, STATE) != 0) {
        fail("the run reaches another state", CORE_LOG_BYTES(rounds), rounds);
    }
    free(log);
}

/* Forward after back, and back after forward, by every count of rounds. */
static void try_state(const uint8_t *state)
{
    uint8_t other[STATE];

    leads(icepole_rounds_back, state, 0, state);
    leads(icepole_rounds_forward, state, 0, state);
    for (uint32_t rounds = 1; rounds <= MOST_ROUNDS; rounds++) {
        run(icepole_rounds_forward, state, rounds, other);
        leads(icepole_rounds_back, other, rounds, state);
        run(icepole_rounds_back, state, rounds, other);
        leads(icepole_rounds_forward, other, rounds, state);
        try_log(other, rounds, state);
    }
}

/* Slices longer than a state: it is changed as it is alone, and later bytes
   stay. */
static void try_longer(rounds_call *call, const uint8_t *bytes)
{
    for (size_t length = STATE; length <= LONGEST; length++) {
        uint32_t rounds = (uint32_t)(length % (MOST_ROUNDS + 1));
        uint8_t alone[STATE];
        uint8_t *slice = allocate(length);

        run(call, bytes, rounds, alone);
        memcpy(slice, bytes, length);
        expect(call, slice, length, rounds, 0);
        if (memcmp(slice, alone, STATE) != 0) {
            fail("another state", length, rounds);
        }
        if (memcmp(slice + STATE, bytes + STATE, length - STATE) != 0) {
            fail("a later byte changed", length, rounds);
        }
        free(slice);
    }
}

/* A slice that is refused and stays. First its bytes are not written at all: a
   memory checker sees a call that decides anything by one of them. */
static void refuses(rounds_call *call, const uint8_t *bytes, size_t length,
                    uint32_t rounds, uint32_t number)
{
    uint8_t *slice = allocate(length);

    expect(call, slice, length, rounds, number);
    memcpy(slice, bytes, length);
    expect(call, slice, length, rounds, number);
    if (memcmp(slice, bytes, length) != 0) {
        fail("a refused call changed a byte", length, rounds);
    }
    free(slice);
}

/* Too many rounds, whether the slice is too short or not. */
static void try_too_many(rounds_call *call, const uint8_t *bytes,
                         uint32_t rounds)
{
    static const size_t lengths[] = {0, 1, 8, 159, 160, 161, LONGEST};
    for (size_t i = 0; i < sizeof lengths / sizeof lengths[0]; i++) {
        refuses(call, bytes, lengths[i], rounds, TOO_MANY);
    }
}

static void try_refused(rounds_call *call, const uint8_t *bytes)
{
    static const uint32_t many[] = {13, 14, 16, 255, 1u << 31, UINT32_MAX};
    for (size_t i = 0; i < sizeof many / sizeof many[0]; i++) {
        try_too_many(call, bytes, many[i]);
    }
    for (uint32_t rounds = 0; rounds <= MOST_ROUNDS; rounds++) {
        /* Right in 8 or 16 bits only. */
        try_too_many(call, bytes, (1u << 8) + rounds);
        try_too_many(call, bytes, (1u << 16) + rounds);
        for (size_t length = 0; length < STATE; length++) {
            refuses(call, bytes, length, rounds, TOO_SHORT);
        }
    }
}

int main(void)
{
    uint8_t counting[LONGEST], zeros[STATE] = {0}, ones[STATE];

    for (size_t i = 0; i < LONGEST; i++) {
        counting[i] = (uint8_t)i;
    }
    memset(ones, 0xFF, STATE);
    leads(icepole_rounds_back, counting, MOST_ROUNDS, START_OF_COUNTING);
    leads(icepole_rounds_back, zeros, MOST_ROUNDS, START_OF_ZEROS);
    try_state(counting);
    try_state(zeros);
    try_state(ones);
    for (size_t w = 0; w < STATE / 8; w++) {
        uint8_t one_bit[STATE] = {0};
        one_bit[8 * w + w % 8] = (uint8_t)(1 << w / 8);
        try_state(one_bit);
    }
    try_longer(icepole_rounds_back, counting);
    try_longer(icepole_rounds_forward, counting);
    try_refused(icepole_rounds_back, counting);
    try_refused(icepole_rounds_forward, counting);
    printf("%lu calls\n", calls);
    return 0;
}

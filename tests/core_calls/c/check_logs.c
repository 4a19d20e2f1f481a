/* Logs of the hardware core, judged by the C call: right ones, changed ones, and
   logs of every length up to 2,240 bytes. The rounds are worked out here, as the
   ICEPOLE paper has them. Every log is its own piece of the heap, exactly as long
   as it must be, so that a memory checker sees a call that reads past it. */

#include <stdio.h>
#include <stdlib.h>
#include <string.h>

#include "core.h"

enum { STATE = 160, MOST_ROUNDS = 12, LONGEST = 14 * STATE, REFUSED = 19 };

/* The header has the same numbers. */
_Static_assert(CORE_STATE_BYTES == STATE && CORE_MAX_ROUNDS == MOST_ROUNDS, "states and rounds");
_Static_assert(CORE_LOG_BYTES(1) == 2 * STATE && CORE_LOG_BYTES(MOST_ROUNDS) == 13 * STATE, "logs");
_Static_assert(CORE_DONE == 0 && (int)CORE_LOG_LENGTH == (int)REFUSED, "refusal numbers");

/* The state S[x][y] (2.3), and five words over y at one x. */
typedef uint64_t state[4][5];
typedef uint64_t five[5];

/* 2.5, rho. */
static const unsigned offsets[4][5] = {
    {0, 36, 3, 41, 18},
    {1, 44, 10, 45, 2},
    {62, 6, 43, 15, 61},
    {28, 55, 25, 21, 56},
};

/* Appendix A. */
static const uint64_t constants[MOST_ROUNDS] = {
    0x0091A2B3C4D5E6F7, 0x0048D159E26AF37B, 0x002468ACF13579BD,
    0x00123456F89ABCDE, 0x00091A2BFC4D5E6F, 0x00048D15FE26AF37,
    0x0002468AFF13579B, 0x000123457F89ABCD, 0x000091A2BFC4D5E6,
    0x000048D1DFE26AF3, 0x00002468EFF13579, 0x00001234F7F89ABC,
};

/* What stands in a number that no call has written. */
static const uint32_t JUNK = 0xA5A5A5A5;

static unsigned long judged;

/* Z is added to the sum. */
static void add(five sum, const five z)
{
    for (int y = 0; y < 5; y++) {
        sum[y] ^= z[y];
    }
}

/* 2Z is added to the sum, as Appendix B writes it out. */
static void add_2(five sum, const five z)
{
    const five twice = {z[4], z[0], z[1] ^ z[4], z[2], z[3]};
    add(sum, twice);
}

/* 18Z is added to the sum, as Appendix B writes it out. */
static void add_18(five sum, const five z)
{
    const five times_18 = {z[1], z[2] ^ z[0], z[3], z[4], z[0]};
    add(sum, times_18);
}

/* The matrix of 2.5, row by row. */
static void mu(state s)
{
    typedef void (*product)(five sum, const five z);
    static const product matrix[4][4] = {
        {add_2, add, add, add},
        {add, add, add_18, add_2},
        {add, add_2, add, add_18},
        {add, add_18, add_2, add},
    };
    state next = {{0}};
    for (int x = 0; x < 4; x++) {
        for (int k = 0; k < 4; k++) {
            matrix[x][k](next[x], s[k]);
        }
    }
    memcpy(s, next, sizeof next);
}

static uint64_t rotate_left(uint64_t word, unsigned offset)
{
    return offset == 0 ? word : word << offset | word >> (64 - offset);
}

static void rho_and_pi(state s)
{
    state next;
    for (int x = 0; x < 4; x++) {
        for (int y = 0; y < 5; y++) {
            int to_x = (x + y) % 4;
            int to_y = ((x + y) % 4 + y + 1) % 5;
            next[to_x][to_y] = rotate_left(s[x][y], offsets[x][y]);
        }
    }
    memcpy(s, next, sizeof next);
}

static void psi(five m)
{
    uint64_t ones = m[0] & m[1] & m[2] & m[3] & m[4];
    uint64_t zeros = ~(m[0] | m[1] | m[2] | m[3] | m[4]);
    five z;
    for (int k = 0; k < 5; k++) {
        z[k] = m[k] ^ (~m[(k + 1) % 5] & m[(k + 2) % 5]) ^ ones ^ zeros;
    }
    memcpy(m, z, sizeof z);
}

static void one_round(state s, int number)
{
    mu(s);
    rho_and_pi(s);
    for (int x = 0; x < 4; x++) {
        psi(s[x]);
    }
    s[0][0] ^= constants[number];
}

/* The bytes of a state: word x + 4y, low byte first. */
static void write_state(uint8_t *bytes, state s)
{
    for (int j = 0; j < STATE; j++) {
        int w = j / 8;
        bytes[j] = (uint8_t)(s[w % 4][w / 4] >> (8 * (j % 8)));
    }
}

/* The states before and after 12 rounds, from words that count in steps of a
   number, and one state more with constant 0 again. */
static void make_log(uint8_t *log, uint64_t step)
{
    state s;
    for (int w = 0; w < 20; w++) {
        s[w % 4][w / 4] = step * (uint64_t)(w + 1);
    }
    write_state(log, s);
    for (int number = 0; number < MOST_ROUNDS + 1; number++) {
        one_round(s, number % MOST_ROUNDS);
        write_state(log + STATE * (number + 1), s);
    }
}

/* A piece of the heap that ends where its bytes do. Where there are none, the
   pointer is not null, and nothing may be read from it. */
static uint8_t *allocate(size_t length, uint8_t **piece)
{
    size_t before = length == 0;
    *piece = malloc(before + length);
    if (*piece == NULL) {
        puts("no memory");
        exit(1);
    }
    return *piece + before;
}

/* The call gives these numbers for the log, or that is said. */
static void expect(const uint8_t *log, size_t length, uint32_t number,
                   uint32_t agrees, uint32_t round)
{
    uint32_t lent_agrees = JUNK, lent_round = JUNK;
    uint32_t given = icepole_check_log(log, length, &lent_agrees, &lent_round);
    judged++;
    if (given != number || lent_agrees != agrees || lent_round != round) {
        printf("log %lu, %zu bytes: %lu, %lu, %lu, not %lu, %lu, %lu\n", judged,
               length, (unsigned long)given, (unsigned long)lent_agrees,
               (unsigned long)lent_round, (unsigned long)number,
               (unsigned long)agrees, (unsigned long)round);
        exit(1);
    }
}

/* The front of the log, alone in its piece of the heap. With a bit of each word
   changed in turn, the first round that the changed state is in differs; after
   that it agrees, and is as it was. */
static void try_front(const uint8_t *whole, uint32_t rounds)
{
    size_t length = STATE * (1 + (size_t)rounds);
    uint8_t *piece;
    uint8_t *log = allocate(length, &piece);

    memcpy(log, whole, length);
    expect(log, length, 0, 1, rounds);
    for (size_t w = 0; w < length / 8; w++) {
        size_t at = 8 * w + w % 8;
        uint8_t bit = (uint8_t)(1 << w / 8 % 8);
        uint32_t changed = (uint32_t)(at / STATE);
        log[at] ^= bit;
        expect(log, length, 0, 0, changed == 0 ? 0 : changed - 1);
        log[at] ^= bit;
    }
    expect(log, length, 0, 1, rounds);
    if (memcmp(log, whole, length) != 0) {
        puts("a log changed");
        exit(1);
    }
    free(piece);
}

/* A length that is refused. First the bytes are not written at all: a memory
   checker sees a call that decides anything by one of them. */
static void try_refused(const uint8_t *whole, size_t length)
{
    uint8_t *piece;
    uint8_t *log = allocate(length, &piece);

    expect(log, length, REFUSED, 0, 0);
    memcpy(log, whole, length);
    expect(log, length, REFUSED, 0, 0);
    free(piece);
}

static int is_refused(size_t length)
{
    return length % STATE != 0 || length < 2 * STATE || length > 13 * STATE;
}

/* From state k on, the log is that of another run: round k - 1 differs. */
static void try_two_runs(const uint8_t *first, const uint8_t *second)
{
    size_t length = 13 * STATE;
    for (uint32_t k = 1; k <= MOST_ROUNDS; k++) {
        uint8_t *piece;
        uint8_t *log = allocate(length, &piece);
        memcpy(log, first, STATE * k);
        memcpy(log + STATE * k, second + STATE * k, length - STATE * k);
        expect(log, length, 0, 0, k - 1);
        free(piece);
    }
}

int main(void)
{
    uint8_t log[LONGEST], other[LONGEST], zeros[LONGEST];

    make_log(log, 0x9E3779B97F4A7C15);
    make_log(other, 0xD1B54A32D192ED03);
    make_log(zeros, 0);
    for (uint32_t rounds = 1; rounds <= MOST_ROUNDS; rounds++) {
        try_front(log, rounds);
        try_front(zeros, rounds);
    }
    for (size_t length = 0; length <= LONGEST; length++) {
        if (is_refused(length)) {
            try_refused(log, length);
        }
    }
    try_two_runs(log, other);
    try_two_runs(other, zeros);
    printf("%lu logs judged\n", judged);
    return 0;
}

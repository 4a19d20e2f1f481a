/* Times a message of 1 MiB sealed in strips against the same sealed whole, both proved, turn about in one run. */
#include <stdint.h>
#include <string.h>
#include "../include/icepole.h"
#include "timing.h"

enum { MOST = 1 << 20, RUNS = 61 };

static uint8_t key[16], nonce[16], secret[16], ad[12], message[MOST], whole[MOST + 32], output[MOST + 32];
static uint8_t state[ICEPOLE128_STRIP_STATE_BYTES];

static uint32_t seal(void)
{
    return icepole128_seal(key, 16, nonce, 16, secret, 16, ad, 12, ad, 0, message, MOST, whole, MOST + 32);
}

/* Strips of so many bytes; the last one has what is left. */
static uint32_t seal_strips(size_t strip)
{
    uint32_t refusal = icepole128_start(key, 16, nonce, 16, secret, 16, ad, 12, ad, 0, output, 16, state, sizeof state);
    for (size_t at = 0; at < MOST; at += strip) {
        size_t n = MOST - at < strip ? MOST - at : strip;
        refusal |= icepole128_strip(state, sizeof state, message + at, n, output + 16 + at, n);
    }
    return refusal | icepole128_end(state, sizeof state, output + 16 + MOST, 16);
}

int main(void)
{
    static const struct { size_t bytes; double limit; } strips[] = { /* of the ratio, set by the project itself; 0: none */
        {1, 0}, {16, 0}, {64, 0}, {128, 1.10}, {1000, 0}, {4096, 0}, {65536, 0}, {MOST, 0},
    };
    static double turn[RUNS];
    for (size_t i = 0; i < MOST; i++)
        message[i] = (uint8_t)(i * 7 + (i >> 8));
    printf("| bytes a strip | 1 MiB in strips / whole | wanted |\n|---|---|---|\n");
    for (size_t s = 0; s < sizeof strips / sizeof *strips; s++) {
        size_t bytes = strips[s].bytes;
        if (seal() || seal_strips(bytes) || memcmp(output, whole, sizeof whole)) {
            fprintf(stderr, "strips of %zu bytes and whole sealing differ\n", bytes);
            return 1;
        }
        for (int i = 0; i < RUNS; i++) {
            double from = now();
            seal_strips(bytes);
            double between = now();
            seal();
            turn[i] = (between - from) / (now() - between);
        }
        printf("| %zu |", bytes);
        print_cell(median(turn, RUNS), strips[s].limit);
        strips[s].limit > 0 ? printf(" at most %.2f |\n", strips[s].limit) : printf(" |\n");
    }
    return 0;
}

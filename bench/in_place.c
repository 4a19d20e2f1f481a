/*
 * Times opening in place against opening into another buffer, both proved, turn about in one run.
 *   in_place                the table of the page
 *   in_place CALL BYTES     one call of 128 on so many bytes, for callgrind; CALL is in_place, open, or none
 */
#include <stdint.h>
#include <string.h>
#include "../include/icepole.h"
#include "timing.h"

enum { MOST = 1 << 20, AD = 12, RUNS = 1001, SIZES = 6, VARIANTS = 3, MOST_CALLS = 100 };

typedef uint8_t u8;
typedef uint32_t seal_t(const u8 *, size_t, const u8 *, size_t, const u8 *, size_t, const u8 *, size_t, const u8 *, size_t, const u8 *, size_t,
                        u8 *, size_t);
typedef uint32_t open_t(const u8 *, size_t, const u8 *, size_t, const u8 *, size_t, const u8 *, size_t, const u8 *, size_t, u8 *, size_t, u8 *,
                        size_t);
typedef uint32_t in_place_t(const u8 *, size_t, const u8 *, size_t, const u8 *, size_t, const u8 *, size_t, u8 *, size_t, u8 *, size_t);

static const struct variant {
    const char *name;
    size_t key, nonce, secret;
    seal_t *seal;
    open_t *open;
    in_place_t *in_place;
} variants[VARIANTS] = {
    {"128", 16, 16, 16, icepole128_seal, icepole128_open, icepole128_open_in_place},
    {"128a", 16, 12, 0, icepole128a_seal, icepole128a_open, icepole128a_open_in_place},
    {"256a", 32, 12, 0, icepole256a_seal, icepole256a_open, icepole256a_open_in_place},
};

/* The limits that the project set itself, size by size. */
static const size_t sizes[SIZES] = {1, 16, 64, 128, 16384, MOST};
static const double limits[SIZES] = {1.10, 1.10, 1.10, 1.10, 1.05, 1.05};

static u8 key[32], nonce[16], secret[16], ad[AD], info[24], message[MOST], sealed[MOST + 32], output[MOST + 32], buffers[2 * MOST];

static size_t overhead(const struct variant *v) { return v->secret + 16; }

static uint32_t open(const struct variant *v, u8 *b, size_t n)
{
    return v->open(key, v->key, nonce, v->nonce, ad, AD, ad, 0, b, n + overhead(v), output, n, info, sizeof info);
}

static uint32_t in_place(const struct variant *v, u8 *b, size_t n)
{
    return v->in_place(key, v->key, nonce, v->nonce, ad, AD, ad, 0, b, n + overhead(v), info, sizeof info);
}

static uint32_t none(const struct variant *v, u8 *b, size_t n) { return v != variants || b != sealed || n > MOST; }

typedef uint32_t call_t(const struct variant *, u8 *, size_t);

static uint32_t prepare(const struct variant *v, size_t n)
{
    return v->seal(key, v->key, nonce, v->nonce, secret, v->secret, ad, AD, ad, 0, message, n, sealed, n + overhead(v));
}

/* The time of a call, over so many in a row: each has a buffer of its own, in which the sealed message was put before the clock began. */
static double timed(call_t *call, const struct variant *v, size_t n, int times)
{
    size_t step = n + overhead(v);
    for (int j = 0; j < times; j++)
        memcpy(buffers + (size_t)j * step, sealed, step);
    double from = now();
    for (int j = 0; j < times; j++)
        call(v, buffers + (size_t)j * step, n);
    return (now() - from) / times;
}

/* The median of the turns' ratios; the widest middle half so far is kept beside it. */
static double widest;

static double measure(const struct variant *v, size_t n)
{
    static double ratio[RUNS];
    int runs = n <= 128 ? RUNS : n < MOST ? 401 : 61, times = n <= 128 ? MOST_CALLS : n < MOST ? 8 : 1;
    prepare(v, n);
    for (int i = 0; i < runs; i++) {
        double first = timed(i % 2 ? open : in_place, v, n, times), second = timed(i % 2 ? in_place : open, v, n, times);
        ratio[i] = i % 2 ? second / first : first / second;
    }
    double m = median(ratio, runs), wide = ratio[3 * runs / 4] - ratio[runs / 4];
    if (wide > widest)
        widest = wide;
    return m;
}

/* Both give the message back, and the bytes behind it stay. */
static int agree(const struct variant *v, size_t n)
{
    u8 got[sizeof info];
    int same = !prepare(v, n);
    memcpy(buffers, sealed, n + overhead(v));
    same = same && !open(v, sealed, n) && !memcmp(output, message, n);
    memcpy(got, info, sizeof got);
    same = same && !in_place(v, buffers, n) && !memcmp(buffers, message, n) && !memcmp(got, info, sizeof got);
    return same && !memcmp(buffers + n, sealed + n, overhead(v));
}

static int single(const char *name, size_t n)
{
    static const struct { const char *name; call_t *call; } calls[] = {{"in_place", in_place}, {"open", open}, {"none", none}};
    if (n > MOST || prepare(variants, n))
        return 1;
    for (size_t i = 0; i < sizeof calls / sizeof *calls; i++)
        if (!strcmp(name, calls[i].name))
            return (int)calls[i].call(variants, sealed, n);
    return 1;
}

int main(int argc, char **argv)
{
    for (size_t i = 0; i < MOST; i++)
        message[i] = (u8)(i * 7 + (i >> 8));
    for (int i = 0; i < 32; i++)
        key[i] = (u8)i;
    if (argc == 3)
        return single(argv[1], strtoull(argv[2], NULL, 10));
    for (int k = 0; k < VARIANTS; k++)
        for (int z = 0; z < SIZES; z++)
            if (!agree(variants + k, sizes[z])) {
                fprintf(stderr, "the two openings of %s disagree at %zu bytes\n", variants[k].name, sizes[z]);
                return 1;
            }
    printf("| in place / into another buffer, by bytes of message | 1 | 16 | 64 | 128 | 16 KiB | 1 MiB |\n|---|---|---|---|---|---|---|\n");
    for (int k = 0; k < VARIANTS; k++) {
        printf("| open %s |", variants[k].name);
        for (int z = 0; z < SIZES; z++)
            print_cell(measure(variants + k, sizes[z]), limits[z]);
        printf("\n");
    }
    printf("| wanted at most |");
    for (int z = 0; z < SIZES; z++)
        printf(" %.2f |", limits[z]);
    printf("\n\nBold: above what was wanted. The middle half of the turns is at most %.3f wide in every cell.\n", widest);
    return 0;
}

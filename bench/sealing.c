/*
 * Times the proved sealing, verifying and opening against C, turn about in one run.
 *   sealing                 two tables of the page: ratios to plain C, and to shaped C (round.h)
 *   sealing rate BYTES      bytes a second of the proved calls on messages of so many bytes, for bench/openssl.sh
 *   sealing CALL BYTES      one call on so many bytes, for callgrind; CALL is seal, open, plain_seal, plain_open, or none
 */
#include <stdint.h>
#include <string.h>
#include "../include/icepole.h"
#include "timing.h"

typedef uint8_t u8;
typedef uint32_t (*call_t)(size_t);

uint32_t bench_verify128(const u8 *key, size_t key_len, const u8 *nonce, size_t nonce_len, const u8 *ad1, size_t ad1_len,
                         const u8 *ad2, size_t ad2_len, const u8 *sealed, size_t sealed_len); /* crates/icepole_bench */

#define C_CALLS(p)                                                                                                                 \
    void p##_seal128(const u8 *key, const u8 *nonce, const u8 *secret, const u8 *ad, size_t ad_len, const u8 *m, size_t n, u8 *out); \
    uint32_t p##_open128(const u8 *key, const u8 *nonce, const u8 *ad, size_t ad_len, const u8 *c, size_t n, u8 *out, u8 *secret);   \
    void p##_seal256a(const u8 *key, const u8 *nonce, const u8 *ad, size_t ad_len, const u8 *m, size_t n, u8 *out);                  \
    uint32_t p##_open256a(const u8 *key, const u8 *nonce, const u8 *ad, size_t ad_len, const u8 *c, size_t n, u8 *out);
C_CALLS(plain)
C_CALLS(shaped)

enum { MOST = 1 << 20, AD = 12, RUNS = 1001, CALLS = 5, SIZES = 6 };

static u8 key[32], nonce[16], secret[16], ad[AD], info[24], message[MOST], sealed[MOST + 32], sealed256[MOST + 16], output[MOST + 32];

static uint32_t seal(size_t n) { return icepole128_seal(key, 16, nonce, 16, secret, 16, ad, AD, ad, 0, message, n, output, n + 32); }
static uint32_t open(size_t n) { return icepole128_open(key, 16, nonce, 16, ad, AD, ad, 0, sealed, n + 32, output, n, info, 24); }
static uint32_t verify(size_t n) { return bench_verify128(key, 16, nonce, 16, ad, AD, ad, 0, sealed, n + 32); }
static uint32_t seal256(size_t n) { return icepole256a_seal(key, 32, nonce, 12, secret, 0, ad, AD, ad, 0, message, n, output, n + 16); }
static uint32_t open256(size_t n) { return icepole256a_open(key, 32, nonce, 12, ad, AD, ad, 0, sealed256, n + 16, output, n, info, 8); }
static uint32_t none(size_t n) { return n > MOST; }

#define C_WRAPS(p)                                                                                                        \
    static uint32_t p##_seal(size_t n) { p##_seal128(key, nonce, secret, ad, AD, message, n, output); return 0; }          \
    static uint32_t p##_open(size_t n) { return p##_open128(key, nonce, ad, AD, sealed, n, output, info); }                \
    static uint32_t p##_verify(size_t n) { return p##_open128(key, nonce, ad, AD, sealed, n, NULL, info); }                \
    static uint32_t p##_seal_256(size_t n) { p##_seal256a(key, nonce, ad, AD, message, n, output); return 0; }             \
    static uint32_t p##_open_256(size_t n) { return p##_open256a(key, nonce, ad, AD, sealed256, n, output); }
C_WRAPS(plain)
C_WRAPS(shaped)

static const size_t sizes[SIZES] = {1, 16, 64, 128, 16384, MOST};

/* The limits that the project set itself, size by size; 0: none. */
static const double no_limit[SIZES];
static const double plain_128[SIZES] = {1.10, 1.10, 1.10, 1.10, 1.00, 1.00};
static const double shaped_128[SIZES] = {1.08, 1.08, 1.08, 1.08, 1.06, 1.06};
static const double plain_256a[SIZES] = {0, 0, 0, 0, 0, 1.10};
static const double verify_to_seal[SIZES] = {1.05, 1.05, 1.05, 1.05, 1.05, 1.05};

enum { PROVED, PLAIN, SHAPED, KINDS };
enum { SEAL, OPEN, VERIFY };

static const struct row {
    const char *name;
    call_t call[KINDS];
    const double *limit[KINDS]; /* of the ratio to that kind of C */
} rows[CALLS] = {
    {"seal 128", {seal, plain_seal, shaped_seal}, {NULL, plain_128, shaped_128}},
    {"open 128", {open, plain_open, shaped_open}, {NULL, plain_128, shaped_128}},
    {"verify 128", {verify, plain_verify, shaped_verify}, {NULL, no_limit, no_limit}},
    {"seal 256a", {seal256, plain_seal_256, shaped_seal_256}, {NULL, plain_256a, no_limit}},
    {"open 256a", {open256, plain_open_256, shaped_open_256}, {NULL, plain_256a, no_limit}},
};

/* What was measured, the last index being that of the size. */
static double ratio[KINDS][CALLS][SIZES], to_seal[SIZES], widest;

/* Sealed messages of n bytes, by plain C; false where the proved calls or the shaped C give others. */
static int prepare(size_t n)
{
    plain_seal128(key, nonce, secret, ad, AD, message, n, sealed);
    plain_seal256a(key, nonce, ad, AD, message, n, sealed256);
    int same = !seal(n) && !memcmp(output, sealed, n + 32);
    shaped_seal(n);
    same = same && !memcmp(output, sealed, n + 32);
    same = same && !seal256(n) && !memcmp(output, sealed256, n + 16);
    same = same && !open(n) && !memcmp(output, message, n) && !memcmp(info + 8, secret, 16);
    same = same && !open256(n) && !memcmp(output, message, n);
    same = same && !verify(n) && !plain_open(n) && !shaped_open(n) && !plain_open_256(n);
    return same;
}

/* The median; the widest middle half of all turns so far is kept beside it. */
static double settled(double *v, int n)
{
    double m = median(v, n), wide = v[3 * n / 4] - v[n / 4];
    if (wide > widest)
        widest = wide;
    return m;
}

static double timed(call_t call, size_t n, int times)
{
    double from = now();
    for (int j = 0; j < times; j++)
        call(n);
    return (now() - from) / times;
}

/* The calls of a row follow one another, and each ratio is of one such turn, so that a change of the clock moves both sides alike. */
static void measure(int z)
{
    static double turn[KINDS][CALLS][RUNS], verifying[RUNS];
    size_t n = sizes[z];
    int runs = n <= 128 ? RUNS : n < MOST ? 401 : 61, times = n <= 128 ? 100 : n < MOST ? 8 : 1;
    prepare(n);
    for (int i = 0; i < runs; i++) {
        for (int r = 0; r < CALLS; r++) {
            double proved = turn[PROVED][r][i] = timed(rows[r].call[PROVED], n, times);
            for (int k = PLAIN; k < KINDS; k++)
                turn[k][r][i] = proved / timed(rows[r].call[k], n, times);
        }
        verifying[i] = turn[PROVED][VERIFY][i] / turn[PROVED][SEAL][i];
    }
    for (int k = PLAIN; k < KINDS; k++)
        for (int r = 0; r < CALLS; r++)
            ratio[k][r][z] = settled(turn[k][r], runs);
    to_seal[z] = settled(verifying, runs);
}

static void print_row(const char *name, const double *figures, const double *limits)
{
    printf("| %s |", name);
    for (int z = 0; z < SIZES; z++)
        print_cell(figures[z], limits[z]);
    printf("\n");
}

static void print_limits(const char *name, const double *limits)
{
    printf("| wanted at most, %s |", name);
    for (int z = 0; z < SIZES; z++)
        limits[z] > 0 ? printf(" %.2f |", limits[z]) : printf(" |");
    printf("\n");
}

static void print_table(const char *title, int kind)
{
    printf("| %s, by bytes of message |", title);
    for (int z = 0; z < SIZES; z++)
        sizes[z] < 1024 ? printf(" %zu |", sizes[z]) : sizes[z] < MOST ? printf(" %zu KiB |", sizes[z] / 1024) : printf(" 1 MiB |");
    printf("\n|---|---|---|---|---|---|---|\n");
    for (int r = 0; r < CALLS; r++)
        print_row(rows[r].name, ratio[kind][r], rows[r].limit[kind]);
}

static void print_tables(void)
{
    print_table("proved / plain C", PLAIN);
    print_row("verify / seal of 128, both proved", to_seal, verify_to_seal);
    print_limits("seal and open of 128", plain_128);
    print_limits("seal and open of 256a", plain_256a);
    print_limits("verify / seal", verify_to_seal);
    printf("\n");
    print_table("proved / shaped C", SHAPED);
    print_limits("seal and open of 128", shaped_128);
    printf("\nBold: above what was wanted. The middle half of the turns is at most %.3f wide in every cell.\n", widest);
}

/* Bytes a second, over a quarter of a second. */
static double rate(call_t call, size_t n)
{
    double from = now(), bytes = 0, span;
    do {
        for (size_t done = 0; done < MOST / 8; done += n, bytes += (double)n)
            call(n);
        span = now() - from;
    } while (span < 2.5e8);
    return bytes / span * 1e9;
}

static int single(const char *name, size_t n)
{
    static const struct { const char *name; call_t call; } calls[] = {
        {"seal", seal}, {"open", open}, {"plain_seal", plain_seal}, {"plain_open", plain_open}, {"none", none},
    };
    plain_seal128(key, nonce, secret, ad, AD, message, n, sealed);
    if (!strcmp(name, "rate")) {
        printf("seal %.0f\nopen %.0f\nverify %.0f\n", rate(seal, n), rate(open, n), rate(verify, n));
        return 0;
    }
    for (size_t i = 0; i < sizeof calls / sizeof *calls; i++)
        if (!strcmp(name, calls[i].name))
            return (int)calls[i].call(n);
    return 1;
}

int main(int argc, char **argv)
{
    for (size_t i = 0; i < MOST; i++)
        message[i] = (u8)(i * 7 + (i >> 8));
    for (int i = 0; i < 32; i++)
        key[i] = (u8)i;
    if (argc == 3)
        return single(argv[1], strtoull(argv[2], NULL, 10));
    static const size_t lengths[] = {0, 1, 16, 64, 119, 120, 121, 127, 128, 129, 256, 1000, 16384, MOST};
    for (size_t i = 0; i < sizeof lengths / sizeof *lengths; i++)
        if (!prepare(lengths[i])) {
            fprintf(stderr, "the proved calls and C disagree at %zu bytes\n", lengths[i]);
            return 1;
        }
    for (int z = 0; z < SIZES; z++)
        measure(z);
    print_tables();
    return 0;
}

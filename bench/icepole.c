/*
 * ICEPOLE-128 and 256a in C (003, 2.6 to 2.11), for comparison with the proved code. Compiled twice: plainly, and with SHAPED (round.h).
 * Opening goes over the message twice, as the proved one: the tag first, then the message.
 */
#include <stddef.h>
#include "round.h"

#define JOIN_(a, b) a##_##b
#define JOIN(a, b) JOIN_(a, b)
#define NAME(x) JOIN(PREFIX, x)

typedef uint8_t u8;

static inline u64 load(const u8 *p)
{
    u64 v;
    memcpy(&v, p, 8);
    return v;
}

static inline void store(u8 *p, u64 v) { memcpy(p, &v, 8); }

static inline u64 *word(u64 s[4][5], int w) { return &s[w & 3][w >> 2]; }

/* Absorbs a padded block of n bytes; each byte is data, or where out is given its ciphertext goes there. */
static inline void absorb(u64 s[4][5], const u8 *p, size_t n, int frame, u8 *out)
{
    u8 b[136] = {0}, k[136];
    if (n)
        memcpy(b, p, n);
    b[n] = (u8)(2 | frame);
    for (int w = 0; w < 17; w++) {
        *word(s, w) ^= load(b + 8 * w);
        store(k + 8 * w, *word(s, w));
    }
    if (out && n)
        memcpy(out, k, n);
    permute(s, 6);
}

/* The same for a block of ciphertext: its message is absorbed, and put into out where that is given. */
static inline void absorb_cipher(u64 s[4][5], const u8 *c, size_t n, int frame, u8 *out)
{
    u8 b[136] = {0}, k[136];
    for (int w = 0; w < 17; w++)
        store(k + 8 * w, *word(s, w));
    for (size_t i = 0; i < n; i++)
        b[i] = c[i] ^ k[i];
    if (out && n)
        memcpy(out, b, n);
    b[n] = (u8)(2 | frame);
    for (int w = 0; w < 17; w++)
        *word(s, w) ^= load(b + 8 * w);
    permute(s, 6);
}

static inline void absorb_associated(u64 s[4][5], const u8 *a, size_t n, size_t block)
{
    for (; n > block; a += block, n -= block)
        absorb(s, a, block, 0, NULL);
    absorb(s, a, n, 1, NULL);
}

static inline void keyed(u64 s[4][5], const u8 *key, size_t key_len, const u8 *nonce, size_t nonce_len)
{
    u8 b[48] = {0};
    memcpy(b, key, key_len);
    memcpy(b + key_len, nonce, nonce_len);
    memcpy(s, start, sizeof start);
    for (size_t w = 0; w < (key_len + 16) / 8; w++)
        *word(s, (int)w) ^= load(b + 8 * w);
    permute(s, 12);
}

static inline void seal(u64 s[4][5], size_t words, const u8 *m, size_t n, u8 *out)
{
    size_t block = 8 * words;
    for (; n > block; m += block, out += block, n -= block) {
        for (int w = 0; w < (int)words; w++)
            store(out + 8 * w, *word(s, w) ^= load(m + 8 * w));
        *word(s, (int)words) ^= 3;
        permute(s, 6);
    }
    absorb(s, m, n, 0, out);
    store(out + n, s[0][0]);
    store(out + n + 8, s[1][0]);
}

static inline uint32_t open(u64 s[4][5], size_t words, const u8 *c, size_t n, u8 *out)
{
    size_t block = 8 * words, left = n;
    u64 k[4][5];
    const u8 *p = c;
    memcpy(k, s, sizeof k);
    for (; left > block; p += block, left -= block) {
        for (int w = 0; w < (int)words; w++)
            *word(s, w) = load(p + 8 * w);
        *word(s, (int)words) ^= 3;
        permute(s, 6);
    }
    absorb_cipher(s, p, left, 0, NULL);
    if ((s[0][0] ^ load(p + left)) | (s[1][0] ^ load(p + left + 8)))
        return 7;
    if (!out)
        return 0;
    for (left = n; left > block; c += block, out += block, left -= block) {
        for (int w = 0; w < (int)words; w++) {
            u64 v = load(c + 8 * w);
            store(out + 8 * w, v ^ *word(k, w));
            *word(k, w) = v;
        }
        *word(k, (int)words) ^= 3;
        permute(k, 6);
    }
    u8 last[136];
    for (int w = 0; w < 17; w++)
        store(last + 8 * w, *word(k, w));
    for (size_t i = 0; i < left; i++)
        out[i] = c[i] ^ last[i];
    return 0;
}

void NAME(seal128)(const u8 *key, const u8 *nonce, const u8 *secret, const u8 *ad, size_t ad_len, const u8 *m, size_t n, u8 *out)
{
    u64 s[4][5];
    keyed(s, key, 16, nonce, 16);
    absorb(s, secret, 16, 0, out);
    absorb_associated(s, ad, ad_len, 128);
    seal(s, 16, m, n, out + 16);
}

/* out NULL: the tag is verified, nothing is written */
uint32_t NAME(open128)(const u8 *key, const u8 *nonce, const u8 *ad, size_t ad_len, const u8 *c, size_t n, u8 *out, u8 *secret)
{
    u64 s[4][5];
    u8 got[16];
    keyed(s, key, 16, nonce, 16);
    absorb_cipher(s, c, 16, 0, got);
    absorb_associated(s, ad, ad_len, 128);
    uint32_t number = open(s, 16, c + 16, n, out);
    if (!number)
        memcpy(secret, got, 16);
    return number;
}

void NAME(seal256a)(const u8 *key, const u8 *nonce, const u8 *ad, size_t ad_len, const u8 *m, size_t n, u8 *out)
{
    u64 s[4][5];
    keyed(s, key, 32, nonce, 12);
    absorb(s, m, 0, 0, NULL);
    absorb_associated(s, ad, ad_len, 120);
    seal(s, 15, m, n, out);
}

uint32_t NAME(open256a)(const u8 *key, const u8 *nonce, const u8 *ad, size_t ad_len, const u8 *c, size_t n, u8 *out)
{
    u64 s[4][5];
    keyed(s, key, 32, nonce, 12);
    absorb(s, c, 0, 0, NULL);
    absorb_associated(s, ad, ad_len, 120);
    return open(s, 15, c, n, out);
}

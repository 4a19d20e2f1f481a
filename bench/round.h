/*
 * The round of ICEPOLE in C (003, 2.5, Appendix A and B), for comparison. Plain: Appendix B for mu, the paper's formula for psi.
 * With SHAPED: mu by the matrix with two sums shared by hand, psi by the differences of neighbours. The proved code (crates/permutation) has this psi, and mu row by
 * row. With that mu gcc's code is slower, so the shape that is harder to beat stands here (docs/DECISIONS.md, 97).
 */
#include <stdint.h>
#include <string.h>

typedef uint64_t u64;

static const u64 constants[12] = {
    0x0091A2B3C4D5E6F7, 0x0048D159E26AF37B, 0x002468ACF13579BD, 0x00123456F89ABCDE,
    0x00091A2BFC4D5E6F, 0x00048D15FE26AF37, 0x0002468AFF13579B, 0x000123457F89ABCD,
    0x000091A2BFC4D5E6, 0x000048D1DFE26AF3, 0x00002468EFF13579, 0x00001234F7F89ABC,
};

static const u64 start[4][5] = {
    {0xFF97A42D7F8E6FD4, 0x90FEE5A0A44647C4, 0x8C5BDA0CD6192E76, 0xAD30A6F71B19059C, 0x30935AB7D08FFC64},
    {0xEB5AA93F2317D635, 0xA9A6E6260D712103, 0x81A57C16DBCF555F, 0x43B831CD0347C826, 0x01F22F1A11A5569F},
    {0x05E5635A21D9AE61, 0x64BEFEF28CC970F2, 0x613670957BC46611, 0xB87C5A554FD00ECB, 0x8C3EE88A1CCF32C8},
    {0x940C7922AE3A2614, 0x1841F924A2C509E4, 0x16F53526E70465C2, 0x75F644E97F30A13B, 0xEAF1FF7B5CECA249},
};

#define ROTL(w, k) (((w) << (k)) | ((w) >> ((64 - (k)) & 63)))

static inline void round_function(u64 s[4][5], u64 constant)
{
    u64 t[4][5];
#ifdef SHAPED
    /* mu by the matrix, sharing 2a + c and 2c + d */
    const u64 *a = s[0], *b = s[1], *c = s[2], *d = s[3];
    u64 p[5] = {a[4] ^ c[0], a[0] ^ c[1], a[1] ^ a[4] ^ c[2], a[2] ^ c[3], a[3] ^ c[4]};
    u64 q[5] = {c[4] ^ d[0], c[0] ^ d[1], c[1] ^ c[4] ^ d[2], c[2] ^ d[3], c[3] ^ d[4]};
    for (int y = 0; y < 5; y++)
        t[0][y] = p[y] ^ b[y] ^ d[y];
    t[1][0] = p[1] ^ b[0] ^ d[4];
    t[1][1] = p[2] ^ p[0] ^ b[1] ^ d[0];
    t[1][2] = p[3] ^ b[2] ^ d[1] ^ d[4];
    t[1][3] = p[4] ^ b[3] ^ d[2];
    t[1][4] = p[0] ^ b[4] ^ d[3];
    t[2][0] = a[0] ^ b[4] ^ q[1];
    t[2][1] = a[1] ^ b[0] ^ q[2] ^ q[0];
    t[2][2] = a[2] ^ b[1] ^ b[4] ^ q[3];
    t[2][3] = a[3] ^ b[2] ^ q[4];
    t[2][4] = a[4] ^ b[3] ^ q[0];
    t[3][0] = a[0] ^ b[1] ^ q[0];
    t[3][1] = a[1] ^ b[2] ^ b[0] ^ q[1];
    t[3][2] = a[2] ^ b[3] ^ q[2];
    t[3][3] = a[3] ^ b[4] ^ q[3];
    t[3][4] = a[4] ^ b[0] ^ q[4];
#else
    /* mu by Appendix B */
    t[0][4] = s[0][3] ^ s[1][4] ^ s[2][4] ^ s[3][4];
    t[0][3] = s[0][2] ^ s[1][3] ^ s[2][3] ^ s[3][3];
    t[0][2] = s[0][4] ^ s[0][1] ^ s[1][2] ^ s[2][2] ^ s[3][2];
    t[0][1] = s[0][0] ^ s[1][1] ^ s[2][1] ^ s[3][1];
    t[0][0] = s[0][4] ^ s[1][0] ^ s[2][0] ^ s[3][0];
    t[1][4] = s[0][4] ^ s[1][4] ^ s[2][0] ^ s[3][3];
    t[1][3] = s[0][3] ^ s[1][3] ^ s[2][4] ^ s[3][2];
    t[1][2] = s[0][2] ^ s[1][2] ^ s[2][3] ^ s[3][4] ^ s[3][1];
    t[1][1] = s[0][1] ^ s[1][1] ^ s[2][2] ^ s[2][0] ^ s[3][0];
    t[1][0] = s[0][0] ^ s[1][0] ^ s[2][1] ^ s[3][4];
    t[2][4] = s[0][4] ^ s[1][3] ^ s[2][4] ^ s[3][0];
    t[2][3] = s[0][3] ^ s[1][2] ^ s[2][3] ^ s[3][4];
    t[2][2] = s[0][2] ^ s[1][4] ^ s[1][1] ^ s[2][2] ^ s[3][3];
    t[2][1] = s[0][1] ^ s[1][0] ^ s[2][1] ^ s[3][2] ^ s[3][0];
    t[2][0] = s[0][0] ^ s[1][4] ^ s[2][0] ^ s[3][1];
    t[3][4] = s[0][4] ^ s[1][0] ^ s[2][3] ^ s[3][4];
    t[3][3] = s[0][3] ^ s[1][4] ^ s[2][2] ^ s[3][3];
    t[3][2] = s[0][2] ^ s[1][3] ^ s[2][4] ^ s[2][1] ^ s[3][2];
    t[3][1] = s[0][1] ^ s[1][2] ^ s[1][0] ^ s[2][0] ^ s[3][1];
    t[3][0] = s[0][0] ^ s[1][1] ^ s[2][4] ^ s[3][0];
#endif
    /* rho and pi */
    s[0][1] = t[0][0];           s[1][3] = ROTL(t[0][1], 36); s[2][0] = ROTL(t[0][2], 3);
    s[3][2] = ROTL(t[0][3], 41); s[0][0] = ROTL(t[0][4], 18); s[1][2] = ROTL(t[1][0], 1);
    s[2][4] = ROTL(t[1][1], 44); s[3][1] = ROTL(t[1][2], 10); s[0][4] = ROTL(t[1][3], 45);
    s[1][1] = ROTL(t[1][4], 2);  s[2][3] = ROTL(t[2][0], 62); s[3][0] = ROTL(t[2][1], 6);
    s[0][3] = ROTL(t[2][2], 43); s[1][0] = ROTL(t[2][3], 15); s[2][2] = ROTL(t[2][4], 61);
    s[3][4] = ROTL(t[3][0], 28); s[0][2] = ROTL(t[3][1], 55); s[1][4] = ROTL(t[3][2], 25);
    s[2][1] = ROTL(t[3][3], 21); s[3][3] = ROTL(t[3][4], 56);
    /* psi */
    for (int x = 0; x < 4; x++) {
        u64 a = s[x][0], b = s[x][1], c = s[x][2], d = s[x][3], e = s[x][4];
#ifdef SHAPED
        u64 ab = a ^ b, bc = b ^ c, cd = c ^ d, de = d ^ e, ea = e ^ a, same = ~(ab | bc | cd | de);
        s[x][0] = a ^ (c & bc) ^ same;
        s[x][1] = b ^ (d & cd) ^ same;
        s[x][2] = c ^ (e & de) ^ same;
        s[x][3] = d ^ (a & ea) ^ same;
        s[x][4] = e ^ (b & ab) ^ same;
#else
        u64 both = (a & b & c & d & e) ^ (~a & ~b & ~c & ~d & ~e);
        s[x][0] = a ^ (~b & c) ^ both;
        s[x][1] = b ^ (~c & d) ^ both;
        s[x][2] = c ^ (~d & e) ^ both;
        s[x][3] = d ^ (~e & a) ^ both;
        s[x][4] = e ^ (~a & b) ^ both;
#endif
    }
    /* kappa */
    s[0][0] ^= constant;
}

static void permute(u64 s[4][5], int rounds)
{
    for (int r = 0; r < rounds; r++)
        round_function(s, constants[r]);
}

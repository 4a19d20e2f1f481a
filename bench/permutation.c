/* P6 in plain C, many times over, as crates/permutation_bench has it. */
#include "round.h"

/* S[0][0] after P6 of the starting state, with seed xored into S[0][0], times over. */
u64 plain_p6(u64 seed, u64 times)
{
    u64 s[4][5];
    memcpy(s, start, sizeof s);
    s[0][0] ^= seed;
    for (u64 i = 0; i < times; i++)
        permute(s, 6);
    return s[0][0];
}

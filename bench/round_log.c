/*
 * Times the judging of a log of 13 states, all right, against twelve rounds of the proved permutation (two P6), turn about in one run.
 *   round_log_bench         a row of the page: medians of both in nanoseconds, and of their ratio
 *   round_log_bench TIMES   judges the log so often, for callgrind
 */
#include <string.h>
#include "../include/core.h"
#include "round.h"
#include "timing.h"

u64 bench_p6(u64 seed, u64 times); /* crates/permutation_bench */

enum { RUNS = 1001, TIMES = 500, ROUNDS = CORE_MAX_ROUNDS };

static uint8_t log_of_p12[CORE_LOG_BYTES(ROUNDS)];

/* The states after 0 to 12 rounds of the starting state. */
static void make_log(void)
{
    for (int r = 0; r <= ROUNDS; r++) {
        u64 s[4][5];
        memcpy(s, start, sizeof s);
        permute(s, r);
        for (int w = 0; w < 20; w++)
            memcpy(log_of_p12 + CORE_STATE_BYTES * r + 8 * w, &s[w % 4][w / 4], 8);
    }
}

/* How often the log was found right. */
static u64 judge(u64 times)
{
    u64 right = 0;
    for (u64 i = 0; i < times; i++) {
        uint32_t agrees, rounds;
        uint32_t refusal = icepole_check_log(log_of_p12, sizeof log_of_p12, &agrees, &rounds);
        right += refusal == CORE_DONE && agrees == 1 && rounds == ROUNDS;
    }
    return right;
}

int main(int argc, char **argv)
{
    static double judged[RUNS], permuted[RUNS], ratio[RUNS];
    u64 right = 0;
    make_log();
    u64 times = argc == 2 ? strtoull(argv[1], NULL, 10) : 0;
    if (times > 0)
        return judge(times) != times;
    for (int i = 0; i < RUNS; i++) {
        double from = now();
        right += judge(TIMES);
        judged[i] = (now() - from) / TIMES;
        from = now();
        bench_p6((u64)i, 2 * TIMES);
        permuted[i] = (now() - from) / TIMES;
        ratio[i] = judged[i] / permuted[i];
    }
    if (right != (u64)RUNS * TIMES) {
        fprintf(stderr, "a right log was not found right\n");
        return 1;
    }
    printf("| a log of 13 states | %.0f ns | %.0f ns |", median(judged, RUNS), median(permuted, RUNS));
    print_cell(median(ratio, RUNS), 1.30);
    printf(" at most 1.30 |\n");
    return 0;
}

/*
 * Times the proved P6 against plain C, turn about in one run.
 *   p6              a row of the page: medians of both in nanoseconds, and of their ratio
 *   p6 NAME TIMES   runs one of them so often, for callgrind; NAME is proved or plain
 */
#include <stdint.h>
#include <string.h>
#include "timing.h"

uint64_t bench_p6(uint64_t seed, uint64_t times); /* crates/permutation_bench */
uint64_t plain_p6(uint64_t seed, uint64_t times); /* bench/permutation.c */

enum { RUNS = 1001, TIMES = 1000 };

static double timed(uint64_t (*f)(uint64_t, uint64_t), uint64_t seed, uint64_t *sum)
{
    double from = now();
    *sum ^= f(seed, TIMES);
    return (now() - from) / TIMES;
}

int main(int argc, char **argv)
{
    static double proved[RUNS], plain[RUNS], ratio[RUNS];
    uint64_t sum = 0;
    if (argc == 3) {
        uint64_t times = strtoull(argv[2], NULL, 10);
        printf("%016llx\n", (unsigned long long)(strcmp(argv[1], "plain") ? bench_p6(7, times) : plain_p6(7, times)));
        return 0;
    }
    for (int i = 0; i < RUNS; i++) {
        proved[i] = timed(bench_p6, (uint64_t)i, &sum);
        plain[i] = timed(plain_p6, (uint64_t)i, &sum);
        ratio[i] = proved[i] / plain[i];
    }
    if (sum != 0) {
        fprintf(stderr, "the proved P6 and plain C disagree\n");
        return 1;
    }
    printf("| time of one P6 | %.0f ns | %.0f ns |", median(proved, RUNS), median(plain, RUNS));
    print_cell(median(ratio, RUNS), 1.10);
    printf(" at most 1.10 |\n");
    return 0;
}

/*
 * Times twelve rounds back against twelve rounds forward, both by the C calls, turn about in one run.
 *   rounds_back_bench                 a row of the page: medians of both in nanoseconds, and of their ratio
 *   rounds_back_bench back TIMES      twelve rounds back so often, for callgrind; and forward likewise
 */
#include <string.h>
#include "../include/core.h"
#include "timing.h"

enum { RUNS = 1001, TIMES = 500, ROUNDS = CORE_MAX_ROUNDS };

typedef uint64_t u64;

typedef uint32_t rounds_call(uint8_t *state, size_t state_len, uint32_t rounds);

static uint8_t state[CORE_STATE_BYTES];

/* How often the call was done. */
static u64 run(rounds_call *call, u64 times)
{
    u64 done = 0;
    for (u64 i = 0; i < times; i++)
        done += call(state, sizeof state, ROUNDS) == CORE_DONE;
    return done;
}

static double timed(rounds_call *call, u64 *done)
{
    double from = now();
    *done += run(call, TIMES);
    return (now() - from) / TIMES;
}

int main(int argc, char **argv)
{
    static double back[RUNS], forward[RUNS], ratio[RUNS];
    uint8_t before[sizeof state];
    u64 done = 0;
    for (size_t i = 0; i < sizeof state; i++)
        state[i] = (uint8_t)i;
    if (argc == 3) {
        u64 times = strtoull(argv[2], NULL, 10);
        return run(strcmp(argv[1], "back") == 0 ? icepole_rounds_back : icepole_rounds_forward, times) != times;
    }
    memcpy(before, state, sizeof state);
    for (int i = 0; i < RUNS; i++) {
        back[i] = timed(icepole_rounds_back, &done);
        forward[i] = timed(icepole_rounds_forward, &done);
        ratio[i] = back[i] / forward[i];
    }
    if (done != 2 * (u64)RUNS * TIMES || memcmp(state, before, sizeof state) != 0) {
        fprintf(stderr, "rounds back and forward did not come back\n");
        return 1;
    }
    printf("| twelve rounds | %.0f ns | %.0f ns |", median(back, RUNS), median(forward, RUNS));
    print_cell(median(ratio, RUNS), 3.00);
    printf(" at most 3.00 |\n");
    return 0;
}

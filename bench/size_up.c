/* Sizes up a burst of 60 pictures of the longest length so many times, for counting instructions: no picture is there, and nothing is sealed. */
#include <inttypes.h>
#include <stdio.h>
#include <stdlib.h>

#include "burst.h"

int main(int argc, char **argv)
{
    long times = argc == 2 ? strtol(argv[1], NULL, 10) : 0;
    uint64_t lengths[BURST_MAX_SHOTS], bytes = 0, p12 = 0, p6 = 0;

    for (int shot = 0; shot < BURST_MAX_SHOTS; shot++) {
        lengths[shot] = BURST_MAX_PICTURE_BYTES;
    }
    for (long i = 0; i < times; i++) {
        if (burst_size_up(lengths, BURST_MAX_SHOTS, &bytes, &p12, &p6) != BURST_DONE) {
            return 1;
        }
    }
    printf("%" PRIu64 " bytes, %" PRIu64 " P12, %" PRIu64 " P6\n", bytes, p12, p6);
    return !(times > 0 && bytes == 62917272 && p12 == 61 && p6 == 491648);
}

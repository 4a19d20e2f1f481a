/* Cards, and how many full bursts each holds, through the C call. Each number
   that it writes is its own piece of the heap, so that a memory checker sees a
   call that writes past it. */

#include <stdio.h>
#include <stdlib.h>

#include "burst.h"
#include "card.h"

enum { PICTURE = 3, TOTAL = 119 };

/* What stands in a number that no call has written. */
static const uint64_t FILL_WIDE = 0xA5A5A5A5A5A5A5A5;

/* A number for a call to write. */
static uint64_t *wide_number(void)
{
    uint64_t *lent = malloc(sizeof *lent);
    if (lent == NULL) {
        puts("no memory");
        exit(1);
    }
    return lent;
}

/* Cards, shots and picture lengths, and what is said of them. */
static const struct carton {
    uint64_t card, shots, picture;
    uint32_t refusal;
    uint64_t bursts, left;
} cartons[] = {
    {0, 1, 1, BURST_DONE, 0, 0},
    {116, 1, 1, BURST_DONE, 0, 116},
    {117, 1, 1, BURST_DONE, 1, 0},
    {2 * TOTAL - 1, 1, PICTURE, BURST_DONE, 1, TOTAL - 1},
    {2 * TOTAL + 5, 1, PICTURE, BURST_DONE, 2, 5},
    {UINT64_C(32000000000), 3, 250000, BURST_DONE, 42655, 48380},
    {UINT64_MAX, 1, 1, BURST_DONE, UINT64_C(157664479262474800), 15},
    {62917271, BURST_MAX_SHOTS, BURST_MAX_PICTURE_BYTES, BURST_DONE, 0, 62917271},
    {UINT64_MAX, BURST_MAX_SHOTS, BURST_MAX_PICTURE_BYTES, BURST_DONE,
     UINT64_C(293190462449), 32487},
    {1000, 0, 1, BURST_SHOT_COUNT, 0, 0},
    {1000, BURST_MAX_SHOTS + 1, 1, BURST_SHOT_COUNT, 0, 0},
    {1000, (UINT64_C(1) << 32) + 1, 1, BURST_SHOT_COUNT, 0, 0},
    {1000, 0, 0, BURST_SHOT_COUNT, 0, 0},
    {1000, BURST_MAX_SHOTS + 1, BURST_MAX_PICTURE_BYTES + 1, BURST_SHOT_COUNT, 0, 0},
    {0, 1, 0, BURST_PICTURE_LENGTH, 0, 0},
    {1000, BURST_MAX_SHOTS, BURST_MAX_PICTURE_BYTES + 1, BURST_PICTURE_LENGTH, 0, 0},
    {UINT64_MAX, 1, (UINT64_C(1) << 32) + 1, BURST_PICTURE_LENGTH, 0, 0},
};

static const char *fill_cards(uint64_t *bursts, uint64_t *left)
{
    for (size_t i = 0; i < sizeof cartons / sizeof cartons[0]; i++) {
        const struct carton *c = &cartons[i];
        *bursts = FILL_WIDE;
        *left = FILL_WIDE;
        if (burst_card_line(c->card, c->shots, c->picture, bursts, left) != c->refusal ||
            *bursts != c->bursts || *left != c->left) {
            return c->refusal == BURST_DONE ? "what a card holds differs"
                                            : "a card was not refused as it must be";
        }
    }
    return NULL;
}

int main(void)
{
    uint64_t *bursts = wide_number(), *left = wide_number();
    const char *wrong = fill_cards(bursts, left);
    free(bursts);
    free(left);
    if (wrong != NULL) {
        printf("fill cards: %s\n", wrong);
        return 1;
    }
    puts("fill cards ok");
    return 0;
}

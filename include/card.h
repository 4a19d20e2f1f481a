/*
 * How many full bursts a card holds, for the line on the carton.
 *
 * The function is written in Rattle and proved to meet its contract (crates/burst_c). Link libcard_c.a, which `make lib` leaves beside
 * this header in build/lib. It needs no other library; a program may have it beside libburst_c.a. docs/CARDS.md has the rule, with examples.
 *
 * Machines. The library is for x86-64 Linux, as the Rattle kit builds it, and for no other machine or system.
 *
 * Numbers lent by pointer are aligned and not NULL, and do not overlap. The proofs assume this, and that nobody else changes them during the
 * call. It writes both every time, and keeps nothing for the next call, so several threads may call at the same time, each with numbers of
 * its own.
 *
 * Editions. What is counted is files of edition 2, those that burst_replay of burst.h writes and burst_size_up sizes up.
 */
#ifndef BURST_CARD_H
#define BURST_CARD_H

#include <stdint.h>

#ifdef __cplusplus
extern "C" {
#endif

/* Beside 0, when done, and 10, for a picture length of 0 or above 1,048,576: BURST_DONE and BURST_PICTURE_LENGTH of burst.h. */
enum burst_card_refusal {
    BURST_SHOT_COUNT = 16 /* a full burst has 1 to 60 shots */
};

/* Counts how many full bursts a card holds. card is its length in bytes; every burst has so many shots, all of them kept, with pictures of
 * so many bytes each. Writes
 *   *bursts  how many of their files, of the edition that burst_replay writes, fit on the card one behind the other
 *   *left    the bytes that are left then, fewer than such a file has
 * so that card = *bursts * file length + *left, where the file length is what burst_size_up says of such a burst. Refusals 16 for shots of
 * 0 or above 60, then 10 for a picture length of 0 or above 1,048,576. Where it refuses, both numbers are 0. shots and picture are judged
 * as the 64-bit numbers that they are. No card is refused: one of 0 bytes holds 0 bursts. The count is of files alone: what a file system
 * adds for each of them (clusters, directories) is not in it. */
uint32_t burst_card_line(uint64_t card, uint64_t shots, uint64_t picture,
                         uint64_t *bursts, uint64_t *left);

#ifdef __cplusplus
}
#endif

#endif

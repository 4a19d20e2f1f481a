/*
 * For those who test a hardware core of ICEPOLE's permutation: judging the log of its rounds, and driving it to a chosen state.
 *
 * The functions are written in Rattle and proved to meet their contracts (crates/core_c). Link libcore_c.a, which `make lib` leaves
 * beside this header in build/lib. It needs neither libicepole_c.a nor libburst_c.a; a program may have all three.
 *
 * Machines. The library is for x86-64 Linux, as the Rattle kit builds it, and for no other machine or system.
 *
 * Slices. A slice is a pointer and a length in bytes. The pointer is valid for reading the length, and for writing it unless it is const.
 * NULL is not allowed, not even with length 0: an empty slice is any other pointer with length 0. A slice may stand at any address.
 * Numbers lent by pointer are aligned and not NULL, and overlap neither each other nor a slice. The proofs assume this.
 *
 * During a call nobody else changes what is lent: no other thread or process, no interrupt, no DMA, and no mapping of a file that
 * somebody writes. The proofs assume this too. What a call writes is settled when it returns; look at it then. A call keeps nothing for
 * the next one, so several threads may call at the same time, each with numbers and states of its own; a log they may share.
 *
 * States. A state is 160 bytes: its twenty 64-bit words in word order (S[0][0], S[1][0], S[2][0], S[3][0], S[0][1], ..), each low byte
 * first. Any 160 bytes are a state. Rounds are counted from 0, and round i is the one with constant i. docs/FORMAT.md, "The permutation",
 * has the rounds.
 *
 * Logs. The core logs its state before a run and after every round. A log of r rounds has 1 + r states, r from 1 to 12.
 *
 * Time. How long icepole_check_log takes depends on the log's length and on the first round that differs. How long the other two calls
 * take depends on the number of rounds. That nothing else matters is not promised: do not use secret states where somebody may measure
 * the time.
 */
#ifndef ICEPOLE_CORE_H
#define ICEPOLE_CORE_H

#include <stddef.h>
#include <stdint.h>

#ifdef __cplusplus
extern "C" {
#endif

enum core_refusal {
    CORE_DONE = 0,
    CORE_STATE_TOO_SHORT = 5,  /* the slice has no room for a state */
    CORE_LOG_LENGTH = 19,      /* the log's length is not that of 1 + r states, r from 1 to 12 */
    CORE_TOO_MANY_ROUNDS = 20  /* more than 12 rounds */
};

#define CORE_STATE_BYTES 160
#define CORE_MAX_ROUNDS 12

/* The length of a log of r rounds. */
#define CORE_LOG_BYTES(r) ((size_t)CORE_STATE_BYTES * (1 + (size_t)(r)))

/*
 * Judges a log, whoever made it. Each round is judged by the state in the log before it. The call ends on every input; it reads the log
 * and does not write to it, and writes both numbers every time.
 *
 * Look at the returned number first. It is CORE_LOG_LENGTH where the length is not that of 1 + r states, r from 1 to 12, whatever the bytes
 * are: no state is looked at then, and both numbers are 0, as they are where round 0 differs. Otherwise it is CORE_DONE, and
 *   *agrees 1: every state is one round from the state before it, and *round is r, the number of rounds;
 *   *agrees 0: round *round differs, and none before it does: the state after it is not one round from the state before it.
 */
uint32_t icepole_check_log(const uint8_t *log, size_t log_len, uint32_t *agrees, uint32_t *round);

/*
 * For driving the core to a chosen state: changes the wanted state in the slice into the one from which `rounds` rounds, constants from
 * 0, reach it. There is always just one. Give it to the core, run that many rounds from round 0 on, and the core is in the wanted state.
 *
 * The state is the first CORE_STATE_BYTES bytes of the slice, changed in place; later bytes stay. rounds is from 0 to CORE_MAX_ROUNDS; 0
 * leaves the state as it is. The call ends on every input. It returns CORE_TOO_MANY_ROUNDS where rounds is above CORE_MAX_ROUNDS,
 * whatever the length; else CORE_STATE_TOO_SHORT where the slice is shorter than a state; and writes nothing then. Otherwise it returns
 * CORE_DONE.
 */
uint32_t icepole_rounds_back(uint8_t *state, size_t state_len, uint32_t rounds);

/*
 * The other way: changes a state into the one that `rounds` rounds, constants from 0, reach from it. Slice, limits and returned numbers
 * are the same. One of the two calls after the other, with the same rounds, leaves every slice as it was.
 */
uint32_t icepole_rounds_forward(uint8_t *state, size_t state_len, uint32_t rounds);

#ifdef __cplusplus
}
#endif

#endif

/*
 * ICEPOLE-128, ICEPOLE-128a and ICEPOLE-256a: authenticated encryption of whole messages, and of messages in strips (128).
 *
 * The functions are written in Rattle and proved to meet their contracts (crates/icepole_c). Link libicepole_c.a, which `make lib`
 * leaves beside this header in build/lib.
 *
 * Machines. The library is for x86-64 Linux, as the Rattle kit builds it, and for no other machine or system.
 *
 * Slices. Every slice is a pointer and a length in bytes. The pointers are valid for their lengths, and out, buffer, info and state overlap
 * no other slice; the proofs assume it. Slices that are only read may overlap. NULL is not allowed, not even with length 0: an empty slice
 * is any other pointer with length 0. All numbers are little-endian.
 *
 * During a call nobody else changes what is lent: no other thread or process, no interrupt, no DMA, and no mapping of a file that
 * somebody writes. The proofs assume this too. A sealed message that changes while it is opened may be let through though no tag covers
 * it. What a call writes is settled when it returns; look at it then. A call keeps nothing for the next one but what stands in state, so
 * several threads may call at the same time, each with slices of its own to write to; what is only read they may share.
 *
 * Associated data comes in two parts, ad1 and ad2, and means their joining, ad1 then ad2. Where there is one part, the other is empty.
 *
 * Result. Each function returns a refusal number, 0 when it is done. A number is given where its condition is the first in the order
 * below to hold. A refused call writes nothing, but for a start, which leaves a finished state where state has room for one.
 *
 * Keys. Take all bytes of a key, 16 or for 256a 32, from the system's random source, by getrandom() or in a shell by
 *     (umask 077 && head -c 16 /dev/urandom >camera.key)
 * Make one for each camera. Never work a key out from a serial number, a name, a date or a pass phrase. Keep it out of command lines
 * and shell histories, and out of files that others may read.
 *
 * Nonces. A key and a nonce may be used for one sealed message only.
 */
#ifndef ICEPOLE_H
#define ICEPOLE_H

#include <stddef.h>
#include <stdint.h>

#ifdef __cplusplus
extern "C" {
#endif

/* The refusal numbers. Sealing tests them in the order 1, 2, 3, 4, 5; opening, in place too, in the order 1, 2, 4, 6, 5, 7; start in the
 * order 1, 2, 3, 4, 5; strip in the order 14, 4, 5; end in the order 14, 5. A state slice that is too short gets 5: in start after all
 * others, in strip and end before them, since there is no state to judge. */
enum icepole_refusal {
    ICEPOLE_DONE = 0,
    ICEPOLE_KEY_LENGTH = 1,       /* the key has another length than the variant's */
    ICEPOLE_NONCE_LENGTH = 2,     /* the nonce has another length than the variant's */
    ICEPOLE_SECRET_LENGTH = 3,    /* the secret number has another length than the variant's */
    ICEPOLE_DATA_TOO_LONG = 4,    /* associated data (both parts together) or message is above ICEPOLE_MAX_BYTES; so too for the
                                   * message that a sealed message implies, or that strips add up to */
    ICEPOLE_OUTPUT_TOO_SHORT = 5, /* out, in opening info, or for strips state, is too short; in opening in place info alone */
    ICEPOLE_SEALED_TOO_SHORT = 6, /* the sealed message is shorter than the sealed secret number and the tag */
    ICEPOLE_TAG_DIFFERS = 7,      /* the tag differs: not sealed under this key, nonce and associated data */
    ICEPOLE_STRIP_STATE = 14      /* the strip state is finished, or its count is above ICEPOLE_MAX_BYTES */
};

/* Associated data and message are at most so many bytes each. */
#define ICEPOLE_MAX_BYTES 67108864

/* Sizes in bytes. A sealed message is OVERHEAD bytes longer than its message. INFO is what opening writes to info. */
#define ICEPOLE128_KEY_BYTES 16
#define ICEPOLE128_NONCE_BYTES 16
#define ICEPOLE128_SECRET_BYTES 16
#define ICEPOLE128_OVERHEAD_BYTES 32
#define ICEPOLE128_INFO_BYTES 24
#define ICEPOLE128_TAG_BYTES 16
#define ICEPOLE128_STRIP_STATE_BYTES 169

#define ICEPOLE128A_KEY_BYTES 16
#define ICEPOLE128A_NONCE_BYTES 12
#define ICEPOLE128A_SECRET_BYTES 0
#define ICEPOLE128A_OVERHEAD_BYTES 16
#define ICEPOLE128A_INFO_BYTES 8

#define ICEPOLE256A_KEY_BYTES 32
#define ICEPOLE256A_NONCE_BYTES 12
#define ICEPOLE256A_SECRET_BYTES 0
#define ICEPOLE256A_OVERHEAD_BYTES 16
#define ICEPOLE256A_INFO_BYTES 8

/*
 * Sealing: writes the sealed secret number, the ciphertext and the 16-byte tag, msg_len + OVERHEAD bytes, to the front of out; later
 * bytes stay. The secret number of 128a and 256a is empty.
 */
uint32_t icepole128_seal(const uint8_t *key, size_t key_len, const uint8_t *nonce, size_t nonce_len,
                         const uint8_t *secret, size_t secret_len, const uint8_t *ad1, size_t ad1_len,
                         const uint8_t *ad2, size_t ad2_len, const uint8_t *msg, size_t msg_len,
                         uint8_t *out, size_t out_len);
uint32_t icepole128a_seal(const uint8_t *key, size_t key_len, const uint8_t *nonce, size_t nonce_len,
                          const uint8_t *secret, size_t secret_len, const uint8_t *ad1, size_t ad1_len,
                          const uint8_t *ad2, size_t ad2_len, const uint8_t *msg, size_t msg_len,
                          uint8_t *out, size_t out_len);
uint32_t icepole256a_seal(const uint8_t *key, size_t key_len, const uint8_t *nonce, size_t nonce_len,
                          const uint8_t *secret, size_t secret_len, const uint8_t *ad1, size_t ad1_len,
                          const uint8_t *ad2, size_t ad2_len, const uint8_t *msg, size_t msg_len,
                          uint8_t *out, size_t out_len);

/*
 * Opening: where the tag agrees, writes the message, sealed_len - OVERHEAD bytes, to the front of out, and the message's length
 * (8 bytes) and then the secret number (SECRET bytes) to the front of info; later bytes of both stay. Nothing is written before the
 * tag was found to agree.
 */
uint32_t icepole128_open(const uint8_t *key, size_t key_len, const uint8_t *nonce, size_t nonce_len,
                         const uint8_t *ad1, size_t ad1_len, const uint8_t *ad2, size_t ad2_len,
                         const uint8_t *sealed, size_t sealed_len, uint8_t *out, size_t out_len,
                         uint8_t *info, size_t info_len);
uint32_t icepole128a_open(const uint8_t *key, size_t key_len, const uint8_t *nonce, size_t nonce_len,
                          const uint8_t *ad1, size_t ad1_len, const uint8_t *ad2, size_t ad2_len,
                          const uint8_t *sealed, size_t sealed_len, uint8_t *out, size_t out_len,
                          uint8_t *info, size_t info_len);
uint32_t icepole256a_open(const uint8_t *key, size_t key_len, const uint8_t *nonce, size_t nonce_len,
                          const uint8_t *ad1, size_t ad1_len, const uint8_t *ad2, size_t ad2_len,
                          const uint8_t *sealed, size_t sealed_len, uint8_t *out, size_t out_len,
                          uint8_t *info, size_t info_len);

/*
 * Opening in place, for a unit with memory for one message: all of buffer is the sealed message. buffer_len is its length, not that of a
 * longer array in which it stands: all of that would be another sealed message, and is refused (with 7, where it is not above the
 * maximum). Where the tag agrees, writes the message, buffer_len - OVERHEAD bytes, to the front of buffer, over what stood there, and its
 * length and the secret number to the front of info, as opening does. The last OVERHEAD bytes of buffer stay as they were, and so do later
 * bytes of info. Nothing is written before the tag was found to agree: a refused call leaves the sealed message whole.
 *
 * The number, the message and what goes into info are those of opening with an out that is long enough. A message is shorter than its
 * sealed message, so buffer always has room for it: 5 is for info alone.
 *
 * The sealed message is written over: keep it elsewhere, as on the card, where it is wanted again, and open a message once (a second call
 * takes what is in buffer for a sealed message). Show buffer only as far as the length in info says: behind the message stand bytes of the
 * sealed message, which are no secret. When message and secret number are no longer wanted, write zeros over buffer and info in a way that
 * the compiler does not leave out (explicit_bzero).
 *
 * Beside the slices a call takes less than 2 KiB of stack, for a long message no more than for a short one, and no memory from the heap.
 * In a program that is linked dynamically, the first call may take some KiB more while the system looks memcpy up; linked with -static or
 * -Wl,-z,now it does not.
 */
uint32_t icepole128_open_in_place(const uint8_t *key, size_t key_len, const uint8_t *nonce, size_t nonce_len,
                                  const uint8_t *ad1, size_t ad1_len, const uint8_t *ad2, size_t ad2_len,
                                  uint8_t *buffer, size_t buffer_len, uint8_t *info, size_t info_len);
uint32_t icepole128a_open_in_place(const uint8_t *key, size_t key_len, const uint8_t *nonce, size_t nonce_len,
                                   const uint8_t *ad1, size_t ad1_len, const uint8_t *ad2, size_t ad2_len,
                                   uint8_t *buffer, size_t buffer_len, uint8_t *info, size_t info_len);
uint32_t icepole256a_open_in_place(const uint8_t *key, size_t key_len, const uint8_t *nonce, size_t nonce_len,
                                   const uint8_t *ad1, size_t ad1_len, const uint8_t *ad2, size_t ad2_len,
                                   uint8_t *buffer, size_t buffer_len, uint8_t *info, size_t info_len);

/*
 * A message in strips, under ICEPOLE-128: start, then any number of strips, then end. What they write, joined in order, is what
 * icepole128_seal writes for the strips joined; icepole128_open opens it.
 *
 * start writes the sealed secret number, 16 bytes, to the front of out; a strip as many bytes as it has, of any length and also none;
 * end the 16-byte tag. Later bytes of out and of state stay.
 *
 * state holds what passes from call to call, ICEPOLE128_STRIP_STATE_BYTES bytes: the cipher's state (160), the count of message bytes
 * (8), and 0, or 1 once it is finished. It is as secret as the key, and a copy of it must never be continued a second time with other
 * bytes: both would be sealed with the same key stream. A start that is refused leaves a finished state, otherwise zero
 * (nothing where state is too short); refused strips and ends leave state and out as they were. After an end that returns 0 the state
 * is finished, and each further strip or end is refused with 14.
 *
 * The end changes the last of the 169 bytes alone. The state stays as secret as before: it is the cipher's state before the last block
 * was padded. Whoever has it can change the last block, or go on behind it, and make a tag that agrees under the same key and nonce; can
 * try guesses at the last block; and, where message, associated data and secret number are known, can run the permutation backwards
 * to the key. Once the tag is made, write zeros over it in a way that the compiler does not leave out (explicit_bzero).
 */
uint32_t icepole128_start(const uint8_t *key, size_t key_len, const uint8_t *nonce, size_t nonce_len,
                          const uint8_t *secret, size_t secret_len, const uint8_t *ad1, size_t ad1_len,
                          const uint8_t *ad2, size_t ad2_len, uint8_t *out, size_t out_len,
                          uint8_t *state, size_t state_len);
uint32_t icepole128_strip(uint8_t *state, size_t state_len, const uint8_t *msg, size_t msg_len,
                          uint8_t *out, size_t out_len);
uint32_t icepole128_end(uint8_t *state, size_t state_len, uint8_t *out, size_t out_len);

#ifdef __cplusplus
}
#endif

#endif

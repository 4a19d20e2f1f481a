/*
 * Burst files of trail cameras: sizing up, recording, checking, reading back and listing.
 *
 * The functions are written in Rattle and proved to meet their contracts (crates/burst_c). Link libburst_c.a, which `make lib`
 * leaves beside this header in build/lib. docs/FORMAT.md has the file byte by byte.
 *
 * Machines. The library is for x86-64 Linux, as the Rattle kit builds it, and for no other machine or system.
 *
 * Slices. Every slice is a pointer and a length in bytes; that of burst_size_up has 64-bit numbers, and a count of them. The
 * pointers are valid for their lengths, and slices and numbers that are written overlap nothing else that is lent; the proofs
 * assume it. NULL is not allowed, not even with length 0: an empty slice is any other pointer with length 0. Numbers lent by
 * pointer and the 64-bit numbers of a slice are aligned; no pointer is NULL. What a call writes stands at the front of the slice;
 * later bytes stay. All numbers in files, scripts, answers and infos are little-endian.
 *
 * During a call nobody else changes what is lent: no other thread or process, no interrupt, no DMA, and no mapping of a file that
 * somebody writes. The proofs assume this too. A file that changes while it is checked may be accepted though no tag covers it. What a
 * call writes is settled when it returns; look at it then. A call keeps nothing for the next one, so several threads may call at the
 * same time, each with slices of its own to write to; what is only read they may share.
 *
 * Every call ends on every input. All calls but burst_replay return a refusal number, 0 when done: the number whose condition is
 * the first in the call's order to hold. A refused call leaves each lent slice with the bytes it had; numbers lent by pointer are
 * written on every call. The mark is 0 except under 7, where it says which tag differs: 0 for the closing seal, else the shot
 * number of the record.
 *
 * Keys. Make one, once, for a camera or for a whole survey: 16 bytes of the system's random source, by getrandom() or in a shell by
 *     (umask 077 && head -c 16 /dev/urandom >survey.key)
 * Never work a key out from a serial number, a name, a date or a pass phrase. Keep it out of command lines and shell histories, and out
 * of files that others may read. Whoever has it reads and writes every burst under it, those of all cameras that share it.
 *
 * Camera numbers. One key may serve all cameras of a survey if each of them has a camera number of its own, 1 to 4,294,967,295: then
 * each may count its bursts from 1. A camera that has lost its count, or may have, gets another camera number.
 *
 * Nonces. They are made of burst number, camera number and shot number. Under one key, record each pair of camera number and burst number
 * once only, whatever became of the first burst: two bursts of one pair are sealed with the same nonces.
 *
 * Editions. burst_replay writes files of edition 2, and those are what burst_size_up sizes up; the calls that read take files of
 * edition 1 too. Those have no camera number, and 0 stands for it in their nonces. So a burst of edition 2, whose camera number is
 * not 0, never shares a nonce with one of edition 1; but cameras that still write edition 1 must not share a key with each other.
 */
#ifndef BURST_H
#define BURST_H

#include <stddef.h>
#include <stdint.h>

#ifdef __cplusplus
extern "C" {
#endif

/* The refusal numbers, those of icepole.h among them. */
enum burst_refusal {
    BURST_DONE = 0,
    BURST_KEY_LENGTH = 1,       /* the key is not 16 bytes */
    BURST_SECRET_LENGTH = 3,    /* stamp or site mark is not 16 bytes */
    BURST_OUTPUT_TOO_SHORT = 5, /* out, info or text is too short */
    BURST_TAG_DIFFERS = 7,      /* mark 0: the file or the key is another; else the record of that shot was changed */
    BURST_NOT_SOUND = 8,        /* the burst is closed, or its begin was refused */
    BURST_FULL = 9,             /* 60 shots were taken, or more are planned */
    BURST_PICTURE_LENGTH = 10,  /* a picture has 1 to 1,048,576 bytes */
    BURST_BUFFER_TOO_SHORT = 11,
    BURST_FRONT_BROKEN = 12,    /* header, index or the file's length break a front rule */
    BURST_NO_SUCH_PLACE = 13,   /* the place is not below the count of kept pictures */
    BURST_NO_CAMERA_NUMBER = 15 /* the camera number is 0 */
};

/* The bytes of a script that are calls. */
enum burst_call {
    BURST_CALL_DROP = 0,
    BURST_CALL_CLOSE = 1,
    BURST_CALL_KEEP = 2
};

enum {
    BURST_KEY_BYTES = 16,
    BURST_SITE_MARK_BYTES = 16,
    BURST_STAMP_BYTES = 16,
    BURST_MAX_PICTURE_BYTES = 1048576,
    BURST_MAX_SHOTS = 60,
    BURST_MIN_WRITTEN_BYTES = 72, /* the shortest file that is written, of edition 2; begin needs as much of the buffer */
    BURST_MIN_READ_BYTES = 64,    /* the shortest file that is read, of edition 1 */
    BURST_CHECK_INFO_BYTES = 34,  /* burst number (8), site mark (16), taken (2), kept (2), dropped (2), camera number (4) */
    BURST_FETCH_INFO_BYTES = 22,  /* shot number (2), picture length (4), stamp (16) */
    BURST_LIST_BYTES = 4800,      /* room enough for every text of burst_list; many texts need less */
    BURST_MAX_LISTED_BYTES = 65536,
    BURST_ANSWER_BYTES = 8        /* refusal number (4), then shot number or total (4), 0 for begin and where refused */
};

/* Performs a begin, with key, burst number, camera number and site mark, and then the calls of a script on a buffer, and writes one answer
 * for each, begin's first. Returns the count of answers written. A script is a run of calls:
 *   BURST_CALL_DROP
 *   BURST_CALL_CLOSE
 *   BURST_CALL_KEEP, stamp length (1), picture length (4), stamp, picture
 * Any other byte ends the script, and so does a keep that is cut by the script's end. A call is performed only if its answer has room:
 * at most answers_len / 8 - 1 calls. With answers_len below 8 nothing is done, and the result is 0.
 * *whole is 1 where the whole script was performed, so that nothing of it is left behind the last call, and else 0: look at it, since a
 * close that was not performed leaves no file. Refused calls count as performed, a refused begin too. Where nothing is done, *whole is 0.
 * The numbers in the answers: begin 1, 3, 15, 11; keep 8, 3, 9, 10, 11; drop 8, 9; close 8, 11; the first that holds, in this order. A
 * refused call leaves the buffer as it was. After a close that is answered 0, the first bytes of the buffer, as many as its total
 * says, are the burst's file. */
size_t burst_replay(const uint8_t *key, size_t key_len, uint64_t burst_number, uint32_t camera,
                    const uint8_t *site_mark, size_t site_mark_len,
                    const uint8_t *script, size_t script_len,
                    uint8_t *buffer, size_t buffer_len,
                    uint8_t *answers, size_t answers_len, uint32_t *whole);

/* Checks a whole file: front, closing seal, then the records in order. In info the camera number is 0 for a file of
 * edition 1, and for no other. Refusals 1, 12, 7, then 5 for info. */
uint32_t burst_check(const uint8_t *key, size_t key_len,
                     const uint8_t *file, size_t file_len,
                     uint32_t *mark, uint8_t *info, size_t info_len);

/* Does all of check, then writes the picture of a place, counted from 0, to out. Refusals 1, 12, 7, 13, then 5 for out and for info.
 * 13 for every place that is not below kept, however large. Nothing of a picture is written before all tags agree. */
uint32_t burst_fetch(const uint8_t *key, size_t key_len,
                     const uint8_t *file, size_t file_len, size_t place,
                     uint8_t *out, size_t out_len,
                     uint32_t *mark, uint8_t *info, size_t info_len);

/* Does all of check, then says where in the file the sealed record of a place stands: from file[offset], size bytes, which is the
 * picture's length and 32. Refusals 1, 12, 7, 13; then offset and size are 0. To open a record with icepole128_open_in_place (icepole.h)
 * copy it out of the file: opened where it stands, it breaks the file. */
uint32_t burst_record(const uint8_t *key, size_t key_len,
                      const uint8_t *file, size_t file_len, size_t place,
                      uint32_t *mark, uint32_t *offset, uint32_t *size);

/* Sizes up a planned burst before the trigger, without sealing and without a buffer. lengths has one number for each shot in order, the
 * bytes of its picture, or 0 for a shot that is dropped; count is how many shots there are, 0 to 60. Writes
 *   *file_length  the bytes of the burst's file, of the edition that burst_replay writes: a buffer of so many bytes takes the whole burst,
 *                 every keep and drop and the close, and one byte less does not
 *   *p12, *p6     how often the permutation runs while the burst is recorded, with twelve rounds and with six, the closing seal included
 * Refusals 9 for more than 60 shots, then 10 for a length above 1,048,576. Where it refuses, all three numbers are 0. The count is judged
 * before a length is looked at. Its time grows with count, and not with the lengths. */
uint32_t burst_size_up(const uint64_t *lengths, size_t count,
                       uint64_t *file_length, uint64_t *p12, uint64_t *p6);

/* Writes the listing of a file, as text, to the front of text and its length to *length: burst number, counts, and a line for each kept
 * picture. It needs no key and tests the front only, so a damaged seal does not matter. A file above 65,536 bytes gives
 * "front too long", one whose front breaks a rule "front 12". Every line ends with a newline; there is no 0 byte at the end. Refusal 5
 * where the text does not fit; then *length is 0. BURST_LIST_BYTES bytes are enough for every text. */
uint32_t burst_list(const uint8_t *file, size_t file_len,
                    uint8_t *text, size_t text_len, uint32_t *length);

#ifdef __cplusplus
}
#endif
#endif

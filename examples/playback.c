/*
 * A playback unit with memory for one picture, and the base station that sends it pictures:
 *
 *     playback BURST_FILE
 *
 * The station has the whole file in memory, one of examples/firmware.c. burst_check says its burst number and camera number, which go into
 * the nonces. burst_record checks the file too, and says where a sealed record stands; the station sends it, with the nonce and the index
 * entry that belong to it (docs/FORMAT.md, "What is sealed").
 *
 * The unit has one buffer, as long as the longest record. icepole128_open_in_place opens a record where it lies: the picture then stands at
 * the front of the same buffer. A record that was damaged on its way is refused, nothing of it is shown, and the buffer keeps the bytes
 * that came. So it is here with the second record; the station sends it again.
 *
 * That the tag agrees says that a holder of the key sealed this record under this nonce and entry, and not that it is the one that was
 * asked for: so the unit shows camera, burst and shot number with the picture. It has checked this record alone; that the whole file was
 * accepted it has from the station.
 */
#include <inttypes.h>
#include <stdio.h>
#include <string.h>

#include "burst.h"
#include "icepole.h"

enum { INDEX_OFFSET_AT = 20, ENTRY_BYTES = 12 }; /* of the file */
enum { INFO_CAMERA_AT = 30 };                    /* of what burst_check says; the burst number stands at its front */
enum { SHOT_AT = 8, CAMERA_AT = 10 };            /* of a nonce, behind the burst number */

/* The key of examples/firmware.c, which unit and station both have. */
static const uint8_t key[ICEPOLE128_KEY_BYTES] = {0x1B, 0x70, 0xC2, 0x49, 0x9E, 0x05, 0xD8, 0x33,
                                                  0x66, 0xA1, 0x2F, 0xF4, 0x8D, 0x50, 0xBE, 0x17};

/* The unit's memory. */
static struct {
    uint8_t nonce[ICEPOLE128_NONCE_BYTES];
    uint8_t entry[ENTRY_BYTES];
    uint8_t buffer[BURST_MAX_PICTURE_BYTES + ICEPOLE128_OVERHEAD_BYTES]; /* the sealed record, then the picture */
    size_t length;
    uint8_t info[ICEPOLE128_INFO_BYTES];
} unit;

/* A number, low byte first. */
static uint64_t get(const uint8_t *at, int bytes)
{
    uint64_t number = 0;
    for (int i = bytes - 1; i >= 0; i--) {
        number = number << 8 | at[i];
    }
    return number;
}

/* ---- The base station ---- */

static uint8_t checked[BURST_CHECK_INFO_BYTES]; /* what burst_check says of the file */

/* Puts the record of a place into the unit's memory. Returns burst_record's number: 13 where there is no such place. */
static uint32_t send(const uint8_t *file, size_t file_len, size_t place)
{
    uint32_t mark, offset, size;
    uint32_t number = burst_record(key, sizeof key, file, file_len, place, &mark, &offset, &size);
    if (number != BURST_DONE) {
        return number;
    }
    if (size > sizeof unit.buffer) { /* no record of an accepted file is longer. What comes over a link is tested like this */
        return BURST_OUTPUT_TOO_SHORT;
    }
    const uint8_t *entry = file + get(file + INDEX_OFFSET_AT, 4) + ENTRY_BYTES * place;
    memset(unit.nonce, 0, sizeof unit.nonce);
    memcpy(unit.nonce, checked, 8);
    memcpy(unit.nonce + SHOT_AT, entry, 2);
    memcpy(unit.nonce + CAMERA_AT, checked + INFO_CAMERA_AT, 4); /* 0 for a file of edition 1, and so in its nonces */
    memcpy(unit.entry, entry, ENTRY_BYTES);
    memcpy(unit.buffer, file + offset, size);
    unit.length = size;
    return BURST_DONE;
}

/* ---- The playback unit ---- */

/* Opens the record in the buffer, and shows its picture: here its length, its stamp and a sum of its bytes. Returns the number. */
static uint32_t play(void)
{
    uint32_t sum = 0;
    uint32_t number = icepole128_open_in_place(key, sizeof key, unit.nonce, sizeof unit.nonce, unit.entry, ENTRY_BYTES, unit.entry, 0,
                                               unit.buffer, unit.length, unit.info, sizeof unit.info);
    if (number != ICEPOLE_DONE) {
        printf("refused with %" PRIu32 "\n", number);
        return number;
    }
    size_t length = get(unit.info, 8);
    for (size_t i = 0; i < length; i++) {
        sum = 31 * sum + unit.buffer[i];
    }
    printf("camera %" PRIu64 ", burst %" PRIu64 ", shot %" PRIu64 ": %zu bytes, sum %08" PRIX32 ", stamp", get(unit.nonce + CAMERA_AT, 4),
           get(unit.nonce, 8), get(unit.entry, 2), length, sum);
    for (int i = 0; i < ICEPOLE128_SECRET_BYTES; i++) {
        printf(" %02X", unit.info[8 + i]);
    }
    printf("\n");
    return ICEPOLE_DONE;
}

int main(int argc, char **argv)
{
    static uint8_t file[64 * 1024 + 1]; /* the station's; a file of examples/firmware.c has at most 64 KiB */
    if (argc != 2) {
        fprintf(stderr, "usage: playback BURST_FILE\n");
        return 1;
    }
    FILE *card = fopen(argv[1], "rb");
    size_t file_len = card != NULL ? fread(file, 1, sizeof file, card) : 0;
    if (card == NULL || ferror(card) || file_len == sizeof file) {
        fprintf(stderr, "playback: the file cannot be read, or has more than 64 KiB\n");
        return 1;
    }
    fclose(card);
    uint32_t mark;
    uint32_t number = burst_check(key, sizeof key, file, file_len, &mark, checked, sizeof checked);
    for (size_t place = 0; number == BURST_DONE && (number = send(file, file_len, place)) == BURST_DONE; place++) {
        if (place == 1) {
            unit.buffer[40] ^= 1; /* a bit is changed on its way */
            if (play() != ICEPOLE_TAG_DIFFERS || send(file, file_len, place) != BURST_DONE) {
                return 1;
            }
        }
        if (play() != ICEPOLE_DONE) {
            return 1;
        }
    }
    if (number != BURST_NO_SUCH_PLACE) {
        printf("the file is refused with %" PRIu32 "\n", number);
        return 1;
    }
    return 0;
}

/*
 * A burst the way a camera records it: it is sized up before the trigger;
 * pictures come from the sensor one at a time, two shots are lost, one picture is
 * too long and its shot is dropped; the burst is closed, written to the card, and
 * read back from there.
 *
 *     firmware CARD_FILE
 *
 * Recording. The calls of a burst are gathered in memory as a script, and
 * burst_replay performs them at once (burst.h lays scripts and answers out).
 * A shot number counts firings from 1, and a refused call takes none. So a keep
 * that would be refused is not put into the script: its shot is dropped, and the
 * shots after it have their right numbers.
 *
 * Memory. For n pictures of p bytes in all, and d dropped shots, in bytes:
 *     script    22 n + p + d + 1    a keep is 6 and its stamp 16; drop and close are 1
 *     buffer    44 n + p + 72       the file: a record is its picture and 32, an index entry 12, header and closing seal 72
 *     answers   8 (n + d + 2)       begin, the keeps and drops, close
 * So each picture is in memory twice until the script is let go, and a script
 * is never longer than its buffer. The longest burst, 60 pictures of 1,048,576
 * bytes, takes 62,915,881 bytes of script and 62,917,272 of buffer.
 *
 * On a camera the rooms below are static arrays. Here they are pieces of the
 * heap, so that a memory checker sees an access beside them.
 */
#define _POSIX_C_SOURCE 200809L /* fileno and fsync, for the card */

#include <inttypes.h>
#include <stdio.h>
#include <stdlib.h>
#include <string.h>
#include <unistd.h>

#include "burst.h"

/* ---- What this camera has room for ---- */

enum {
    FIRINGS = 6,                              /* of one trigger */
    FRAME_ROOM = BURST_MAX_PICTURE_BYTES + 1, /* this sensor can give one byte more than a picture may have */
    EXPECTED_BYTES = 10000,                   /* as long as a picture of this camera is, unless the sensor fails */
    BUFFER_ROOM = 64 * 1024,
    SCRIPT_ROOM = BUFFER_ROOM,
    MOST_CALLS = BURST_MAX_SHOTS + 1, /* the shots and the close */
    ANSWERS_ROOM = BURST_ANSWER_BYTES * (1 + MOST_CALLS)
};

static const uint32_t camera = 12;         /* its own among all cameras with this key, set when it is put up */
static const uint64_t burst_number = 1207; /* never twice for this camera number under this key */
static const uint8_t key[BURST_KEY_BYTES] = {0x1B, 0x70, 0xC2, 0x49, 0x9E, 0x05, 0xD8, 0x33,
                                             0x66, 0xA1, 0x2F, 0xF4, 0x8D, 0x50, 0xBE, 0x17};
static const uint8_t site_mark[BURST_SITE_MARK_BYTES] = {'t', 'h', 'e', ' ', 'f', 'o', 'r', 'd',
                                                         ',', ' ', 'w', 'e', 's', 't', ' ', '3'};

/* ---- Numbers, low byte first ---- */

static void put_u32(uint8_t *at, uint32_t number)
{
    for (int i = 0; i < 4; i++) {
        at[i] = (uint8_t)(number >> 8 * i);
    }
}

static uint16_t get_u16(const uint8_t *at)
{
    return (uint16_t)(at[0] | at[1] << 8);
}

static uint32_t get_u32(const uint8_t *at)
{
    return get_u16(at) | (uint32_t)get_u16(at + 2) << 16;
}

static uint64_t get_u64(const uint8_t *at)
{
    return get_u32(at) | (uint64_t)get_u32(at + 4) << 32;
}

/* ---- Refusals ---- */

/* What a refusal number says. Without a default, so that the compiler names a number that is missing. */
static const char *refusal_text(uint32_t number)
{
    switch ((enum burst_refusal)number) {
    case BURST_DONE:
        return "done";
    case BURST_KEY_LENGTH:
        return "the key is not 16 bytes";
    case BURST_SECRET_LENGTH:
        return "stamp or site mark is not 16 bytes";
    case BURST_OUTPUT_TOO_SHORT:
        return "the output is too short";
    case BURST_TAG_DIFFERS:
        return "not sealed under this key: the file or the key is another";
    case BURST_NOT_SOUND:
        return "the burst is closed, or its begin was refused";
    case BURST_FULL:
        return "the burst has its 60 shots";
    case BURST_PICTURE_LENGTH:
        return "a picture has 1 to 1,048,576 bytes";
    case BURST_BUFFER_TOO_SHORT:
        return "the file's buffer is too short";
    case BURST_FRONT_BROKEN:
        return "not a whole burst file: header, index or length are wrong";
    case BURST_NO_SUCH_PLACE:
        return "there is no such picture";
    case BURST_NO_CAMERA_NUMBER:
        return "the camera number is 0: it was not set";
    }
    return "a number that burst.h does not have";
}

/* The reader's refusals; under 7 the mark says which tag differs. Returns 0. */
static int reader_refused(const char *call, uint32_t number, uint32_t mark)
{
    printf("%s refused with %" PRIu32 ": %s", call, number, refusal_text(number));
    if (number == BURST_TAG_DIFFERS && mark == 0) {
        printf(" (the closing seal)");
    } else if (number == BURST_TAG_DIFFERS) {
        printf(" (the record of shot %" PRIu32 ")", mark);
    }
    printf("\n");
    return 0;
}

/* ---- Before the trigger ---- */

/* Whether the buffer takes a burst in which every shot is kept and as long as expected, and how often the permutation then runs: times
 * the time of one P12 and one P6 on this core, that is how long the core is busy. */
static int plan(void)
{
    uint64_t lengths[FIRINGS], bytes, p12, p6;
    uint32_t number;

    for (size_t firing = 0; firing < FIRINGS; firing++) {
        lengths[firing] = EXPECTED_BYTES;
    }
    number = burst_size_up(lengths, FIRINGS, &bytes, &p12, &p6);
    if (number != BURST_DONE) {
        printf("plan refused with %" PRIu32 ": %s\n", number, refusal_text(number));
        return 0;
    }
    printf("planned: %" PRIu64 " bytes of %d, %" PRIu64 " P12 and %" PRIu64 " P6\n", bytes, BUFFER_ROOM, p12, p6);
    return bytes <= BUFFER_ROOM;
}

/* ---- The script of a burst ---- */

enum { KEEP_FRONT = 6, CLOSE_BYTES = 1 };
enum { RECORD_OVERHEAD = 32, ENTRY_BYTES = 12 }; /* sealed stamp and tag; the index entry */

struct script {
    uint8_t *bytes;
    size_t room, used;
    size_t calls, most_calls;     /* a call without room for its answer is not performed */
    size_t file_room, file_bytes; /* of the buffer, and of the file that the script gives */
};

/* The bytes that keeps and drops may still take; room for the close is held back, so that every burst can be closed. */
static size_t script_left(const struct script *s)
{
    size_t held = s->used + CLOSE_BYTES;
    return s->calls + 1 < s->most_calls && held < s->room ? s->room - held : 0;
}

/* The bytes that a picture may still have in the buffer: a longer one would be refused with 11. */
static size_t file_left(const struct script *s)
{
    size_t held = s->file_bytes + RECORD_OVERHEAD + ENTRY_BYTES;
    return held < s->file_room ? s->file_room - held : 0;
}

/* Each helper returns 1, or 0 where script or buffer have no room and the script stays as it was. */
static int script_keep(struct script *s, const uint8_t stamp[BURST_STAMP_BYTES], const uint8_t *picture, size_t length)
{
    const size_t front = KEEP_FRONT + BURST_STAMP_BYTES;
    const size_t left = script_left(s);
    uint8_t *at = s->bytes + s->used;

    if (left < front || length > left - front || length > file_left(s) || length > UINT32_MAX) {
        return 0;
    }
    at[0] = BURST_CALL_KEEP;
    at[1] = BURST_STAMP_BYTES;
    put_u32(at + 2, (uint32_t)length);
    memcpy(at + KEEP_FRONT, stamp, BURST_STAMP_BYTES);
    memcpy(at + front, picture, length);
    s->used += front + length;
    s->file_bytes += length + RECORD_OVERHEAD + ENTRY_BYTES;
    s->calls++;
    return 1;
}

static int script_drop(struct script *s)
{
    if (script_left(s) < 1) {
        return 0;
    }
    s->bytes[s->used++] = BURST_CALL_DROP;
    s->calls++;
    return 1;
}

static int script_close(struct script *s)
{
    if (s->used >= s->room || s->calls >= s->most_calls) {
        return 0;
    }
    s->bytes[s->used++] = BURST_CALL_CLOSE;
    s->calls++;
    return 1;
}

/* ---- The sensor, made up ---- */

/* Fills the frame; returns its length, 0 where the shot was lost. The same firing gives the same picture. */
static size_t sensor_read(uint32_t firing, uint8_t frame[FRAME_ROOM])
{
    static const size_t lengths[FIRINGS] = {5000, 0, FRAME_ROOM, 128, 9001, 0};
    uint32_t pixel = firing * 2654435761u + 1;

    for (size_t i = 0; i < lengths[firing]; i++) {
        pixel = pixel * 1664525u + 1013904223u;
        frame[i] = (uint8_t)(pixel >> 24);
    }
    return lengths[firing];
}

/* The camera's stamp: the firing's count, then the clock. */
static void stamp_now(uint32_t firing, uint8_t stamp[BURST_STAMP_BYTES])
{
    memset(stamp, 0, BURST_STAMP_BYTES);
    put_u32(stamp, firing);
    put_u32(stamp + 4, 1763235180u + firing);
}

/* ---- Recording ---- */

/* One firing: a keep, or a drop where the shot was lost or its picture cannot be kept. Either counts the firing. */
static int record_firing(struct script *s, uint32_t firing, uint8_t frame[FRAME_ROOM])
{
    uint8_t stamp[BURST_STAMP_BYTES];
    size_t length = sensor_read(firing, frame);

    stamp_now(firing, stamp);
    if (length > BURST_MAX_PICTURE_BYTES) {
        printf("%zu bytes, above the longest picture: the shot is dropped\n", length);
    } else if (length > 0 && script_keep(s, stamp, frame, length)) {
        printf("call %zu: keep %zu bytes\n", s->calls, length);
        return 1;
    } else if (length > 0) {
        printf("no room for %zu bytes: the shot is dropped\n", length);
    }
    if (!script_drop(s)) {
        printf("no room for another shot\n");
        return 0;
    }
    printf("call %zu: drop\n", s->calls);
    return 1;
}

/* Goes through the answers: begin's, then one for each call, the close's last. A script that was not performed whole has lost its close,
 * if nothing else. What can be refused was tested before, so that a
 * refusal here is a fault of this program: it is told, and the file is not used, since the shots after a refused one have wrong
 * numbers. Returns the file's length, 0 where there is none. */
static size_t file_length(const uint8_t *answers, size_t count, size_t calls, uint32_t whole)
{
    uint32_t shot_or_total = 0;
    int refused = 0;

    if (whole != 1 || count != calls + 1) {
        printf("%zu answers to %zu calls: not the whole script was performed\n", count, calls + 1);
        return 0;
    }
    for (size_t call = 0; call < count; call++) {
        uint32_t number = get_u32(answers + BURST_ANSWER_BYTES * call);
        shot_or_total = get_u32(answers + BURST_ANSWER_BYTES * call + 4);
        if (number != BURST_DONE) {
            printf("call %zu refused with %" PRIu32 ": %s\n", call, number, refusal_text(number));
            refused = 1;
        } else if (call > 0 && call < calls) {
            printf("call %zu is shot %" PRIu32 "\n", call, shot_or_total);
        }
    }
    if (refused) {
        return 0;
    }
    printf("closed: %" PRIu32 " bytes\n", shot_or_total);
    return shot_or_total;
}

/* Records the burst into the buffer. Returns its file's length, 0 where there is none. */
static size_t record_burst(struct script *s, uint8_t *frame, uint8_t *buffer, uint8_t *answers)
{
    size_t count;
    uint32_t whole;

    for (uint32_t firing = 0; firing < FIRINGS; firing++) {
        if (!record_firing(s, firing, frame)) {
            break; /* what was taken is closed all the same */
        }
    }
    if (!script_close(s)) {
        printf("no room for the close\n");
        return 0;
    }
    count = burst_replay(key, BURST_KEY_BYTES, burst_number, camera, site_mark, BURST_SITE_MARK_BYTES, s->bytes, s->used,
                         buffer, BUFFER_ROOM, answers, ANSWERS_ROOM, &whole);
    return file_length(answers, count, s->calls, whole);
}

/* ---- The card ---- */

/* Writes the bytes under the name of a part, and has the system put them onto the card. */
static int write_part(const char *name, const uint8_t *bytes, size_t length)
{
    FILE *part = fopen(name, "wb");
    int written;

    if (part == NULL) {
        return 0;
    }
    written = fwrite(bytes, 1, length, part) == length && fflush(part) == 0 && fsync(fileno(part)) == 0;
    return fclose(part) == 0 && written;
}

/* The file stands on the card whole or not at all: it gets its name when all of its bytes are there. */
static int write_card(const char *name, const uint8_t *bytes, size_t length)
{
    char part[4096];
    int size = snprintf(part, sizeof part, "%s.part", name);

    if (size < 0 || (size_t)size >= sizeof part) {
        printf("the name of the file is too long\n");
        return 0;
    }
    if (!write_part(part, bytes, length) || rename(part, name) != 0) {
        printf("the card does not take the file\n");
        remove(part);
        return 0;
    }
    return 1;
}

/* A piece of the heap of a whole file's size, for the caller to free; NULL where the card does not give it. */
static uint8_t *read_card(const char *name, size_t *length)
{
    FILE *card = fopen(name, "rb");
    uint8_t *bytes = NULL;
    long size = -1;

    if (card == NULL) {
        return NULL;
    }
    if (fseek(card, 0, SEEK_END) == 0) {
        size = ftell(card);
    }
    if (size > 0 && fseek(card, 0, SEEK_SET) == 0) {
        bytes = malloc((size_t)size);
    }
    if (bytes != NULL && fread(bytes, 1, (size_t)size, card) != (size_t)size) {
        free(bytes);
        bytes = NULL;
    }
    fclose(card);
    *length = bytes != NULL ? (size_t)size : 0;
    return bytes;
}

/* ---- Reading back ---- */

/* The picture of a place is the one that the sensor gave, and its shot number counts its firing. */
static int as_the_sensor_gave(const uint8_t *picture, size_t length, const uint8_t info[BURST_FETCH_INFO_BYTES],
                              uint8_t frame[FRAME_ROOM])
{
    uint8_t stamp[BURST_STAMP_BYTES];
    uint32_t firing = get_u32(info + 6);

    if (firing >= FIRINGS || sensor_read(firing, frame) != length) {
        return 0;
    }
    stamp_now(firing, stamp);
    return get_u16(info) == firing + 1 && get_u32(info + 2) == length && memcmp(info + 6, stamp, sizeof stamp) == 0 &&
           memcmp(picture, frame, length) == 0;
}

/* Fetches one picture into a piece of the heap of its length, which the record's size tells. */
static int read_picture(const uint8_t *file, size_t file_len, size_t place, uint8_t *frame)
{
    uint8_t info[BURST_FETCH_INFO_BYTES];
    uint32_t mark, offset, size;
    uint32_t number = burst_record(key, BURST_KEY_BYTES, file, file_len, place, &mark, &offset, &size);
    size_t length;
    uint8_t *picture;
    int same;

    if (number != BURST_DONE) {
        return reader_refused("record", number, mark);
    }
    length = size - RECORD_OVERHEAD;
    picture = malloc(length);
    if (picture == NULL) {
        printf("no memory\n");
        return 0;
    }
    number = burst_fetch(key, BURST_KEY_BYTES, file, file_len, place, picture, length, &mark, info, sizeof info);
    if (number != BURST_DONE) {
        free(picture);
        return reader_refused("fetch", number, mark);
    }
    same = as_the_sensor_gave(picture, length, info, frame);
    printf("place %u: shot %u, %zu bytes, %s\n", (unsigned)place, (unsigned)get_u16(info), length,
           same ? "as the sensor gave them" : "NOT as the sensor gave them");
    free(picture);
    return same;
}

/* Checks the whole file, then fetches every picture. */
static int read_burst(const uint8_t *file, size_t file_len, uint8_t *frame)
{
    uint8_t info[BURST_CHECK_INFO_BYTES];
    uint32_t mark;
    uint32_t number = burst_check(key, BURST_KEY_BYTES, file, file_len, &mark, info, sizeof info);
    uint16_t kept;

    if (number != BURST_DONE) {
        return reader_refused("check", number, mark);
    }
    kept = get_u16(info + 26);
    printf("checked: burst %" PRIu64 ", taken %u, kept %u, dropped %u, camera %" PRIu32 "\n", get_u64(info),
           (unsigned)get_u16(info + 24), (unsigned)kept, (unsigned)get_u16(info + 28), get_u32(info + 30));
    if (get_u64(info) != burst_number || get_u32(info + 30) != camera || memcmp(info + 8, site_mark, sizeof site_mark) != 0) {
        printf("this is the file of another burst\n");
        return 0;
    }
    for (size_t place = 0; place < kept; place++) {
        if (!read_picture(file, file_len, place, frame)) {
            return 0;
        }
    }
    return 1;
}

static int read_back(const char *name, uint8_t *frame)
{
    size_t length = 0;
    uint8_t *file = read_card(name, &length);
    int done;

    if (file == NULL) {
        printf("the card does not give the file\n");
        return 0;
    }
    done = read_burst(file, length, frame);
    free(file);
    return done;
}

/* ---- One trigger ---- */

static int trigger(const char *name)
{
    struct script script = {malloc(SCRIPT_ROOM), SCRIPT_ROOM, 0, 0, MOST_CALLS, BUFFER_ROOM, BURST_MIN_WRITTEN_BYTES};
    uint8_t *frame = malloc(FRAME_ROOM);
    uint8_t *buffer = malloc(BUFFER_ROOM);
    uint8_t *answers = malloc(ANSWERS_ROOM);
    int done = 0;

    if (script.bytes == NULL || frame == NULL || buffer == NULL || answers == NULL) {
        printf("no memory\n");
    } else if (!plan()) {
        printf("this camera is not set up for such bursts\n");
    } else {
        size_t length = record_burst(&script, frame, buffer, answers);
        done = length > 0 && write_card(name, buffer, length) && read_back(name, frame);
    }
    free(script.bytes);
    free(frame);
    free(buffer);
    free(answers);
    return done;
}

int main(int argc, char **argv)
{
    if (argc != 2) {
        printf("firmware CARD_FILE\n");
        return 2;
    }
    return trigger(argv[1]) ? 0 : 1;
}

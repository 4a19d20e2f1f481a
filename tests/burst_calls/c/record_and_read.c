/* The scope paper's example burst, recorded, read back and sized up through the
   C calls as the firmware of camera 3 makes them: burst 7, drop, keep of 3
   bytes, drop. Every buffer is its own piece of the heap, exactly as long as it
   must be, so that a memory checker sees a call that reads or writes past it. */

#include <stdio.h>
#include <stdlib.h>
#include <string.h>

#include "burst.h"

enum { KEY = 16, SITE_MARK = 16, STAMP = 16, PICTURE = 3 };
enum { SCRIPT = 1 + 6 + STAMP + PICTURE + 1 + 1, CALLS = 4 };
enum { BURST_NUMBER = 7, CAMERA = 3 };
enum { CAMERA_AT = 32, RECORD_AT = 40, INDEX_AT = 75, CLOSING_AT = 87, TOTAL = 119 };
enum { ANSWERS = BURST_ANSWER_BYTES * (1 + CALLS) };

static const uint8_t header[RECORD_AT] = {
    0x02, 0x00, 0x03, 0x00, 0x01, 0x00, 0x02, 0x00,
    0x07, 0x00, 0x00, 0x00, 0x00, 0x00, 0x00, 0x00,
    0x28, 0x00, 0x00, 0x00, 0x4B, 0x00, 0x00, 0x00,
    0x57, 0x00, 0x00, 0x00, 0x77, 0x00, 0x00, 0x00,
    0x03, 0x00, 0x00, 0x00, 0x00, 0x00, 0x00, 0x00,
};

static const uint8_t entry[CLOSING_AT - INDEX_AT] = {
    2, 0, 0, 0, RECORD_AT, 0, 0, 0, PICTURE, 0, 0, 0,
};

/* Begin, drop, keep, drop, close: all accepted; shot numbers and the total. */
static const uint8_t expected_answers[ANSWERS] = {
    0, 0, 0, 0, 0, 0, 0, 0,
    0, 0, 0, 0, 1, 0, 0, 0,
    0, 0, 0, 0, 2, 0, 0, 0,
    0, 0, 0, 0, 3, 0, 0, 0,
    0, 0, 0, 0, TOTAL, 0, 0, 0,
};

/* What stands in a buffer that no call has written, and in a number. */
static const uint8_t FILL = 0xA5;
static const uint32_t FILL_NUMBER = 0xA5A5A5A5;
static const uint64_t FILL_WIDE = 0xA5A5A5A5A5A5A5A5;

static uint8_t *allocate(size_t length)
{
    uint8_t *bytes = malloc(length);
    if (bytes == NULL) {
        puts("no memory");
        exit(1);
    }
    return bytes;
}

/* Bytes that count from `from` on. */
static uint8_t *counting(size_t length, unsigned from)
{
    uint8_t *bytes = allocate(length);
    for (size_t i = 0; i < length; i++) {
        bytes[i] = (uint8_t)(from + i);
    }
    return bytes;
}

/* Bytes for a call to write. */
static uint8_t *filled(size_t length)
{
    uint8_t *bytes = allocate(length);
    memset(bytes, FILL, length);
    return bytes;
}

/* A number for a call to write. */
static uint32_t *number(void)
{
    uint32_t *lent = malloc(sizeof *lent);
    if (lent == NULL) {
        puts("no memory");
        exit(1);
    }
    *lent = FILL_NUMBER;
    return lent;
}

/* Numbers of 64 bits. */
static uint64_t *wide_numbers(size_t count)
{
    uint64_t *lent = malloc(count * sizeof *lent);
    if (lent == NULL) {
        puts("no memory");
        exit(1);
    }
    for (size_t i = 0; i < count; i++) {
        lent[i] = FILL_WIDE;
    }
    return lent;
}

static int is_filled(const uint8_t *bytes, size_t length)
{
    for (size_t i = 0; i < length; i++) {
        if (bytes[i] != FILL) {
            return 0;
        }
    }
    return 1;
}

/* What the firmware lends: secrets, script, file, and room for what the calls
   say. */
struct lent {
    uint8_t *key, *site_mark, *stamp, *picture;
    uint8_t *script, *file, *answers;
    uint8_t *check_info, *fetch_info, *out;
    uint32_t *mark, *offset, *size, *whole;
    uint64_t *file_length, *p12, *p6;
};

static struct lent lend(void)
{
    struct lent l;
    l.key = counting(KEY, 1);
    l.site_mark = counting(SITE_MARK, 50);
    l.stamp = counting(STAMP, 100);
    l.picture = counting(PICTURE, 200);
    l.script = filled(SCRIPT);
    l.file = filled(TOTAL);
    l.answers = filled(ANSWERS);
    l.check_info = filled(BURST_CHECK_INFO_BYTES);
    l.fetch_info = filled(BURST_FETCH_INFO_BYTES);
    l.out = filled(PICTURE);
    l.mark = number();
    l.offset = number();
    l.size = number();
    l.whole = number();
    l.file_length = wide_numbers(1);
    l.p12 = wide_numbers(1);
    l.p6 = wide_numbers(1);
    return l;
}

static void give_back(struct lent *l)
{
    free(l->key);
    free(l->site_mark);
    free(l->stamp);
    free(l->picture);
    free(l->script);
    free(l->file);
    free(l->answers);
    free(l->check_info);
    free(l->fetch_info);
    free(l->out);
    free(l->mark);
    free(l->offset);
    free(l->size);
    free(l->whole);
    free(l->file_length);
    free(l->p12);
    free(l->p6);
}

/* Drop, keep, drop, close. */
static void write_script(uint8_t *script, const uint8_t *stamp,
                         const uint8_t *picture)
{
    const uint8_t keep[] = {BURST_CALL_KEEP, STAMP, PICTURE, 0, 0, 0};
    size_t at = 0;
    script[at++] = BURST_CALL_DROP;
    memcpy(script + at, keep, sizeof keep);
    at += sizeof keep;
    memcpy(script + at, stamp, STAMP);
    at += STAMP;
    memcpy(script + at, picture, PICTURE);
    at += PICTURE;
    script[at++] = BURST_CALL_DROP;
    script[at] = BURST_CALL_CLOSE;
}

/* Begins the burst, performs a script, and counts the answers. */
static size_t replay(struct lent *l, uint32_t camera, const uint8_t *script,
                     size_t script_len, uint8_t *buffer, size_t buffer_len,
                     uint8_t *answers, size_t answers_len)
{
    *l->whole = FILL_NUMBER;
    return burst_replay(l->key, KEY, BURST_NUMBER, camera, l->site_mark, SITE_MARK,
                        script, script_len, buffer, buffer_len, answers,
                        answers_len, l->whole);
}

/* Each step says what went wrong, or NULL. */
static const char *record(struct lent *l)
{
    size_t count;

    write_script(l->script, l->stamp, l->picture);
    count = replay(l, CAMERA, l->script, SCRIPT, l->file, TOTAL, l->answers, ANSWERS);
    if (count != 1 + CALLS || *l->whole != 1) {
        return "not every call has an answer";
    }
    if (memcmp(l->answers, expected_answers, ANSWERS) != 0) {
        return "the answers differ";
    }
    if (memcmp(l->file, header, sizeof header) != 0) {
        return "the header differs";
    }
    if (memcmp(l->file + INDEX_AT, entry, sizeof entry) != 0) {
        return "the index differs";
    }
    if (memcmp(l->file + RECORD_AT + STAMP, l->picture, PICTURE) == 0) {
        return "the picture stands there in the clear";
    }
    return NULL;
}

/* A buffer one byte short: the keep is turned down, the rest is done. */
static const char *record_short(struct lent *l)
{
    const uint8_t answer[BURST_ANSWER_BYTES] = {BURST_BUFFER_TOO_SHORT};
    uint8_t *buffer = filled(TOTAL - 1);
    uint8_t *answers = filled(ANSWERS);
    const char *wrong = NULL;
    size_t count = replay(l, CAMERA, l->script, SCRIPT, buffer, TOTAL - 1, answers,
                          ANSWERS);
    if (count != 1 + CALLS || *l->whole != 1 ||
        memcmp(answers + 2 * BURST_ANSWER_BYTES, answer, sizeof answer) != 0) {
        wrong = "a buffer one byte short was not refused with 11";
    } else if (!is_filled(buffer + BURST_MIN_WRITTEN_BYTES,
                          TOTAL - 1 - BURST_MIN_WRITTEN_BYTES)) {
        wrong = "bytes after an empty burst were written";
    }
    free(buffer);
    free(answers);
    return wrong;
}

/* Every cut of the script, each on its own piece of the heap, and each room for
   answers: whole is 1 exactly where all of the script was performed. */
static const char *record_parts(struct lent *l)
{
    static const size_t ends[] = {0, 1, SCRIPT - 2, SCRIPT - 1, SCRIPT};
    const char *wrong = NULL;

    for (size_t length = 0; wrong == NULL && length <= SCRIPT; length++) {
        uint8_t *buffer = filled(TOTAL);
        uint8_t *answers = filled(ANSWERS);
        uint8_t *script = allocate(length + 1);
        uint32_t all = 0;
        /* The cut script ends where its piece of the heap does. */
        memcpy(script + 1, l->script, length);
        for (size_t i = 0; i < sizeof ends / sizeof ends[0]; i++) {
            all |= length == ends[i];
        }
        replay(l, CAMERA, script + 1, length, buffer, TOTAL, answers, ANSWERS);
        if (*l->whole != all) {
            wrong = "whole is wrong of a cut script";
        }
        free(buffer);
        free(answers);
        free(script);
    }
    for (size_t room = 0; wrong == NULL && room <= ANSWERS; room++) {
        uint8_t *buffer = filled(TOTAL);
        uint8_t *answers = filled(room + 1);
        size_t count = replay(l, CAMERA, l->script, SCRIPT, buffer, TOTAL,
                              answers + 1, room);
        if (count != room / BURST_ANSWER_BYTES ||
            *l->whole != (uint32_t)(room >= ANSWERS)) {
            wrong = "count or whole is wrong where there is little room";
        }
        free(buffer);
        free(answers);
    }
    return wrong;
}

/* A byte that is no call ends the script; what follows is not performed. */
static const char *record_no_call(struct lent *l)
{
    const char *wrong = NULL;

    for (unsigned byte = BURST_CALL_KEEP + 1; wrong == NULL && byte < 256; byte++) {
        const uint8_t script[] = {BURST_CALL_DROP, (uint8_t)byte, BURST_CALL_CLOSE};
        uint8_t *buffer = filled(TOTAL);
        uint8_t *answers = filled(ANSWERS);
        size_t count = replay(l, CAMERA, script, sizeof script, buffer, TOTAL, answers,
                              ANSWERS);
        if (count != 2 || *l->whole != 0) {
            wrong = "a byte that is no call did not end the script";
        }
        free(buffer);
        free(answers);
    }
    return wrong;
}

/* An empty burst of a camera in a buffer of so many bytes: begin's number, and
   the bytes from 32 to 39 of a file. */
static const struct begin {
    uint32_t camera;
    size_t room;
    uint8_t number;
    uint8_t bytes[RECORD_AT - CAMERA_AT];
} begins[] = {
    {0, BURST_MIN_WRITTEN_BYTES, BURST_NO_CAMERA_NUMBER, {0}},
    {0, BURST_MIN_WRITTEN_BYTES - 1, BURST_NO_CAMERA_NUMBER, {0}},
    {1, BURST_MIN_WRITTEN_BYTES - 1, BURST_BUFFER_TOO_SHORT, {0}},
    {1, BURST_MIN_WRITTEN_BYTES, BURST_DONE, {1}},
    {0x01020304, BURST_MIN_WRITTEN_BYTES, BURST_DONE, {4, 3, 2, 1}},
    {0xFFFFFFFF, BURST_MIN_WRITTEN_BYTES, BURST_DONE, {255, 255, 255, 255}},
};

static const char *record_begins(struct lent *l)
{
    const uint8_t script[] = {BURST_CALL_CLOSE};
    const char *wrong = NULL;

    for (size_t i = 0; wrong == NULL && i < sizeof begins / sizeof begins[0]; i++) {
        const struct begin *b = &begins[i];
        const int refused = b->number != BURST_DONE;
        const uint8_t expected[2 * BURST_ANSWER_BYTES] = {
            b->number, 0, 0, 0, 0, 0, 0, 0,
            refused ? BURST_NOT_SOUND : BURST_DONE, 0, 0, 0,
            refused ? 0 : BURST_MIN_WRITTEN_BYTES, 0, 0, 0,
        };
        uint8_t *buffer = filled(b->room);
        uint8_t *answers = filled(sizeof expected);
        replay(l, b->camera, script, sizeof script, buffer, b->room, answers,
               sizeof expected);
        if (memcmp(answers, expected, sizeof expected) != 0) {
            wrong = "the answers to begin and close differ";
        } else if (refused && !is_filled(buffer, b->room)) {
            wrong = "a refused begin wrote";
        } else if (!refused &&
                   memcmp(buffer + CAMERA_AT, b->bytes, sizeof b->bytes) != 0) {
            wrong = "the camera number or the zeros of the header differ";
        }
        free(buffer);
        free(answers);
    }
    return wrong;
}

static uint32_t fetch(struct lent *l, size_t out_len, size_t info_len)
{
    *l->mark = FILL_NUMBER;
    return burst_fetch(l->key, KEY, l->file, TOTAL, 0, l->out, out_len,
                       l->mark, l->fetch_info, info_len);
}

static const char *read_back(struct lent *l)
{
    const uint8_t counts_and_camera[] = {3, 0, 1, 0, 2, 0, CAMERA, 0, 0, 0};
    const uint8_t shot_and_length[] = {2, 0, PICTURE, 0, 0, 0};
    /* Their low 16 or 32 bits are those of place 0. */
    const size_t places[] = {65536, (size_t)1 << 32, (size_t)1 << 63};

    if (burst_check(l->key, KEY, l->file, TOTAL, l->mark, l->check_info,
                    BURST_CHECK_INFO_BYTES - 1) != BURST_OUTPUT_TOO_SHORT ||
        !is_filled(l->check_info, BURST_CHECK_INFO_BYTES)) {
        return "an info of check one byte short was not refused with 5";
    }
    if (burst_check(l->key, KEY, l->file, TOTAL, l->mark, l->check_info,
                    BURST_CHECK_INFO_BYTES) != BURST_DONE) {
        return "check refused";
    }
    if (*l->mark != 0 || memcmp(l->check_info, header + 8, 8) != 0 ||
        memcmp(l->check_info + 8, l->site_mark, SITE_MARK) != 0 ||
        memcmp(l->check_info + 24, counts_and_camera, sizeof counts_and_camera) != 0) {
        return "what check says differs";
    }

    if (fetch(l, PICTURE - 1, BURST_FETCH_INFO_BYTES) != BURST_OUTPUT_TOO_SHORT ||
        fetch(l, PICTURE, BURST_FETCH_INFO_BYTES - 1) != BURST_OUTPUT_TOO_SHORT) {
        return "an output or info one byte short was not refused with 5";
    }
    if (*l->mark != 0 || !is_filled(l->out, PICTURE) ||
        !is_filled(l->fetch_info, BURST_FETCH_INFO_BYTES)) {
        return "a refused fetch wrote";
    }
    if (fetch(l, PICTURE, BURST_FETCH_INFO_BYTES) != BURST_DONE || *l->mark != 0) {
        return "fetch refused";
    }
    if (memcmp(l->out, l->picture, PICTURE) != 0) {
        return "the picture differs";
    }
    if (memcmp(l->fetch_info, shot_and_length, sizeof shot_and_length) != 0 ||
        memcmp(l->fetch_info + 6, l->stamp, STAMP) != 0) {
        return "what fetch says differs";
    }

    if (burst_record(l->key, KEY, l->file, TOTAL, 0, l->mark, l->offset,
                     l->size) != BURST_DONE ||
        *l->mark != 0 || *l->offset != RECORD_AT ||
        *l->size != INDEX_AT - RECORD_AT) {
        return "where the record stands differs";
    }
    if (burst_record(l->key, KEY, l->file, TOTAL, 1, l->mark, l->offset,
                     l->size) != BURST_NO_SUCH_PLACE ||
        *l->mark != 0 || *l->offset != 0 || *l->size != 0) {
        return "place 1 was not refused with 13";
    }
    for (size_t i = 0; i < sizeof places / sizeof places[0]; i++) {
        if (burst_record(l->key, KEY, l->file, TOTAL, places[i], l->mark,
                         l->offset, l->size) != BURST_NO_SUCH_PLACE ||
            burst_fetch(l->key, KEY, l->file, TOTAL, places[i], l->out, PICTURE,
                        l->mark, l->fetch_info, BURST_FETCH_INFO_BYTES) !=
                BURST_NO_SUCH_PLACE) {
            return "a wide place was not refused with 13";
        }
    }
    return NULL;
}

/* One bit of each byte of record and closing seal: 7, the mark saying which. */
static const char *read_changed(struct lent *l)
{
    memset(l->out, FILL, PICTURE);
    memset(l->fetch_info, FILL, BURST_FETCH_INFO_BYTES);
    memset(l->check_info, FILL, BURST_CHECK_INFO_BYTES);
    for (size_t at = RECORD_AT; at < TOTAL; at++) {
        uint32_t mark = at < INDEX_AT ? 2 : 0;
        uint32_t fetched, checked;
        if (at >= INDEX_AT && at < CLOSING_AT) {
            continue;
        }
        l->file[at] ^= 1;
        fetched = fetch(l, PICTURE, BURST_FETCH_INFO_BYTES);
        if (fetched != BURST_TAG_DIFFERS || *l->mark != mark) {
            return "fetch did not refuse a changed byte with 7 and its mark";
        }
        *l->mark = FILL_NUMBER;
        checked = burst_check(l->key, KEY, l->file, TOTAL, l->mark,
                              l->check_info, BURST_CHECK_INFO_BYTES);
        if (checked != BURST_TAG_DIFFERS || *l->mark != mark) {
            return "check did not refuse a changed byte with 7 and its mark";
        }
        l->file[at] ^= 1;
    }
    if (!is_filled(l->out, PICTURE) ||
        !is_filled(l->fetch_info, BURST_FETCH_INFO_BYTES) ||
        !is_filled(l->check_info, BURST_CHECK_INFO_BYTES)) {
        return "a refused call wrote";
    }
    return NULL;
}

/* The listing into exactly as many bytes as it has, and into one byte less. */
static const char *read_list(struct lent *l)
{
    static const char listing[] =
        "burst 7\ntaken 3 kept 1 dropped 2\nshot 2 at 40 length 3\n";
    const size_t length = sizeof listing - 1;
    const char *wrong = NULL;
    uint8_t *text = filled(length);

    *l->size = FILL_NUMBER;
    if (burst_list(l->file, TOTAL, text, length - 1, l->size) !=
            BURST_OUTPUT_TOO_SHORT ||
        *l->size != 0 || !is_filled(text, length)) {
        wrong = "a text one byte short was not refused with 5";
    } else if (burst_list(l->file, TOTAL, text, length, l->size) != BURST_DONE ||
               *l->size != length || memcmp(text, listing, length) != 0) {
        wrong = "the listing differs";
    }
    free(text);
    return wrong;
}

/* Some bytes as a file, which ends where its piece of the heap does: 12. */
static int is_front_broken(struct lent *l, const uint8_t *bytes, size_t length)
{
    uint8_t *file = allocate(length + 1);
    uint32_t checked;
    memcpy(file + 1, bytes, length);
    *l->mark = FILL_NUMBER;
    checked = burst_check(l->key, KEY, file + 1, length, l->mark, l->check_info,
                          BURST_CHECK_INFO_BYTES);
    free(file);
    return checked == BURST_FRONT_BROKEN && *l->mark == 0;
}

/* Every cut of the file. */
static const char *read_cut(struct lent *l)
{
    for (size_t length = 0; length < TOTAL; length++) {
        if (!is_front_broken(l, l->file, length)) {
            return "a cut file was not refused with 12";
        }
    }
    return NULL;
}

/* Files that are long enough for edition 1 and call themselves edition 2: an
   empty burst whose closing seal stands as far from the end as it must. */
static const char *read_short(struct lent *l)
{
    for (size_t length = BURST_MIN_READ_BYTES; length < BURST_MIN_WRITTEN_BYTES; length++) {
        const uint8_t closing = (uint8_t)(length - 32);
        uint8_t file[BURST_MIN_WRITTEN_BYTES] = {0};
        memcpy(file, header, sizeof header);
        memset(file + 2, 0, 6);
        file[20] = closing;
        file[24] = closing;
        file[28] = (uint8_t)length;
        if (!is_front_broken(l, file, length)) {
            return "a short file of edition 2 was not refused with 12";
        }
    }
    return NULL;
}

/* Sizes up a list: whether the number and the three written are these. */
static int sized(struct lent *l, const uint64_t *lengths, size_t count,
                 uint32_t refusal, uint64_t file_length, uint64_t p12, uint64_t p6)
{
    *l->file_length = FILL_WIDE;
    *l->p12 = FILL_WIDE;
    *l->p6 = FILL_WIDE;
    return burst_size_up(lengths, count, l->file_length, l->p12, l->p6) == refusal &&
           *l->file_length == file_length && *l->p12 == p12 && *l->p6 == p6;
}

/* The example is sized up before the trigger, and then recorded in a buffer of
   exactly the bytes that were said. */
static const char *size_and_record(struct lent *l)
{
    static const uint64_t planned[] = {0, PICTURE, 0};
    const size_t count = sizeof planned / sizeof planned[0];
    const char *wrong = NULL;
    uint64_t *lengths = wide_numbers(count);
    uint8_t *answers = filled(ANSWERS);
    uint8_t *buffer = NULL;

    memcpy(lengths, planned, sizeof planned);
    /* Two seals. Blocks of the record: stamp, entry, picture. Of the closing
       seal: site mark, header with index, and the empty message. */
    if (!sized(l, lengths, count, BURST_DONE, TOTAL, 2, 3 + 3)) {
        wrong = "the size of the example differs";
    } else if (memcmp(lengths, planned, sizeof planned) != 0) {
        wrong = "sizing up wrote to the list";
    } else {
        const size_t room = (size_t)*l->file_length;
        buffer = filled(room);
        replay(l, CAMERA, l->script, SCRIPT, buffer, room, answers, ANSWERS);
        if (*l->whole != 1 || memcmp(answers, expected_answers, ANSWERS) != 0 ||
            memcmp(buffer, l->file, TOTAL) != 0) {
            wrong = "a buffer of the size that was said did not take the burst";
        }
    }
    free(buffer);
    free(answers);
    free(lengths);
    return wrong;
}

/* Lists of one length, whose last may be another, and what is said of them. */
static const struct plan {
    size_t count;
    uint64_t length, last;
    uint32_t refusal;
    uint64_t file_length, p12, p6;
} plans[] = {
    {0, 0, 0, BURST_DONE, BURST_MIN_WRITTEN_BYTES, 1, 3},
    {1, 0, 0, BURST_DONE, BURST_MIN_WRITTEN_BYTES, 1, 3},
    {1, 0, 128, BURST_DONE, 244, 2, 6},
    {1, 0, 129, BURST_DONE, 245, 2, 7},
    {7, 1, 1, BURST_DONE, 387, 8, 24},
    {8, 1, 1, BURST_DONE, 432, 9, 28},
    {BURST_MAX_SHOTS, 0, 0, BURST_DONE, BURST_MIN_WRITTEN_BYTES, 1, 3},
    {BURST_MAX_SHOTS, BURST_MAX_PICTURE_BYTES, BURST_MAX_PICTURE_BYTES, BURST_DONE,
     62917272, 61, 491648},
    {BURST_MAX_SHOTS + 1, 0, 0, BURST_FULL, 0, 0, 0},
    {BURST_MAX_SHOTS + 1, 0, BURST_MAX_PICTURE_BYTES + 1, BURST_FULL, 0, 0, 0},
    {BURST_MAX_SHOTS + 1, UINT64_MAX, 0, BURST_FULL, 0, 0, 0},
    {1, 0, BURST_MAX_PICTURE_BYTES + 1, BURST_PICTURE_LENGTH, 0, 0, 0},
    {BURST_MAX_SHOTS, 1, BURST_MAX_PICTURE_BYTES + 1, BURST_PICTURE_LENGTH, 0, 0, 0},
    {BURST_MAX_SHOTS, UINT64_C(1) << 32, 1, BURST_PICTURE_LENGTH, 0, 0, 0},
};

/* Each list ends where its piece of the heap does. */
static const char *size_plans(struct lent *l)
{
    const char *wrong = NULL;

    for (size_t i = 0; wrong == NULL && i < sizeof plans / sizeof plans[0]; i++) {
        const struct plan *p = &plans[i];
        uint64_t *lengths = wide_numbers(p->count + 1);
        for (size_t shot = 1; shot <= p->count; shot++) {
            lengths[shot] = shot == p->count ? p->last : p->length;
        }
        if (!sized(l, lengths + 1, p->count, p->refusal, p->file_length, p->p12, p->p6)) {
            wrong = p->refusal == BURST_DONE ? "the size of a list differs"
                                             : "a list was not refused as it must be";
        }
        free(lengths);
    }
    return wrong;
}

int main(void)
{
    static const char *(*const steps[])(struct lent *) = {
        record, record_short, record_parts, record_no_call, record_begins,
        read_back, read_list, read_changed, read_cut, read_short,
        size_and_record, size_plans,
    };
    struct lent l = lend();
    const char *wrong = NULL;
    for (size_t i = 0; i < sizeof steps / sizeof steps[0]; i++) {
        wrong = steps[i](&l);
        if (wrong != NULL) {
            break;
        }
    }
    give_back(&l);
    if (wrong != NULL) {
        printf("record and read: %s\n", wrong);
        return 1;
    }
    puts("record and read ok");
    return 0;
}

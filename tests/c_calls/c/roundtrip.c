/* Round trips through nine of the C calls, as the camera's firmware makes them:
   whole messages under each variant, and messages in strips. Opening in place
   has a program of its own.
   Every buffer is its own piece of the heap, exactly as long as it must be,
   so that a memory checker sees a call that reads or writes past it. */

#include <stdio.h>
#include <stdlib.h>
#include <string.h>

#include "icepole.h"

typedef uint32_t (*seal_call)(const uint8_t *key, size_t key_len,
                              const uint8_t *nonce, size_t nonce_len,
                              const uint8_t *secret, size_t secret_len,
                              const uint8_t *ad1, size_t ad1_len,
                              const uint8_t *ad2, size_t ad2_len,
                              const uint8_t *msg, size_t msg_len,
                              uint8_t *out, size_t out_len);

typedef uint32_t (*open_call)(const uint8_t *key, size_t key_len,
                              const uint8_t *nonce, size_t nonce_len,
                              const uint8_t *ad1, size_t ad1_len,
                              const uint8_t *ad2, size_t ad2_len,
                              const uint8_t *sealed, size_t sealed_len,
                              uint8_t *out, size_t out_len,
                              uint8_t *info, size_t info_len);

struct variant {
    const char *name;
    size_t key, nonce, secret;
    seal_call seal;
    open_call open;
};

static const struct variant variants[] = {
    {"ICEPOLE-128", 16, 16, 16, icepole128_seal, icepole128_open},
    {"ICEPOLE-128a", 16, 12, 0, icepole128a_seal, icepole128a_open},
    {"ICEPOLE-256a", 32, 12, 0, icepole256a_seal, icepole256a_open},
};

static const size_t lengths[] = {0, 1, 127, 128, 129, 1000};

enum { COUNT_OF_LENGTHS = sizeof lengths / sizeof lengths[0] };
enum { COUNT_OF_VARIANTS = sizeof variants / sizeof variants[0] };
enum { TAG = 16, LENGTH = 8 };

/* Strips of these lengths come in turn, the last one shorter where less is
   left. */
static const size_t strips[] = {0, 1, 126, 1, 128, 129, 0, 300};

enum { COUNT_OF_STRIPS = sizeof strips / sizeof strips[0] };
enum { STATE = ICEPOLE128_STRIP_STATE_BYTES };

/* What stands in a buffer that no call has written. */
static const uint8_t FILL = 0xA5;

/* A piece of the heap. The calls want a pointer that is not null even where
   the length is 0; malloc of the C library at hand gives one. */
static uint8_t *allocate(size_t length)
{
    uint8_t *bytes = malloc(length);
    if (bytes == NULL) {
        puts("no memory");
        exit(1);
    }
    return bytes;
}

/* Bytes that count from `from` on. */
static uint8_t *counting(size_t length, unsigned from)
{
    uint8_t *bytes = allocate(length);
    for (size_t i = 0; i < length; i++) {
        bytes[i] = (uint8_t)(from + i);
    }
    return bytes;
}

/* Bytes for a call to write. */
static uint8_t *filled(size_t length)
{
    uint8_t *bytes = allocate(length);
    memset(bytes, FILL, length);
    return bytes;
}

static int is_filled(const uint8_t *bytes, size_t length)
{
    for (size_t i = 0; i < length; i++) {
        if (bytes[i] != FILL) {
            return 0;
        }
    }
    return 1;
}

/* The number that the first 8 bytes are, low byte first. */
static uint64_t number_in(const uint8_t *bytes)
{
    uint64_t number = 0;
    for (size_t i = LENGTH; i > 0; i--) {
        number = number << 8 | bytes[i - 1];
    }
    return number;
}

/* What is sealed, and under what. */
struct input {
    size_t ad1_len, ad2_len, msg_len;
    uint8_t *key, *nonce, *secret, *ad1, *ad2, *msg;
};

static struct input make_input(const struct variant *v, size_t ad_len,
                               size_t msg_len)
{
    struct input in;
    /* The associated data in two parts of different length. */
    in.ad1_len = ad_len / 3;
    in.ad2_len = ad_len - in.ad1_len;
    in.msg_len = msg_len;
    in.key = counting(v->key, 1);
    in.nonce = counting(v->nonce, 50);
    in.secret = counting(v->secret, 100);
    in.ad1 = counting(in.ad1_len, 150);
    in.ad2 = counting(in.ad2_len, 200);
    in.msg = counting(msg_len, 7);
    return in;
}

static void free_input(struct input *in)
{
    free(in->key);
    free(in->nonce);
    free(in->secret);
    free(in->ad1);
    free(in->ad2);
    free(in->msg);
}

static uint32_t seal_whole(const struct variant *v, const struct input *in,
                           uint8_t *sealed)
{
    return v->seal(in->key, v->key, in->nonce, v->nonce, in->secret, v->secret,
                   in->ad1, in->ad1_len, in->ad2, in->ad2_len, in->msg,
                   in->msg_len, sealed, v->secret + in->msg_len + TAG);
}

static uint32_t open_message(const struct variant *v, const struct input *in,
                             const uint8_t *sealed, uint8_t *opened,
                             uint8_t *info)
{
    return v->open(in->key, v->key, in->nonce, v->nonce, in->ad1, in->ad1_len,
                   in->ad2, in->ad2_len, sealed, v->secret + in->msg_len + TAG,
                   opened, in->msg_len, info, LENGTH + v->secret);
}

/* One bit of each byte of the tag is changed. What went wrong, or NULL. */
static const char *change_tag(const struct variant *v, const struct input *in,
                              uint8_t *sealed, uint8_t *opened, uint8_t *info)
{
    uint8_t *tag = sealed + v->secret + in->msg_len;
    for (size_t at = 0; at < TAG; at++) {
        uint32_t number;
        tag[at] ^= 1;
        number = open_message(v, in, sealed, opened, info);
        tag[at] ^= 1;
        if (number != 7) {
            return "a changed tag was not refused with 7";
        }
        if (!is_filled(opened, in->msg_len) ||
            !is_filled(info, LENGTH + v->secret)) {
            return "a refused opening wrote";
        }
    }
    return NULL;
}

/* The sealed message opens to what was sealed. What went wrong, or NULL. */
static const char *open_again(const struct variant *v, const struct input *in,
                              const uint8_t *sealed, uint8_t *opened,
                              uint8_t *info)
{
    if (open_message(v, in, sealed, opened, info) != 0) {
        return "opening was refused";
    }
    if (memcmp(opened, in->msg, in->msg_len) != 0) {
        return "the message differs";
    }
    if (number_in(info) != in->msg_len) {
        return "the length differs";
    }
    if (memcmp(info + LENGTH, in->secret, v->secret) != 0) {
        return "the secret number differs";
    }
    return NULL;
}

/* Opens with changed tags and with the right one. What went wrong, or NULL. */
static const char *try_opening(const struct variant *v, const struct input *in,
                               uint8_t *sealed)
{
    uint8_t *opened = filled(in->msg_len);
    uint8_t *info = filled(LENGTH + v->secret);
    const char *wrong = change_tag(v, in, sealed, opened, info);

    if (wrong == NULL) {
        wrong = open_again(v, in, sealed, opened, info);
    }
    free(opened);
    free(info);
    return wrong;
}

/* Seals one message whole and opens it. What went wrong, or NULL. */
static const char *round_trip(const struct variant *v, const struct input *in)
{
    const char *wrong;
    uint8_t *sealed = filled(v->secret + in->msg_len + TAG);

    if (seal_whole(v, in, sealed) != 0) {
        wrong = "sealing was refused";
    } else if (in->msg_len >= 16 &&
               memcmp(sealed + v->secret, in->msg, in->msg_len) == 0) {
        wrong = "the ciphertext is the message";
    } else {
        wrong = try_opening(v, in, sealed);
    }
    free(sealed);
    return wrong;
}

/* A strip: first with an output that is one byte too short, then with one that
   is long enough, which is copied to `sealed`. What went wrong, or NULL. */
static const char *one_strip(uint8_t *state, const uint8_t *from, size_t length,
                             uint8_t *sealed)
{
    const char *wrong = NULL;
    uint8_t before[STATE];
    uint8_t *msg = allocate(length);
    uint8_t *out = filled(length);

    memcpy(before, state, STATE);
    memcpy(msg, from, length);
    if (length > 0 &&
        icepole128_strip(state, STATE, msg, length, out, length - 1) !=
            ICEPOLE_OUTPUT_TOO_SHORT) {
        wrong = "a strip with a short output was not refused with 5";
    } else if (memcmp(state, before, STATE) != 0 || !is_filled(out, length)) {
        wrong = "a refused strip wrote";
    } else if (icepole128_strip(state, STATE, msg, length, out, length) != 0) {
        wrong = "a strip was refused";
    }
    memcpy(sealed, out, length);
    free(msg);
    free(out);
    return wrong;
}

/* All strips of the message. What went wrong, or NULL. */
static const char *all_strips(uint8_t *state, const struct input *in,
                              uint8_t *sealed)
{
    const char *wrong = NULL;
    size_t at = 0;
    for (size_t i = 0; wrong == NULL && (i == 0 || at < in->msg_len); i++) {
        size_t length = strips[i % COUNT_OF_STRIPS];
        if (length > in->msg_len - at) {
            length = in->msg_len - at;
        }
        wrong = one_strip(state, in->msg + at, length, sealed + at);
        at += length;
    }
    return wrong;
}

/* The end, and that nothing is taken after it. What went wrong, or NULL. */
static const char *end_strips(uint8_t *state, uint8_t *sealed_tag)
{
    const char *wrong = NULL;
    uint8_t *tag = filled(TAG);

    if (icepole128_end(state, STATE, tag, TAG) != 0) {
        wrong = "the end was refused";
    } else if (icepole128_end(state, STATE, tag, TAG) != ICEPOLE_STRIP_STATE ||
               icepole128_strip(state, STATE, sealed_tag, 0, tag, 0) !=
                   ICEPOLE_STRIP_STATE) {
        wrong = "a call after the end was not refused with 14";
    }
    memcpy(sealed_tag, tag, TAG);
    free(tag);
    return wrong;
}

/* A state slice of any length that is too short: 5 from all three calls, and
   nothing is read or written, which a memory checker sees. What went wrong, or
   NULL. */
static const char *short_states(const struct input *in)
{
    const char *wrong = NULL;
    uint8_t *out = filled(TAG);

    for (size_t length = 0; wrong == NULL && length < STATE; length++) {
        /* The slice ends where its piece of the heap does. */
        uint8_t *piece = filled(length + 1);
        uint8_t *state = piece + 1;
        if (icepole128_start(in->key, ICEPOLE128_KEY_BYTES, in->nonce,
                             ICEPOLE128_NONCE_BYTES, in->secret,
                             ICEPOLE128_SECRET_BYTES, in->ad1, in->ad1_len,
                             in->ad2, in->ad2_len, out, TAG, state,
                             length) != ICEPOLE_OUTPUT_TOO_SHORT ||
            icepole128_strip(state, length, in->msg, 0, out, 0) !=
                ICEPOLE_OUTPUT_TOO_SHORT ||
            icepole128_end(state, length, out, TAG) != ICEPOLE_OUTPUT_TOO_SHORT) {
            wrong = "a state that is too short was not refused with 5";
        } else if (!is_filled(piece, length + 1) || !is_filled(out, TAG)) {
            wrong = "a call on a state that is too short wrote";
        }
        free(piece);
    }
    free(out);
    return wrong;
}

static uint32_t start_strips(const struct input *in, size_t nonce_len,
                             uint8_t *sealed_secret, uint8_t *state)
{
    return icepole128_start(in->key, ICEPOLE128_KEY_BYTES, in->nonce, nonce_len,
                            in->secret, ICEPOLE128_SECRET_BYTES, in->ad1,
                            in->ad1_len, in->ad2, in->ad2_len, sealed_secret,
                            ICEPOLE128_SECRET_BYTES, state, STATE);
}

/* Seals one message in strips: the bytes are those of whole sealing, and open.
   A start is refused first. What went wrong, or NULL. */
static const char *in_strips(const struct variant *v, const struct input *in)
{
    const char *wrong = NULL;
    size_t sealed_len = v->secret + in->msg_len + TAG;
    uint8_t *whole = filled(sealed_len);
    uint8_t *sealed = filled(sealed_len);
    uint8_t *secret = filled(v->secret);
    uint8_t *state = filled(STATE);

    if (start_strips(in, 12, secret, state) != ICEPOLE_NONCE_LENGTH ||
        !is_filled(secret, v->secret) || state[STATE - 1] != 1) {
        wrong = "a nonce of 12 bytes was not refused with 2";
    } else if (start_strips(in, v->nonce, secret, state) != 0) {
        wrong = "the start was refused";
    }
    memcpy(sealed, secret, v->secret);
    if (wrong == NULL) {
        wrong = all_strips(state, in, sealed + v->secret);
    }
    if (wrong == NULL) {
        wrong = end_strips(state, sealed + sealed_len - TAG);
    }
    if (wrong == NULL &&
        (seal_whole(v, in, whole) != 0 ||
         memcmp(sealed, whole, sealed_len) != 0)) {
        wrong = "strips and whole sealing differ";
    }
    if (wrong == NULL) {
        wrong = try_opening(v, in, sealed);
    }
    free(whole);
    free(sealed);
    free(secret);
    free(state);
    return wrong;
}

/* What went wrong with one message is said. Whether nothing did. */
static int try_message(const struct variant *v, size_t ad_len, size_t msg_len)
{
    struct input in = make_input(v, ad_len, msg_len);
    const char *wrong = round_trip(v, &in);
    /* The first variant is ICEPOLE-128, the one that has strips. */
    if (wrong == NULL && v == &variants[0]) {
        wrong = in_strips(v, &in);
        if (wrong == NULL) {
            wrong = short_states(&in);
        }
    }
    free_input(&in);
    if (wrong != NULL) {
        printf("%s, associated data %zu, message %zu: %s\n", v->name, ad_len,
               msg_len, wrong);
    }
    return wrong == NULL;
}

int main(void)
{
    for (size_t v = 0; v < COUNT_OF_VARIANTS; v++) {
        for (size_t m = 0; m < COUNT_OF_LENGTHS; m++) {
            for (size_t a = 0; a < COUNT_OF_LENGTHS; a++) {
                if (!try_message(&variants[v], lengths[a], lengths[m])) {
                    return 1;
                }
            }
        }
    }
    puts("roundtrip ok");
    return 0;
}

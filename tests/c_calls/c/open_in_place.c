/* Opening in place by the C calls, as a playback unit makes them: it has memory
   for one picture, and opens what it read from the card where that stands.
   Every slice is its own piece of the heap, exactly as long as it must be, so
   that a memory checker sees a call that reads or writes past it. */

#include <stdio.h>
#include <stdlib.h>
#include <string.h>

#include "icepole.h"

typedef uint32_t seal_call(const uint8_t *key, size_t key_len,
                           const uint8_t *nonce, size_t nonce_len,
                           const uint8_t *secret, size_t secret_len,
                           const uint8_t *ad1, size_t ad1_len,
                           const uint8_t *ad2, size_t ad2_len,
                           const uint8_t *msg, size_t msg_len,
                           uint8_t *out, size_t out_len);

typedef uint32_t in_place_call(const uint8_t *key, size_t key_len,
                               const uint8_t *nonce, size_t nonce_len,
                               const uint8_t *ad1, size_t ad1_len,
                               const uint8_t *ad2, size_t ad2_len,
                               uint8_t *buffer, size_t buffer_len,
                               uint8_t *info, size_t info_len);

struct variant {
    const char *name;
    size_t key, nonce, secret, overhead, info;
    seal_call *seal;
    in_place_call *open_in_place;
};

static const struct variant variants[] = {
    {"ICEPOLE-128", ICEPOLE128_KEY_BYTES, ICEPOLE128_NONCE_BYTES,
     ICEPOLE128_SECRET_BYTES, ICEPOLE128_OVERHEAD_BYTES, ICEPOLE128_INFO_BYTES,
     icepole128_seal, icepole128_open_in_place},
    {"ICEPOLE-128a", ICEPOLE128A_KEY_BYTES, ICEPOLE128A_NONCE_BYTES,
     ICEPOLE128A_SECRET_BYTES, ICEPOLE128A_OVERHEAD_BYTES,
     ICEPOLE128A_INFO_BYTES, icepole128a_seal, icepole128a_open_in_place},
    {"ICEPOLE-256a", ICEPOLE256A_KEY_BYTES, ICEPOLE256A_NONCE_BYTES,
     ICEPOLE256A_SECRET_BYTES, ICEPOLE256A_OVERHEAD_BYTES,
     ICEPOLE256A_INFO_BYTES, icepole256a_seal, icepole256a_open_in_place},
};

static const size_t messages[] = {0,   1,   15,  16,  17,  119, 120,  121, 127,
                                  128, 129, 240, 255, 256, 257, 1000, 5000};
static const size_t associated[] = {0, 1, 120, 128, 300};

enum { TAG = 16, LENGTH = 8, LONGEST = 5000, MOST_INFO = 24, MOST_OVERHEAD = 32 };
enum { COUNT_OF_VARIANTS = sizeof variants / sizeof variants[0] };
enum { COUNT_OF_MESSAGES = sizeof messages / sizeof messages[0] };
enum { COUNT_OF_ASSOCIATED = sizeof associated / sizeof associated[0] };

/* The header has the same sizes. */
_Static_assert(ICEPOLE128_OVERHEAD_BYTES == 16 + TAG, "128: a tag behind a sealed secret number");
_Static_assert(ICEPOLE128A_OVERHEAD_BYTES == TAG && ICEPOLE256A_OVERHEAD_BYTES == TAG, "a tag");
_Static_assert(ICEPOLE128_INFO_BYTES == LENGTH + 16, "128: a length and a secret number");
_Static_assert(ICEPOLE128A_INFO_BYTES == LENGTH && ICEPOLE256A_INFO_BYTES == LENGTH, "a length");

/* A sealed message of zeros, and an info, that cannot be written: the program
   ends where a refused call tries it, though it put back what stood there. */
static const uint8_t FIXED_SEALED[LONGEST + MOST_OVERHEAD] = {0};
static const uint8_t FIXED_INFO[MOST_INFO] = {0};

/* What stands in an info that no call has written. */
static const uint8_t FILL = 0xA5;

struct slice {
    uint8_t *bytes;
    size_t length;
};

/* What a message is opened under. */
struct under {
    const struct variant *v;
    struct slice key, nonce, ad1, ad2;
};

static unsigned long calls;

static void fail(const struct under *u, size_t buffer_len, const char *what)
{
    printf("call %lu, %s, associated data %zu + %zu, buffer %zu: %s\n", calls,
           u->v->name, u->ad1.length, u->ad2.length, buffer_len, what);
    exit(1);
}

/* A piece of the heap. The calls want a pointer that is not null even where the
   length is 0; malloc of the C library at hand gives one. */
static struct slice allocate(size_t length)
{
    struct slice made = {malloc(length), length};
    if (made.bytes == NULL) {
        puts("no memory");
        exit(1);
    }
    return made;
}

/* Bytes that count from `from` on. */
static struct slice counting(size_t length, unsigned from)
{
    struct slice made = allocate(length);
    for (size_t i = 0; i < length; i++) {
        made.bytes[i] = (uint8_t)(from + i);
    }
    return made;
}

static struct slice filled(size_t length)
{
    struct slice made = allocate(length);
    memset(made.bytes, FILL, length);
    return made;
}

/* The first `length` bytes, as a piece of their own. */
static struct slice front(struct slice whole, size_t length)
{
    struct slice made = allocate(length);
    memcpy(made.bytes, whole.bytes, length);
    return made;
}

/* The bytes from `from` on are as they were filled. */
static int is_filled(struct slice slice, size_t from)
{
    for (size_t i = from; i < slice.length; i++) {
        if (slice.bytes[i] != FILL) {
            return 0;
        }
    }
    return 1;
}

/* The number that the first 8 bytes are, low byte first. */
static uint64_t number_in(const uint8_t *bytes)
{
    uint64_t number = 0;
    for (size_t i = LENGTH; i > 0; i--) {
        number = number << 8 | bytes[i - 1];
    }
    return number;
}

/* The call gives this number, or that is said. */
static void expect(const struct under *u, struct slice buffer,
                   struct slice info, uint32_t number)
{
    calls++;
    if (u->v->open_in_place(u->key.bytes, u->key.length, u->nonce.bytes,
                            u->nonce.length, u->ad1.bytes, u->ad1.length,
                            u->ad2.bytes, u->ad2.length, buffer.bytes,
                            buffer.length, info.bytes, info.length) != number) {
        fail(u, buffer.length, "another number");
    }
}

/* The call is refused with this number, and buffer and info stay. */
static void refuses(const struct under *u, struct slice sealed, size_t info_len,
                    uint32_t number)
{
    struct slice buffer = front(sealed, sealed.length);
    struct slice info = filled(info_len);

    expect(u, buffer, info, number);
    if (memcmp(buffer.bytes, sealed.bytes, sealed.length) != 0) {
        fail(u, buffer.length, "a refused call changed the buffer");
    }
    if (!is_filled(info, 0)) {
        fail(u, buffer.length, "a refused call wrote to info");
    }
    free(buffer.bytes);
    free(info.bytes);
}

/* The call leaves the message at the buffer's front, the sealed message's bytes
   behind it, and length and secret number in info. */
static void opens(const struct under *u, struct slice sealed, struct slice msg,
                  struct slice secret, size_t info_len)
{
    struct slice buffer = front(sealed, sealed.length);
    struct slice info = filled(info_len);

    expect(u, buffer, info, ICEPOLE_DONE);
    if (memcmp(buffer.bytes, msg.bytes, msg.length) != 0) {
        fail(u, buffer.length, "the message differs");
    }
    if (memcmp(buffer.bytes + msg.length, sealed.bytes + msg.length,
               u->v->overhead) != 0) {
        fail(u, buffer.length, "a byte behind the message changed");
    }
    if (number_in(info.bytes) != msg.length) {
        fail(u, buffer.length, "the length differs");
    }
    if (memcmp(info.bytes + LENGTH, secret.bytes, secret.length) != 0) {
        fail(u, buffer.length, "the secret number differs");
    }
    if (!is_filled(info, u->v->info)) {
        fail(u, buffer.length, "a later byte of info changed");
    }
    free(buffer.bytes);
    free(info.bytes);
}

/* One bit of each byte of the tag is changed, and of the first byte. */
static void try_changed(const struct under *u, struct slice sealed)
{
    for (size_t i = 0; i <= TAG; i++) {
        size_t at = i == TAG ? 0 : sealed.length - TAG + i;
        sealed.bytes[at] ^= 1;
        refuses(u, sealed, u->v->info, ICEPOLE_TAG_DIFFERS);
        refuses(u, sealed, u->v->info - 1, ICEPOLE_OUTPUT_TOO_SHORT);
        sealed.bytes[at] ^= 1;
    }
}

/* Key and nonce one byte too short, then the nonce alone. */
static void try_lengths(const struct under *u, struct slice sealed)
{
    struct under other = *u;

    other.key = front(u->key, u->key.length - 1);
    other.nonce = front(u->nonce, u->nonce.length - 1);
    refuses(&other, sealed, u->v->info, ICEPOLE_KEY_LENGTH);
    free(other.key.bytes);
    other.key = u->key;
    refuses(&other, sealed, u->v->info, ICEPOLE_NONCE_LENGTH);
    refuses(&other, sealed, 0, ICEPOLE_NONCE_LENGTH);
    free(other.nonce.bytes);
}

/* Fronts of the sealed message: too short, or with no tag that agrees. */
static void try_fronts(const struct under *u, struct slice sealed)
{
    for (size_t length = 0; length < sealed.length; length += 1 + length / 40) {
        struct slice part = front(sealed, length);
        if (length < u->v->overhead) {
            refuses(u, part, u->v->info, ICEPOLE_SEALED_TOO_SHORT);
            refuses(u, part, 0, ICEPOLE_SEALED_TOO_SHORT);
        } else {
            refuses(u, part, u->v->info, ICEPOLE_TAG_DIFFERS);
        }
        free(part.bytes);
    }
}

/* Bytes that cannot be written are refused like any others. */
static void try_fixed(const struct under *u, size_t buffer_len)
{
    struct slice buffer = {(uint8_t *)FIXED_SEALED, buffer_len};
    struct slice info = {(uint8_t *)FIXED_INFO, u->v->info};
    struct slice short_info = {(uint8_t *)FIXED_INFO, u->v->info - 1};
    struct slice short_buffer = {(uint8_t *)FIXED_SEALED, u->v->overhead - 1};
    struct under other = *u;

    expect(u, buffer, info, ICEPOLE_TAG_DIFFERS);
    expect(u, buffer, short_info, ICEPOLE_OUTPUT_TOO_SHORT);
    expect(u, short_buffer, info, ICEPOLE_SEALED_TOO_SHORT);
    other.nonce = front(u->nonce, u->nonce.length - 1);
    expect(&other, buffer, info, ICEPOLE_NONCE_LENGTH);
    free(other.nonce.bytes);
}

/* The associated data cut at another place is the same; its parts exchanged are
   not. */
static void try_parts(const struct under *u, struct slice sealed,
                      struct slice msg, struct slice secret)
{
    struct under other = *u;
    struct slice joined = allocate(u->ad1.length + u->ad2.length);

    memcpy(joined.bytes, u->ad1.bytes, u->ad1.length);
    memcpy(joined.bytes + u->ad1.length, u->ad2.bytes, u->ad2.length);
    other.ad1 = joined;
    other.ad2 = allocate(0);
    opens(&other, sealed, msg, secret, u->v->info);
    free(joined.bytes);
    free(other.ad2.bytes);

    other.ad1 = u->ad2;
    other.ad2 = u->ad1;
    if (u->ad1.length > 0) {
        refuses(&other, sealed, u->v->info, ICEPOLE_TAG_DIFFERS);
    }
}

/* Seals a message, and opens it in place, refused and not. */
static void try_message(const struct under *u, size_t msg_len)
{
    const struct variant *v = u->v;
    struct slice secret = counting(v->secret, 100);
    struct slice msg = counting(msg_len, 7);
    struct slice sealed = filled(msg_len + v->overhead);

    if (v->seal(u->key.bytes, u->key.length, u->nonce.bytes, u->nonce.length,
                secret.bytes, secret.length, u->ad1.bytes, u->ad1.length,
                u->ad2.bytes, u->ad2.length, msg.bytes, msg.length,
                sealed.bytes, sealed.length) != ICEPOLE_DONE) {
        fail(u, sealed.length, "sealing was refused");
    }
    try_lengths(u, sealed);
    try_fronts(u, sealed);
    try_changed(u, sealed);
    try_fixed(u, sealed.length);
    refuses(u, sealed, v->info - 1, ICEPOLE_OUTPUT_TOO_SHORT);
    refuses(u, sealed, 0, ICEPOLE_OUTPUT_TOO_SHORT);
    try_parts(u, sealed, msg, secret);
    opens(u, sealed, msg, secret, v->info);
    opens(u, sealed, msg, secret, v->info + 5);
    free(secret.bytes);
    free(msg.bytes);
    free(sealed.bytes);
}

/* One byte above the maximum, as a buffer and as associated data, is refused with
   4; the maximum itself with what comes next. */
static void try_too_long(const struct under *u)
{
    const size_t most = ICEPOLE_MAX_BYTES + u->v->overhead;
    struct slice buffer = filled(most + 1);
    struct slice info = filled(u->v->info - 1);
    struct slice few = counting(u->v->overhead, 9);
    struct under other = *u;

    expect(u, buffer, info, ICEPOLE_DATA_TOO_LONG);
    buffer.length = most;
    expect(u, buffer, info, ICEPOLE_OUTPUT_TOO_SHORT);

    other.ad1.bytes = buffer.bytes;
    other.ad1.length = ICEPOLE_MAX_BYTES;
    other.ad2.length = 0;
    refuses(&other, few, u->v->info - 1, ICEPOLE_OUTPUT_TOO_SHORT);
    other.ad2.length = 1;
    refuses(&other, few, u->v->info, ICEPOLE_DATA_TOO_LONG);

    buffer.length = most + 1;
    if (!is_filled(buffer, 0) || !is_filled(info, 0)) {
        fail(u, most, "a refused call wrote");
    }
    free(buffer.bytes);
    free(info.bytes);
    free(few.bytes);
}

/* The associated data in two parts of different length. */
static struct under make_under(const struct variant *v, size_t ad_len)
{
    struct under u;
    u.v = v;
    u.key = counting(v->key, 1);
    u.nonce = counting(v->nonce, 50);
    u.ad1 = counting(ad_len / 3, 150);
    u.ad2 = counting(ad_len - ad_len / 3, 200);
    return u;
}

static void free_under(struct under *u)
{
    free(u->key.bytes);
    free(u->nonce.bytes);
    free(u->ad1.bytes);
    free(u->ad2.bytes);
}

/* The calls have left what they only read. */
static void try_inputs(const struct under *u)
{
    struct under made = make_under(u->v, u->ad1.length + u->ad2.length);

    if (memcmp(u->key.bytes, made.key.bytes, made.key.length) != 0 ||
        memcmp(u->nonce.bytes, made.nonce.bytes, made.nonce.length) != 0 ||
        memcmp(u->ad1.bytes, made.ad1.bytes, made.ad1.length) != 0 ||
        memcmp(u->ad2.bytes, made.ad2.bytes, made.ad2.length) != 0) {
        fail(u, 0, "an input changed");
    }
    free_under(&made);
}

int main(void)
{
    for (size_t v = 0; v < COUNT_OF_VARIANTS; v++) {
        for (size_t a = 0; a < COUNT_OF_ASSOCIATED; a++) {
            struct under u = make_under(&variants[v], associated[a]);
            for (size_t m = 0; m < COUNT_OF_MESSAGES; m++) {
                try_message(&u, messages[m]);
            }
            if (associated[a] == 300) {
                try_too_long(&u);
            }
            try_inputs(&u);
            free_under(&u);
        }
    }
    printf("%lu openings in place\n", calls);
    return 0;
}

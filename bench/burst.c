/*
 * Times recording, check and fetch of bursts against sealing, turn about in one run.
 *   burst largest   a table of the page: 60 pictures of 1,048,576 bytes, against sealing the same bytes
 *   burst growth    two tables of the page, which bench/plot.awk draws: by the size of the picture, and by the number of pictures
 */
#include <stdint.h>
#include <string.h>
#include "../include/burst.h"
#include "../include/icepole.h"
#include "timing.h"

enum { MIB = BURST_MAX_PICTURE_BYTES, SHAPES = 11, CALLS = 4, TURNS = 101 };
enum { HEADER = 40, ENTRY = 12, OVERHEAD = ICEPOLE128_OVERHEAD_BYTES };          /* of the file */
enum { KEEP_FRONT = 6 + BURST_STAMP_BYTES, CLOSE_BYTES = 1 }; /* of a script (burst.h) */

struct burst {
    size_t pictures, bytes, script_len, file_len;
    uint8_t *script, *file;
};

typedef void (*call_t)(const struct burst *);

static uint8_t key[16], nonce[16], mark16[16], ad[ENTRY], answers[BURST_ANSWER_BYTES * (BURST_MAX_SHOTS + 2)];
static uint8_t info[BURST_CHECK_INFO_BYTES], out[MIB], sealed[MIB + OVERHEAD];
static uint32_t mark, offset, size, whole;

static void must(int done)
{
    if (done)
        return;
    fprintf(stderr, "a call on a burst was refused\n");
    exit(1);
}

static void seal(const struct burst *b)
{
    for (size_t i = 0; i < b->pictures; i++)
        must(!icepole128_seal(key, 16, nonce, 16, mark16, 16, ad, ENTRY, ad, 0,
                              b->script + i * (KEEP_FRONT + b->bytes) + KEEP_FRONT, b->bytes, sealed, sizeof sealed));
}

static void record(const struct burst *b)
{
    must(burst_replay(key, 16, 7, 1, mark16, 16, b->script, b->script_len, b->file, b->file_len, answers, sizeof answers, &whole) == b->pictures + 2 && whole);
}

static void check(const struct burst *b) { must(!burst_check(key, 16, b->file, b->file_len, &mark, info, sizeof info)); }

static void fetch(const struct burst *b, size_t place)
{
    must(!burst_fetch(key, 16, b->file, b->file_len, place, out, sizeof out, &mark, info, sizeof info));
}

static void fetch_last(const struct burst *b) { fetch(b, b->pictures - 1); }

static void fetch_each(const struct burst *b)
{
    for (size_t place = 0; place < b->pictures; place++)
        fetch(b, place);
}

static void locate_last(const struct burst *b)
{
    must(!burst_record(key, 16, b->file, b->file_len, b->pictures - 1, &mark, &offset, &size));
}

/* A recorded burst of so many pictures of so many bytes. It is never freed: the program uses each to its end. */
static struct burst burst_of(size_t pictures, size_t bytes)
{
    size_t keep = KEEP_FRONT + bytes;
    struct burst b = {
        .pictures = pictures, .bytes = bytes,
        .script_len = pictures * keep + CLOSE_BYTES,
        .file_len = HEADER + pictures * (bytes + OVERHEAD + ENTRY) + OVERHEAD,
    };
    b.script = malloc(b.script_len);
    b.file = malloc(b.file_len);
    must(b.script && b.file);
    for (size_t i = 0; i < b.script_len; i++)
        b.script[i] = (uint8_t)(i * 31 + 7);
    for (size_t i = 0; i < pictures; i++) {
        uint8_t front[6] = {BURST_CALL_KEEP, BURST_STAMP_BYTES, (uint8_t)bytes, (uint8_t)(bytes >> 8), (uint8_t)(bytes >> 16), 0};
        memcpy(b.script + i * keep, front, sizeof front);
    }
    b.script[b.script_len - 1] = BURST_CALL_CLOSE;
    record(&b);
    check(&b);
    return b;
}

/* Short bursts are taken many times over, so that a turn is long against the clock's own time. */
static double timed(call_t call, const struct burst *b)
{
    size_t times = 1 + 65536 / (b->pictures * b->bytes + 512);
    double from = now();
    for (size_t i = 0; i < times; i++)
        call(b);
    return (now() - from) / (double)times;
}

static void largest(void)
{
    static const struct { const char *name; call_t call; double limit; } rows[CALLS] = {
        {"recording them (`burst_replay`)", record, 0},
        {"check", check, 1.10},
        {"fetch: check, and one picture of 60 opened", fetch_last, 0},
        {"record: check, and where a sealed record stands", locate_last, 0},
    };
    static double turn[CALLS][TURNS];
    enum { LARGEST_TURNS = 9 };
    struct burst b = burst_of(BURST_MAX_SHOTS, MIB);
    for (int i = 0; i < LARGEST_TURNS; i++) {
        double sealing = timed(seal, &b);
        for (int r = 0; r < CALLS; r++)
            turn[r][i] = timed(rows[r].call, &b) / sealing;
    }
    printf("| 60 pictures of 1 MiB | time / sealing the same bytes | wanted |\n|---|---|---|\n");
    for (int r = 0; r < CALLS; r++) {
        printf("| %s |", rows[r].name);
        print_cell(median(turn[r], LARGEST_TURNS), rows[r].limit);
        rows[r].limit > 0 ? printf(" at most %.2f |\n", rows[r].limit) : printf(" |\n");
    }
}

struct study {
    const char *title, *head; /* head: the table's first line; bench/plot.awk names the curves after it */
    const struct burst *bursts, *reference;
    int count, by_byte, turns; /* by_byte: times of a byte, not of the burst */
    call_t calls[CALLS];       /* ended by NULL */
};

static double per(const struct study *y, const struct burst *b) { return y->by_byte ? (double)b->bytes : 1; }

/* Decimals that give about three digits. */
static int decimals(double figure) { return figure < 10 ? 2 : figure < 100 ? 1 : 0; }

/* Each time is set against the sealing of the reference before it; that is done once untimed first, since the burst before has filled the caches. */
static void study(const struct study *y)
{
    static double turn[SHAPES][CALLS][TURNS], unit[TURNS];
    for (int i = 0; i < y->turns; i++)
        for (int s = 0; s < y->count; s++) {
            seal(y->reference);
            unit[i] = timed(seal, y->reference) / per(y, y->reference);
            for (int k = 0; y->calls[k]; k++)
                turn[s][k][i] = timed(y->calls[k], &y->bursts[s]) / per(y, &y->bursts[s]) / unit[i];
        }
    double ns = median(unit, y->turns);
    printf("%s (%.*f ns here):\n\n%s\n|---|---|---|---|\n", y->title, decimals(ns), ns, y->head);
    for (int s = 0; s < y->count; s++) {
        printf("| %zu |", y->by_byte ? y->bursts[s].bytes : y->bursts[s].pictures);
        for (int k = 0; y->calls[k]; k++) {
            double figure = median(turn[s][k], y->turns);
            printf(" %.*f |", decimals(figure), figure);
        }
        printf("\n");
    }
}

static void growth(void)
{
    static const size_t numbers[] = {1, 2, 4, 8, 15, 30, 60};
    enum { NUMBERS = sizeof numbers / sizeof *numbers };
    struct burst by_size[SHAPES], by_number[NUMBERS];
    for (int s = 0; s < SHAPES; s++)
        by_size[s] = burst_of(1, (size_t)1 << 2 * s);
    for (int s = 0; s < NUMBERS; s++)
        by_number[s] = burst_of(numbers[s], 65536);
    study(&(struct study){
        .title = "Time a byte of a burst with one picture, where a byte of sealing 1 MiB is 1",
        .head = "| bytes of the picture | check | seal | record |",
        .bursts = by_size, .reference = &by_size[SHAPES - 1], .count = SHAPES, .by_byte = 1, .turns = TURNS,
        .calls = {check, seal, record, NULL},
    });
    printf("\n");
    study(&(struct study){
        .title = "Time of a burst with pictures of 64 KiB, where sealing one such picture is 1",
        .head = "| pictures | check | fetch of one | fetch of each |",
        .bursts = by_number, .reference = &by_number[0], .count = NUMBERS, .by_byte = 0, .turns = 15,
        .calls = {check, fetch_last, fetch_each, NULL},
    });
}

int main(int argc, char **argv)
{
    if (argc == 2 && !strcmp(argv[1], "largest"))
        largest();
    else
        growth();
    return 0;
}

/*
 * How much stack opening in place takes: `stack MOST` prints the bytes for each variant, and fails where they are above MOST or differ from
 * message to message. A call runs on a stack of its own, which was painted before; what is painted no longer was used. Linked with -z now,
 * so that the first call looks up no name.
 */
#include <stdint.h>
#include <stdio.h>
#include <stdlib.h>
#include <string.h>
#include <ucontext.h>
#include "icepole.h"

enum { MOST_BYTES = 1 << 20, STACK = 1 << 16, PAINT = 0xA7, AD = 12, LENGTHS = 5 };

static uint8_t key[32], nonce[16], secret[16], ad[AD], info[24], message[MOST_BYTES], buffer[MOST_BYTES + 32], stack[STACK];
static const size_t lengths[LENGTHS] = {0, 1, 128, 1000, MOST_BYTES};
static ucontext_t here, there;
static size_t n;
static uint32_t refusal;

static void nothing(void) { refusal = 0; }

static void open_128(void)
{
    refusal = icepole128_open_in_place(key, 16, nonce, 16, ad, AD, ad, 0, buffer, n + 32, info, 24);
}

static void open_128a(void)
{
    refusal = icepole128a_open_in_place(key, 16, nonce, 12, ad, AD, ad, 0, buffer, n + 16, info, 8);
}

static void open_256a(void)
{
    refusal = icepole256a_open_in_place(key, 32, nonce, 12, ad, AD, ad, 0, buffer, n + 16, info, 8);
}

/* The bytes of the stack that a function uses, with what it takes to get there. */
static size_t used(void (*function)(void))
{
    size_t clean = 0;
    memset(stack, PAINT, STACK);
    if (getcontext(&there))
        return STACK;
    there.uc_stack.ss_sp = stack;
    there.uc_stack.ss_size = STACK;
    there.uc_link = &here;
    makecontext(&there, function, 0);
    if (swapcontext(&here, &there))
        return STACK;
    while (clean < STACK && stack[clean] == PAINT)
        clean++;
    return STACK - clean;
}

int main(int argc, char **argv)
{
    static const struct { const char *name; void (*open)(void); } calls[] = {{"128", open_128}, {"128a", open_128a}, {"256a", open_256a}};
    size_t most = argc == 2 ? strtoull(argv[1], NULL, 10) : 0, beside = used(nothing);
    int failed = 0;
    for (size_t v = 0; v < sizeof calls / sizeof *calls; v++) {
        size_t first = 0;
        for (int i = 0; i < LENGTHS; i++) {
            n = lengths[i];
            refusal = v == 0   ? icepole128_seal(key, 16, nonce, 16, secret, 16, ad, AD, ad, 0, message, n, buffer, n + 32)
                      : v == 1 ? icepole128a_seal(key, 16, nonce, 12, secret, 0, ad, AD, ad, 0, message, n, buffer, n + 16)
                               : icepole256a_seal(key, 32, nonce, 12, secret, 0, ad, AD, ad, 0, message, n, buffer, n + 16);
            size_t bytes = refusal ? STACK : used(calls[v].open) - beside;
            if (i == 0)
                first = bytes;
            failed |= refusal != 0 || bytes != first || bytes < 160 || bytes > most;
        }
        printf("%zu bytes of stack: opening in place, %s\n", first, calls[v].name);
    }
    return failed;
}

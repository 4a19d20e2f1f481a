/* One message sealed, opened, and opened in place, for counting the instructions of each call: `block BYTES`. The message is all zeros. */
#include <stdint.h>
#include <stdlib.h>
#include "../include/icepole.h"

int main(int argc, char **argv)
{
    static uint8_t key[16], nonce[16], secret[16], ad[12], info[24], message[1 << 15], sealed[(1 << 15) + 32];
    size_t n = argc == 2 ? strtoull(argv[1], NULL, 10) : 0;
    if (n > sizeof message)
        return 1;
    uint32_t refusal = icepole128_seal(key, 16, nonce, 16, secret, 16, ad, 12, ad, 0, message, n, sealed, n + 32);
    refusal |= icepole128_open(key, 16, nonce, 16, ad, 12, ad, 0, sealed, n + 32, message, n, info, 24);
    return (int)(refusal | icepole128_open_in_place(key, 16, nonce, 16, ad, 12, ad, 0, sealed, n + 32, info, 24));
}

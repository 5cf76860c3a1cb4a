/* A first packet. From the top of the repository, after `tests/build galmuriec_c`:
 *     cc -Iinclude examples/seal.c target/staticlib/libgalmuriec_c.a -o seal && ./seal */
#include "galmuriec.h"
#include <stdio.h>
#include <string.h>
#include <sys/random.h>

int main(void)
{
    uint8_t secret[GALMURIEC_SECRET_KEY_BYTES], public_key[GALMURIEC_PUBLIC_KEY_BYTES];
    uint8_t packet[GALMURIEC_CIPHERTEXT_BYTES], draw[2][GALMURIEC_RANDOMNESS_BYTES];
    uint8_t tank[GALMURIEC_SHARED_KEY_BYTES], cellar[GALMURIEC_SHARED_KEY_BYTES];
    galmuriec_refusal refusal;

    if (getentropy(draw, sizeof draw) != 0)
        return 1;
    /* the cellar makes a key pair, the tank seals a shared key for it, the cellar opens it */
    if (galmuriec_keygen(draw[0], sizeof draw[0], secret, sizeof secret,
                         public_key, sizeof public_key, &refusal) != GALMURIEC_DONE ||
        galmuriec_enc(public_key, sizeof public_key, draw[1], sizeof draw[1],
                      tank, sizeof tank, packet, sizeof packet, &refusal) != GALMURIEC_DONE ||
        galmuriec_dec(secret, sizeof secret, packet, sizeof packet,
                      cellar, sizeof cellar, &refusal) != GALMURIEC_DONE) {
        fprintf(stderr, "refused: number %d\n", (int)refusal.number);
        return 1;
    }
    int same = memcmp(tank, cellar, sizeof tank) == 0;
    printf("tank and cellar hold %s\n", same ? "the same shared key" : "different keys");
    return same ? 0 : 1;
}

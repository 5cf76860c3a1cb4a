/* Seals COUNT packets, each for a key pair of its own, and opens each with its own secret key: how many are refused, and how many give another
 * shared key than the sealer's. Draws come from a seed, so that a run can be repeated. */
#include <galmuriec.h>
#include <inttypes.h>
#include <stdio.h>
#include <stdlib.h>
#include <string.h>

/* splitmix64 */
static uint64_t next(uint64_t *state) {
    uint64_t z = (*state += UINT64_C(0x9e3779b97f4a7c15));
    z = (z ^ (z >> 30)) * UINT64_C(0xbf58476d1ce4e5b9);
    z = (z ^ (z >> 27)) * UINT64_C(0x94d049bb133111eb);
    return z ^ (z >> 31);
}

static void draw(uint64_t *state, uint8_t bytes[32]) {
    for (int i = 0; i < 4; i++) {
        uint64_t x = next(state);
        memcpy(bytes + 8 * i, &x, 8);
    }
}

int main(int argc, char **argv) {
    if (argc != 3) {
        fprintf(stderr, "usage: honest COUNT SEED\n");
        return 2;
    }
    uint64_t count = strtoull(argv[1], NULL, 10), state = strtoull(argv[2], NULL, 10), refused = 0, wrong = 0;
    for (uint64_t i = 0; i < count; i++) {
        uint8_t randomness[32], secret[64] = {0}, public[2080] = {0}, packet[2560] = {0}, sealed[32] = {0}, opened[32] = {0};
        galmuriec_refusal refusal = {0};
        draw(&state, randomness);
        if (galmuriec_keygen(randomness, 32, secret, 64, public, 2080, &refusal) != 0)
            return 3;
        draw(&state, randomness);
        if (galmuriec_enc(public, 2080, randomness, 32, sealed, 32, packet, 2560, &refusal) != 0)
            return 3;
        if (galmuriec_dec(secret, 64, packet, 2560, opened, 32, &refusal) != 0)
            refused++;
        else if (memcmp(sealed, opened, 32) != 0)
            wrong++;
    }
    printf("%" PRIu64 " honest packets: %" PRIu64 " refused, %" PRIu64 " opened to another key\n", count, refused, wrong);
    return wrong != 0;
}

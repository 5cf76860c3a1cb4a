/* Keccak-p[1600, 24] in C, written out: what the proved permutation is measured against. Lane (x, y) stands at x + 5y. */
#include <stdint.h>

static const uint64_t constants[24] = {
    0x0000000000000001, 0x0000000000008082, 0x800000000000808a, 0x8000000080008000,
    0x000000000000808b, 0x0000000080000001, 0x8000000080008081, 0x8000000000008009,
    0x000000000000008a, 0x0000000000000088, 0x0000000080008009, 0x000000008000000a,
    0x000000008000808b, 0x800000000000008b, 0x8000000000008089, 0x8000000000008003,
    0x8000000000008002, 0x8000000000000080, 0x000000000000800a, 0x800000008000000a,
    0x8000000080008081, 0x8000000000008080, 0x0000000080000001, 0x8000000080008008,
};

static inline uint64_t turned(uint64_t x, int r) { return r == 0 ? x : x << r | x >> (64 - r); }

void c_permute(uint64_t *a)
{
    uint64_t a0 = a[0], a1 = a[1], a2 = a[2], a3 = a[3], a4 = a[4];
    uint64_t a5 = a[5], a6 = a[6], a7 = a[7], a8 = a[8], a9 = a[9];
    uint64_t a10 = a[10], a11 = a[11], a12 = a[12], a13 = a[13], a14 = a[14];
    uint64_t a15 = a[15], a16 = a[16], a17 = a[17], a18 = a[18], a19 = a[19];
    uint64_t a20 = a[20], a21 = a[21], a22 = a[22], a23 = a[23], a24 = a[24];
    for (int i = 0; i < 24; i++) {
        /* theta */
        uint64_t c0 = a0 ^ a5 ^ a10 ^ a15 ^ a20;
        uint64_t c1 = a1 ^ a6 ^ a11 ^ a16 ^ a21;
        uint64_t c2 = a2 ^ a7 ^ a12 ^ a17 ^ a22;
        uint64_t c3 = a3 ^ a8 ^ a13 ^ a18 ^ a23;
        uint64_t c4 = a4 ^ a9 ^ a14 ^ a19 ^ a24;
        uint64_t d0 = c4 ^ turned(c1, 1);
        uint64_t d1 = c0 ^ turned(c2, 1);
        uint64_t d2 = c1 ^ turned(c3, 1);
        uint64_t d3 = c2 ^ turned(c4, 1);
        uint64_t d4 = c3 ^ turned(c0, 1);
        /* rho and pi */
        uint64_t b0 = turned(a0 ^ d0, 0);
        uint64_t b10 = turned(a1 ^ d1, 1);
        uint64_t b20 = turned(a2 ^ d2, 62);
        uint64_t b5 = turned(a3 ^ d3, 28);
        uint64_t b15 = turned(a4 ^ d4, 27);
        uint64_t b16 = turned(a5 ^ d0, 36);
        uint64_t b1 = turned(a6 ^ d1, 44);
        uint64_t b11 = turned(a7 ^ d2, 6);
        uint64_t b21 = turned(a8 ^ d3, 55);
        uint64_t b6 = turned(a9 ^ d4, 20);
        uint64_t b7 = turned(a10 ^ d0, 3);
        uint64_t b17 = turned(a11 ^ d1, 10);
        uint64_t b2 = turned(a12 ^ d2, 43);
        uint64_t b12 = turned(a13 ^ d3, 25);
        uint64_t b22 = turned(a14 ^ d4, 39);
        uint64_t b23 = turned(a15 ^ d0, 41);
        uint64_t b8 = turned(a16 ^ d1, 45);
        uint64_t b18 = turned(a17 ^ d2, 15);
        uint64_t b3 = turned(a18 ^ d3, 21);
        uint64_t b13 = turned(a19 ^ d4, 8);
        uint64_t b14 = turned(a20 ^ d0, 18);
        uint64_t b24 = turned(a21 ^ d1, 2);
        uint64_t b9 = turned(a22 ^ d2, 61);
        uint64_t b19 = turned(a23 ^ d3, 56);
        uint64_t b4 = turned(a24 ^ d4, 14);
        /* chi and iota */
        a0 = b0 ^ (~b1 & b2) ^ constants[i];
        a1 = b1 ^ (~b2 & b3);
        a2 = b2 ^ (~b3 & b4);
        a3 = b3 ^ (~b4 & b0);
        a4 = b4 ^ (~b0 & b1);
        a5 = b5 ^ (~b6 & b7);
        a6 = b6 ^ (~b7 & b8);
        a7 = b7 ^ (~b8 & b9);
        a8 = b8 ^ (~b9 & b5);
        a9 = b9 ^ (~b5 & b6);
        a10 = b10 ^ (~b11 & b12);
        a11 = b11 ^ (~b12 & b13);
        a12 = b12 ^ (~b13 & b14);
        a13 = b13 ^ (~b14 & b10);
        a14 = b14 ^ (~b10 & b11);
        a15 = b15 ^ (~b16 & b17);
        a16 = b16 ^ (~b17 & b18);
        a17 = b17 ^ (~b18 & b19);
        a18 = b18 ^ (~b19 & b15);
        a19 = b19 ^ (~b15 & b16);
        a20 = b20 ^ (~b21 & b22);
        a21 = b21 ^ (~b22 & b23);
        a22 = b22 ^ (~b23 & b24);
        a23 = b23 ^ (~b24 & b20);
        a24 = b24 ^ (~b20 & b21);
    }
    a[0] = a0; a[1] = a1; a[2] = a2; a[3] = a3; a[4] = a4;
    a[5] = a5; a[6] = a6; a[7] = a7; a[8] = a8; a[9] = a9;
    a[10] = a10; a[11] = a11; a[12] = a12; a[13] = a13; a[14] = a14;
    a[15] = a15; a[16] = a16; a[17] = a17; a[18] = a18; a[19] = a19;
    a[20] = a20; a[21] = a21; a[22] = a22; a[23] = a23; a[24] = a24;
}

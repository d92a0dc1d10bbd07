/* The yardstick over SHA-256 in plain C (FIPS 180-4). A message of 55 bytes is padded in place and
 * compressed once. */
#include <stddef.h>
#include <stdint.h>
#include <string.h>

static const uint32_t K[64] = {
    0x428a2f98, 0x71374491, 0xb5c0fbcf, 0xe9b5dba5, 0x3956c25b, 0x59f111f1, 0x923f82a4, 0xab1c5ed5,
    0xd807aa98, 0x12835b01, 0x243185be, 0x550c7dc3, 0x72be5d74, 0x80deb1fe, 0x9bdc06a7, 0xc19bf174,
    0xe49b69c1, 0xefbe4786, 0x0fc19dc6, 0x240ca1cc, 0x2de92c6f, 0x4a7484aa, 0x5cb0a9dc, 0x76f988da,
    0x983e5152, 0xa831c66d, 0xb00327c8, 0xbf597fc7, 0xc6e00bf3, 0xd5a79147, 0x06ca6351, 0x14292967,
    0x27b70a85, 0x2e1b2138, 0x4d2c6dfc, 0x53380d13, 0x650a7354, 0x766a0abb, 0x81c2c92e, 0x92722c85,
    0xa2bfe8a1, 0xa81a664b, 0xc24b8b70, 0xc76c51a3, 0xd192e819, 0xd6990624, 0xf40e3585, 0x106aa070,
    0x19a4c116, 0x1e376c08, 0x2748774c, 0x34b0bcb5, 0x391c0cb3, 0x4ed8aa4a, 0x5b9cca4f, 0x682e6ff3,
    0x748f82ee, 0x78a5636f, 0x84c87814, 0x8cc70208, 0x90befffa, 0xa4506ceb, 0xbef9a3f7, 0xc67178f2,
};

static const uint32_t INITIAL[8] = {0x6a09e667, 0xbb67ae85, 0x3c6ef372, 0xa54ff53a,
                                    0x510e527f, 0x9b05688c, 0x1f83d9ab, 0x5be0cd19};

static uint32_t rotr(uint32_t x, int k) { return x >> k | x << (32 - k); }

static uint32_t load(const uint8_t *bytes) {
    return (uint32_t)bytes[0] << 24 | bytes[1] << 16 | bytes[2] << 8 | bytes[3];
}

/* Round t, whose schedule word takes the place of the one 16 rounds before. The names of the
 * working variables turn by one from round to round, so that none is copied. */
#define ROUND(t, a, b, c, d, e, f, g, h)                                                       \
    do {                                                                                       \
        uint32_t word = w[(t) % 16];                                                           \
        if ((t) >= 16) {                                                                       \
            uint32_t x = w[((t) + 1) % 16], y = w[((t) + 14) % 16];                            \
            word += (rotr(x, 7) ^ rotr(x, 18) ^ x >> 3) + w[((t) + 9) % 16] +                  \
                    (rotr(y, 17) ^ rotr(y, 19) ^ y >> 10);                                     \
            w[(t) % 16] = word;                                                                \
        }                                                                                      \
        h += (rotr(e, 6) ^ rotr(e, 11) ^ rotr(e, 25)) + (g ^ (e & (f ^ g))) + K[t] + word;     \
        d += h;                                                                                \
        h += (rotr(a, 2) ^ rotr(a, 13) ^ rotr(a, 22)) + ((a & b) | (c & (a | b)));             \
    } while (0)

#define EIGHT_ROUNDS(t)                       \
    ROUND(t, a, b, c, d, e, f, g, h);         \
    ROUND((t) + 1, h, a, b, c, d, e, f, g);   \
    ROUND((t) + 2, g, h, a, b, c, d, e, f);   \
    ROUND((t) + 3, f, g, h, a, b, c, d, e);   \
    ROUND((t) + 4, e, f, g, h, a, b, c, d);   \
    ROUND((t) + 5, d, e, f, g, h, a, b, c);   \
    ROUND((t) + 6, c, d, e, f, g, h, a, b);   \
    ROUND((t) + 7, b, c, d, e, f, g, h, a)

static void compress(uint32_t state[8], const uint8_t block[64]) {
    uint32_t w[16];
    for (int t = 0; t < 16; t++) w[t] = load(block + 4 * t);
    uint32_t a = state[0], b = state[1], c = state[2], d = state[3];
    uint32_t e = state[4], f = state[5], g = state[6], h = state[7];
    EIGHT_ROUNDS(0);
    EIGHT_ROUNDS(8);
    EIGHT_ROUNDS(16);
    EIGHT_ROUNDS(24);
    EIGHT_ROUNDS(32);
    EIGHT_ROUNDS(40);
    EIGHT_ROUNDS(48);
    EIGHT_ROUNDS(56);
    state[0] += a, state[1] += b, state[2] += c, state[3] += d;
    state[4] += e, state[5] += f, state[6] += g, state[7] += h;
}

static void store(const uint32_t state[8], uint8_t digest[32]) {
    for (int i = 0; i < 8; i++) {
        digest[4 * i] = state[i] >> 24;
        digest[4 * i + 1] = state[i] >> 16;
        digest[4 * i + 2] = state[i] >> 8;
        digest[4 * i + 3] = state[i];
    }
}

static void sha256(const uint8_t *message, size_t length, uint8_t digest[32]) {
    uint32_t state[8];
    uint8_t last[128] = {0};
    memcpy(state, INITIAL, sizeof state);
    size_t whole = length / 64 * 64, rest = length - whole;
    for (size_t at = 0; at < whole; at += 64) compress(state, message + at);
    memcpy(last, message + whole, rest);
    last[rest] = 0x80;
    size_t end = rest < 56 ? 64 : 128;
    for (int i = 0; i < 8; i++) last[end - 1 - i] = (uint64_t)length * 8 >> 8 * i;
    for (size_t at = 0; at < end; at += 64) compress(state, last + at);
    store(state, digest);
}

static void sha256_55(const uint8_t message[55], uint8_t digest[32]) {
    uint32_t state[8];
    uint8_t block[64] = {0};
    memcpy(state, INITIAL, sizeof state);
    memcpy(block, message, 55);
    block[55] = 0x80;
    block[62] = 1;
    block[63] = 0xb8;
    compress(state, block);
    store(state, digest);
}

#include "lms.h"

#include "sha256.h"

#include <stdio.h>
#include <string.h>

/* Bytes of a block, of the length behind the last byte, and words of a state. */
enum { BLOCK = 64, LENGTH = 8, WORDS = 8, ROUNDS = 64 };

static const uint32_t constants[ROUNDS] = {
    0x428a2f98, 0x71374491, 0xb5c0fbcf, 0xe9b5dba5, 0x3956c25b, 0x59f111f1, 0x923f82a4, 0xab1c5ed5, 0xd807aa98, 0x12835b01, 0x243185be,
    0x550c7dc3, 0x72be5d74, 0x80deb1fe, 0x9bdc06a7, 0xc19bf174, 0xe49b69c1, 0xefbe4786, 0x0fc19dc6, 0x240ca1cc, 0x2de92c6f, 0x4a7484aa,
    0x5cb0a9dc, 0x76f988da, 0x983e5152, 0xa831c66d, 0xb00327c8, 0xbf597fc7, 0xc6e00bf3, 0xd5a79147, 0x06ca6351, 0x14292967, 0x27b70a85,
    0x2e1b2138, 0x4d2c6dfc, 0x53380d13, 0x650a7354, 0x766a0abb, 0x81c2c92e, 0x92722c85, 0xa2bfe8a1, 0xa81a664b, 0xc24b8b70, 0xc76c51a3,
    0xd192e819, 0xd6990624, 0xf40e3585, 0x106aa070, 0x19a4c116, 0x1e376c08, 0x2748774c, 0x34b0bcb5, 0x391c0cb3, 0x4ed8aa4a, 0x5b9cca4f,
    0x682e6ff3, 0x748f82ee, 0x78a5636f, 0x84c87814, 0x8cc70208, 0x90befffa, 0xa4506ceb, 0xbef9a3f7, 0xc67178f2,
};

static uint32_t rotated(uint32_t x, unsigned by)
{
    return x >> by | x << (32 - by);
}

/* The words of the rounds: 16 of the block, each of the others of four before it. */
static void spread(const uint8_t block[BLOCK], uint32_t w[ROUNDS])
{
    for (size_t i = 0; i < ROUNDS; i++) {
        if (i < 16) {
            const uint8_t *b = block + 4 * i;
            w[i] = (uint32_t)b[0] << 24 | (uint32_t)b[1] << 16 | (uint32_t)b[2] << 8 | b[3];
            continue;
        }
        uint32_t x = w[i - 15], y = w[i - 2];
        w[i] = w[i - 16] + (rotated(x, 7) ^ rotated(x, 18) ^ x >> 3) + w[i - 7] + (rotated(y, 17) ^ rotated(y, 19) ^ y >> 10);
    }
}

static void round_of(uint32_t s[WORDS], uint32_t word)
{
    uint32_t a = s[0], e = s[4];
    uint32_t t1 = s[7] + (rotated(e, 6) ^ rotated(e, 11) ^ rotated(e, 25)) + ((e & s[5]) ^ (~e & s[6])) + word;
    uint32_t t2 = (rotated(a, 2) ^ rotated(a, 13) ^ rotated(a, 22)) + ((a & s[1]) ^ (a & s[2]) ^ (s[1] & s[2]));
    memmove(s + 1, s, (WORDS - 1) * sizeof *s);
    s[4] += t1;
    s[0] = t1 + t2;
}

static void take_block(uint32_t state[WORDS], const uint8_t block[BLOCK])
{
    uint32_t w[ROUNDS], s[WORDS];
    spread(block, w);
    memcpy(s, state, sizeof s);
    for (size_t i = 0; i < ROUNDS; i++)
        round_of(s, constants[i] + w[i]);
    for (size_t i = 0; i < WORDS; i++)
        state[i] += s[i];
}

/* What is left behind the whole blocks, a closing bit and the length in bits: one block or two. */
static void take_rest(uint32_t state[WORDS], const uint8_t *rest, size_t rest_len, size_t len)
{
    uint8_t blocks[2 * BLOCK] = {0};
    size_t count = rest_len + 1 + LENGTH <= BLOCK ? 1 : 2;
    memcpy(blocks, rest, rest_len);
    blocks[rest_len] = 0x80;
    for (size_t i = 0; i < LENGTH; i++)
        blocks[count * BLOCK - 1 - i] = (uint8_t)((uint64_t)len * 8 >> 8 * i);
    for (size_t i = 0; i < count; i++)
        take_block(state, blocks + i * BLOCK);
}

void sha256_text(const uint8_t *bytes, size_t len, char text[SHA256_TEXT])
{
    uint32_t state[WORDS] = {0x6a09e667, 0xbb67ae85, 0x3c6ef372, 0xa54ff53a, 0x510e527f, 0x9b05688c, 0x1f83d9ab, 0x5be0cd19};
    size_t at = 0;
    for (; len - at >= BLOCK; at += BLOCK)
        take_block(state, bytes + at);
    take_rest(state, bytes + at, len - at, len);
    for (size_t i = 0; i < WORDS; i++)
        snprintf(text + 8 * i, SHA256_TEXT - 8 * i, "%08x", state[i]);
}

/* One hart computes SHA-256 of a text (FIPS 180-4) and outputs its eight words. */
#include "guest.h"

extern const unsigned char text[], text_end[];

static const uint32_t round_words[64] = {
    0x428a2f98, 0x71374491, 0xb5c0fbcf, 0xe9b5dba5, 0x3956c25b, 0x59f111f1, 0x923f82a4, 0xab1c5ed5,
    0xd807aa98, 0x12835b01, 0x243185be, 0x550c7dc3, 0x72be5d74, 0x80deb1fe, 0x9bdc06a7, 0xc19bf174,
    0xe49b69c1, 0xefbe4786, 0x0fc19dc6, 0x240ca1cc, 0x2de92c6f, 0x4a7484aa, 0x5cb0a9dc, 0x76f988da,
    0x983e5152, 0xa831c66d, 0xb00327c8, 0xbf597fc7, 0xc6e00bf3, 0xd5a79147, 0x06ca6351, 0x14292967,
    0x27b70a85, 0x2e1b2138, 0x4d2c6dfc, 0x53380d13, 0x650a7354, 0x766a0abb, 0x81c2c92e, 0x92722c85,
    0xa2bfe8a1, 0xa81a664b, 0xc24b8b70, 0xc76c51a3, 0xd192e819, 0xd6990624, 0xf40e3585, 0x106aa070,
    0x19a4c116, 0x1e376c08, 0x2748774c, 0x34b0bcb5, 0x391c0cb3, 0x4ed8aa4a, 0x5b9cca4f, 0x682e6ff3,
    0x748f82ee, 0x78a5636f, 0x84c87814, 0x8cc70208, 0x90befffa, 0xa4506ceb, 0xbef9a3f7, 0xc67178f2,
};

static uint32_t turned(uint32_t word, unsigned places)
{
    return word >> places | word << (32 - places);
}

/* The 64 words that a block of 64 bytes gives. */
static void schedule(uint32_t words[64], const unsigned char *block)
{
    for (int i = 0; i < 16; i++, block += 4)
        words[i] = (uint32_t)block[0] << 24 | (uint32_t)block[1] << 16 | (uint32_t)block[2] << 8 | block[3];
    for (int i = 16; i < 64; i++) {
        uint32_t early = words[i - 15], late = words[i - 2];
        early = turned(early, 7) ^ turned(early, 18) ^ early >> 3;
        late = turned(late, 17) ^ turned(late, 19) ^ late >> 10;
        words[i] = words[i - 16] + early + words[i - 7] + late;
    }
}

static void add_block(uint32_t digest[8], const unsigned char *block)
{
    uint32_t words[64], v[8];
    schedule(words, block);
    for (int i = 0; i < 8; i++)
        v[i] = digest[i];
    for (int i = 0; i < 64; i++) {
        uint32_t high = turned(v[4], 6) ^ turned(v[4], 11) ^ turned(v[4], 25);
        uint32_t low = turned(v[0], 2) ^ turned(v[0], 13) ^ turned(v[0], 22);
        uint32_t chosen = (v[4] & v[5]) ^ (~v[4] & v[6]);
        uint32_t most = (v[0] & v[1]) ^ (v[0] & v[2]) ^ (v[1] & v[2]);
        uint32_t first = v[7] + high + chosen + round_words[i] + words[i];
        for (int k = 7; k > 0; k--)
            v[k] = v[k - 1];
        v[4] += first;
        v[0] = first + low + most;
    }
    for (int i = 0; i < 8; i++)
        digest[i] += v[i];
}

/* The rest of a text, a bit, and the length in bits, in one block or two. */
static void add_rest(uint32_t digest[8], const unsigned char *rest, uint32_t length)
{
    unsigned char blocks[128] = {0};
    uint32_t held = length % 64, end = held < 56 ? 64 : 128;
    for (uint32_t i = 0; i < held; i++)
        blocks[i] = rest[i];
    blocks[held] = 0x80;
    for (int i = 0; i < 4; i++)
        blocks[end - 1 - i] = (unsigned char)(length * 8 >> 8 * i);
    for (uint32_t at = 0; at < end; at += 64)
        add_block(digest, blocks + at);
}

void guest(unsigned hart)
{
    (void)hart;
    uint32_t digest[8] = {
        0x6a09e667, 0xbb67ae85, 0x3c6ef372, 0xa54ff53a, 0x510e527f, 0x9b05688c, 0x1f83d9ab, 0x5be0cd19,
    };
    uint32_t length = (uint32_t)(text_end - text), whole = length & ~63u;
    for (uint32_t at = 0; at < whole; at += 64)
        add_block(digest, text + at);
    add_rest(digest, text + whole, length);
    for (int i = 0; i < 8; i++)
        output(digest[i]);
}

/* SHA-1 as FIPS 180-4 states it: a schedule of eighty words, and one loop over
   the eighty steps. Nothing here is tuned for speed. The macro PLAIN_SHA1
   gives the name of the function. */
#include <string.h>

#include "plain_sha1.h"

/* ROTL, section 3.2. */
static uint32_t rotated(uint32_t x, int n)
{
    return (x << n) | (x >> (32 - n));
}

/* f of step t, section 4.1.1. */
static uint32_t mixed(int t, uint32_t x, uint32_t y, uint32_t z)
{
    if (t < 20)
        return (x & y) ^ (~x & z);
    if (t < 40)
        return x ^ y ^ z;
    if (t < 60)
        return (x & y) ^ (x & z) ^ (y & z);
    return x ^ y ^ z;
}

/* K of step t, section 4.2.1. */
static uint32_t constant(int t)
{
    if (t < 20)
        return 0x5a827999;
    if (t < 40)
        return 0x6ed9eba1;
    if (t < 60)
        return 0x8f1bbcdc;
    return 0xca62c1d6;
}

/* The message schedule, section 6.1.2, step 1. */
static void schedule(uint32_t w[80], const uint8_t block[64])
{
    for (int t = 0; t < 16; t++)
        w[t] = (uint32_t)block[4 * t] << 24 | (uint32_t)block[4 * t + 1] << 16
             | (uint32_t)block[4 * t + 2] << 8 | (uint32_t)block[4 * t + 3];
    for (int t = 16; t < 80; t++)
        w[t] = rotated(w[t - 3] ^ w[t - 8] ^ w[t - 14] ^ w[t - 16], 1);
}

/* The hash value after one block, section 6.1.2, steps 2 to 4. */
static void compress(uint32_t h[5], const uint8_t block[64])
{
    uint32_t w[80];
    schedule(w, block);
    uint32_t a = h[0], b = h[1], c = h[2], d = h[3], e = h[4];
    for (int t = 0; t < 80; t++) {
        uint32_t next = rotated(a, 5) + mixed(t, b, c, d) + e + constant(t) + w[t];
        e = d;
        d = c;
        c = rotated(b, 30);
        b = a;
        a = next;
    }
    h[0] += a;
    h[1] += b;
    h[2] += c;
    h[3] += d;
    h[4] += e;
}

/* The last one or two blocks, padded as section 5.1.1 says. */
static void finish(uint32_t h[5], const uint8_t *rest, size_t left, uint64_t length)
{
    uint8_t last[128] = {0};
    size_t size = left < 56 ? 64 : 128;
    if (left > 0)
        memcpy(last, rest, left);
    last[left] = 0x80;
    for (int i = 0; i < 8; i++)
        last[size - 1 - i] = (uint8_t)(length * 8 >> 8 * i);
    for (size_t at = 0; at < size; at += 64)
        compress(h, last + at);
}

void PLAIN_SHA1(const uint8_t *message, size_t length, uint8_t digest[20])
{
    uint32_t h[5] = {0x67452301, 0xefcdab89, 0x98badcfe, 0x10325476, 0xc3d2e1f0};
    size_t at = 0;
    for (; length - at >= 64; at += 64)
        compress(h, message + at);
    finish(h, message + at, length - at, length);
    for (int i = 0; i < 20; i++)
        digest[i] = (uint8_t)(h[i / 4] >> (24 - 8 * (i % 4)));
}

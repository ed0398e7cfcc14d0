#include "baseline_aes.h"

/* te0[x] is the column (2, 1, 1, 3) times the S-box of x; the other three are it turned by a byte each. */
static uint32_t te0[256], te1[256], te2[256], te3[256];
static uint8_t sbox[256];

static uint8_t times_2(uint8_t x)
{
    return (uint8_t)(x << 1 ^ (x & 0x80 ? 0x1b : 0));
}

static uint8_t turn(uint8_t x, int by)
{
    return (uint8_t)(x << by | x >> (8 - by));
}

void baseline_begin(void)
{
    uint8_t p = 1, q = 1;
    /* p goes through the powers of 3 and q through those of its inverse, f6, so that q is the inverse of p. */
    do {
        p ^= times_2(p);
        q ^= (uint8_t)(q << 1);
        q ^= (uint8_t)(q << 2);
        q ^= (uint8_t)(q << 4);
        if (q & 0x80)
            q ^= 0x09;
        sbox[p] = q ^ turn(q, 1) ^ turn(q, 2) ^ turn(q, 3) ^ turn(q, 4) ^ 0x63;
    } while (p != 1);
    sbox[0] = 0x63;
    for (int x = 0; x < 256; x++) {
        uint32_t s = sbox[x], s2 = times_2(sbox[x]);
        te0[x] = s2 << 24 | s << 16 | s << 8 | (s2 ^ s);
        te1[x] = te0[x] >> 8 | te0[x] << 24;
        te2[x] = te0[x] >> 16 | te0[x] << 16;
        te3[x] = te0[x] >> 24 | te0[x] << 8;
    }
}

static uint32_t get(const uint8_t *bytes)
{
    return (uint32_t)bytes[0] << 24 | (uint32_t)bytes[1] << 16 | (uint32_t)bytes[2] << 8 | bytes[3];
}

static void put(uint8_t *bytes, uint32_t word)
{
    bytes[0] = (uint8_t)(word >> 24);
    bytes[1] = (uint8_t)(word >> 16);
    bytes[2] = (uint8_t)(word >> 8);
    bytes[3] = (uint8_t)word;
}

static uint32_t substitute(uint32_t a, uint32_t b, uint32_t c, uint32_t d)
{
    return (uint32_t)sbox[a >> 24] << 24 | (uint32_t)sbox[b >> 16 & 0xff] << 16 | (uint32_t)sbox[c >> 8 & 0xff] << 8 |
           sbox[d & 0xff];
}

static uint32_t column(uint32_t a, uint32_t b, uint32_t c, uint32_t d)
{
    return te0[a >> 24] ^ te1[b >> 16 & 0xff] ^ te2[c >> 8 & 0xff] ^ te3[d & 0xff];
}

void baseline_expand(const uint8_t key[16], uint32_t w[44])
{
    uint8_t constant = 1;
    for (int i = 0; i < 4; i++)
        w[i] = get(key + 4 * i);
    for (int i = 4; i < 44; i += 4) {
        uint32_t last = w[i - 1] << 8 | w[i - 1] >> 24;
        w[i] = w[i - 4] ^ substitute(last, last, last, last) ^ (uint32_t)constant << 24;
        w[i + 1] = w[i - 3] ^ w[i];
        w[i + 2] = w[i - 2] ^ w[i + 1];
        w[i + 3] = w[i - 1] ^ w[i + 2];
        constant = times_2(constant);
    }
}

void baseline_encipher(const uint32_t round_keys[44], uint8_t *blocks, size_t count)
{
    for (; count > 0; count--, blocks += 16) {
        const uint32_t *k = round_keys;
        uint32_t s0 = get(blocks) ^ k[0], s1 = get(blocks + 4) ^ k[1];
        uint32_t s2 = get(blocks + 8) ^ k[2], s3 = get(blocks + 12) ^ k[3];
        for (int round = 1; round < 10; round++) {
            k += 4;
            uint32_t t0 = column(s0, s1, s2, s3) ^ k[0], t1 = column(s1, s2, s3, s0) ^ k[1];
            uint32_t t2 = column(s2, s3, s0, s1) ^ k[2], t3 = column(s3, s0, s1, s2) ^ k[3];
            s0 = t0;
            s1 = t1;
            s2 = t2;
            s3 = t3;
        }
        k += 4;
        put(blocks, substitute(s0, s1, s2, s3) ^ k[0]);
        put(blocks + 4, substitute(s1, s2, s3, s0) ^ k[1]);
        put(blocks + 8, substitute(s2, s3, s0, s1) ^ k[2]);
        put(blocks + 12, substitute(s3, s0, s1, s2) ^ k[3]);
    }
}

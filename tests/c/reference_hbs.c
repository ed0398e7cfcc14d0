#include "reference_hbs.h"

#include "reference_aes.h"

#include <string.h>

static void add(uint8_t sum[16], const uint8_t block[16])
{
    for (int i = 0; i < 16; i++)
        sum[i] ^= block[i];
}

/* Shifted left by one bit; a one that leaves at the top is reduced. */
static void twice(uint8_t block[16])
{
    uint8_t top = block[0] >> 7;
    for (int i = 0; i < 15; i++)
        block[i] = (uint8_t)(block[i] << 1 | block[i + 1] >> 7);
    block[15] = (uint8_t)(block[15] << 1 ^ (top ? 0x87 : 0));
}

void ref_product(const uint8_t a[16], const uint8_t b[16], uint8_t out[16])
{
    uint8_t doubled[16], sum[16] = {0};
    memcpy(doubled, a, 16);
    for (int bit = 0; bit < 128; bit++) {
        if (b[15 - bit / 8] >> bit % 8 & 1)
            add(sum, doubled);
        twice(doubled);
    }
    memcpy(out, sum, 16);
}

/*
 * f(X)^2 times the factor of the padding. The polynomial is summed from its last block on, beside the rising powers of
 * the hash key.
 */
static void term(const uint8_t hash_key[16], const uint8_t *bytes, size_t len, uint8_t out[16])
{
    bool whole = len > 0 && len % 16 == 0;
    size_t blocks = whole ? len / 16 : len / 16 + 1;
    uint8_t f[16] = {0}, factor[16] = {0};
    uint8_t power[16] = {0};
    power[15] = 1;
    for (size_t i = blocks; i-- > 0;) {
        uint8_t block[16] = {0};
        size_t here = len - 16 * i < 16 ? len - 16 * i : 16;
        if (here > 0)
            memcpy(block, bytes + 16 * i, here);
        if (here < 16)
            block[here] = 0x80;
        ref_product(power, block, block);
        add(f, block);
        ref_product(power, hash_key, power);
    }
    add(f, power);
    ref_product(f, f, out);
    factor[15] = whole ? 2 : 1;
    ref_product(out, factor, out);
}

void ref_hash(const uint8_t key[16], bool has_header, const uint8_t *header, size_t header_len,
              const uint8_t *message, size_t message_len, uint8_t s[16])
{
    static const uint8_t zero[16];
    uint8_t hash_key[16], part[16];
    ref_aes_encipher(key, zero, hash_key);
    term(hash_key, message, message_len, s);
    ref_product(s, hash_key, s);
    ref_product(s, hash_key, s);
    if (has_header) {
        term(hash_key, header, header_len, part);
        ref_product(part, hash_key, part);
        add(s, part);
    }
}

void ref_stream(const uint8_t key[16], const uint8_t s[16], uint8_t *text, size_t text_len)
{
    for (size_t at = 0; at < text_len; at += 16) {
        size_t number = at / 16 + 1;
        uint8_t block[16];
        memcpy(block, s, 16);
        block[14] ^= (uint8_t)(number >> 8);
        block[15] ^= (uint8_t)number;
        ref_aes_encipher(key, block, block);
        for (size_t i = 0; i < 16 && at + i < text_len; i++)
            text[at + i] ^= block[i];
    }
}

void ref_seal(const uint8_t key[16], bool has_header, const uint8_t *header, size_t header_len, uint8_t tag[16],
              uint8_t *text, size_t text_len)
{
    uint8_t s[16];
    ref_hash(key, has_header, header, header_len, text, text_len, s);
    ref_aes_encipher(key, s, tag);
    ref_stream(key, s, text, text_len);
}

bool ref_open(const uint8_t key[16], bool has_header, const uint8_t *header, size_t header_len,
              const uint8_t tag[16], uint8_t *text, size_t text_len)
{
    uint8_t s[16], hashed[16];
    ref_aes_decipher(key, tag, s);
    ref_stream(key, s, text, text_len);
    ref_hash(key, has_header, header, header_len, text, text_len, hashed);
    return memcmp(s, hashed, 16) == 0;
}

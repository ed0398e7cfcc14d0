#include "reference_aes.h"

#include <stdbool.h>
#include <string.h>

enum { ROUNDS = 10 };

static uint8_t sbox[256];
static uint8_t inverse_sbox[256];

/* Product in the field of 2^8 elements modulo x^8 + x^4 + x^3 + x + 1. */
static uint8_t product(uint8_t a, uint8_t b)
{
    uint8_t sum = 0;
    for (; b != 0; b >>= 1) {
        if (b & 1)
            sum ^= a;
        a = (uint8_t)(a << 1 ^ (a & 0x80 ? 0x1b : 0));
    }
    return sum;
}

/* The power 254, which is the inverse, and 0 for 0. */
static uint8_t inverse(uint8_t a)
{
    uint8_t power = 1;
    for (int i = 0; i < 254; i++)
        power = product(power, a);
    return power;
}

/* FIPS 197, 5.1.1: bit i of the result is the XOR of bits i, i+4, i+5, i+6, i+7 of the inverse and of 63. */
static void fill_sboxes(void)
{
    static bool filled;
    if (filled)
        return;
    for (int x = 0; x < 256; x++) {
        uint8_t b = inverse((uint8_t)x);
        uint8_t s = 0;
        for (int i = 0; i < 8; i++) {
            int bit = b >> i ^ b >> (i + 4) % 8 ^ b >> (i + 5) % 8 ^ b >> (i + 6) % 8 ^ b >> (i + 7) % 8 ^ 0x63 >> i;
            s |= (uint8_t)((bit & 1) << i);
        }
        sbox[x] = s;
        inverse_sbox[s] = (uint8_t)x;
    }
    filled = true;
}

static void expand_key(const uint8_t key[16], uint8_t round_keys[ROUNDS + 1][16])
{
    uint8_t *words = &round_keys[0][0];
    uint8_t constant = 1;
    memcpy(words, key, 16);
    for (int i = 4; i < 4 * (ROUNDS + 1); i++) {
        uint8_t word[4];
        memcpy(word, words + 4 * (i - 1), 4);
        if (i % 4 == 0) {
            uint8_t first = word[0];
            word[0] = sbox[word[1]] ^ constant;
            word[1] = sbox[word[2]];
            word[2] = sbox[word[3]];
            word[3] = sbox[first];
            constant = product(constant, 2);
        }
        for (int j = 0; j < 4; j++)
            words[4 * i + j] = words[4 * (i - 4) + j] ^ word[j];
    }
}

static void add_round_key(uint8_t state[16], const uint8_t round_key[16])
{
    for (int i = 0; i < 16; i++)
        state[i] ^= round_key[i];
}

static void substitute(uint8_t state[16], const uint8_t box[256])
{
    for (int i = 0; i < 16; i++)
        state[i] = box[state[i]];
}

/* Byte i stands in row i % 4 and column i / 4. Row r moves left by r, or by 4 - r on the way back. */
static void shift_rows(uint8_t state[16], bool back)
{
    uint8_t old[16];
    memcpy(old, state, 16);
    for (int row = 0; row < 4; row++) {
        for (int column = 0; column < 4; column++) {
            int from = (column + (back ? 4 - row : row)) % 4;
            state[4 * column + row] = old[4 * from + row];
        }
    }
}

/* Each column times the matrix whose first row is given, and whose other rows are that one turned to the right. */
static void mix_columns(uint8_t state[16], const uint8_t first_row[4])
{
    for (int column = 0; column < 4; column++) {
        uint8_t old[4];
        memcpy(old, state + 4 * column, 4);
        for (int row = 0; row < 4; row++) {
            uint8_t sum = 0;
            for (int i = 0; i < 4; i++)
                sum ^= product(old[i], first_row[(i - row + 4) % 4]);
            state[4 * column + row] = sum;
        }
    }
}

void ref_aes_encipher(const uint8_t key[16], const uint8_t in[16], uint8_t out[16])
{
    static const uint8_t row[4] = {2, 3, 1, 1};
    uint8_t round_keys[ROUNDS + 1][16];
    uint8_t state[16];
    fill_sboxes();
    expand_key(key, round_keys);
    memcpy(state, in, 16);
    add_round_key(state, round_keys[0]);
    for (int round = 1; round <= ROUNDS; round++) {
        substitute(state, sbox);
        shift_rows(state, false);
        if (round < ROUNDS)
            mix_columns(state, row);
        add_round_key(state, round_keys[round]);
    }
    memcpy(out, state, 16);
}

void ref_aes_decipher(const uint8_t key[16], const uint8_t in[16], uint8_t out[16])
{
    static const uint8_t row[4] = {14, 11, 13, 9};
    uint8_t round_keys[ROUNDS + 1][16];
    uint8_t state[16];
    fill_sboxes();
    expand_key(key, round_keys);
    memcpy(state, in, 16);
    for (int round = ROUNDS; round >= 1; round--) {
        add_round_key(state, round_keys[round]);
        if (round < ROUNDS)
            mix_columns(state, row);
        shift_rows(state, true);
        substitute(state, inverse_sbox);
    }
    add_round_key(state, round_keys[0]);
    memcpy(out, state, 16);
}

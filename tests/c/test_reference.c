/* The reference itself: its AES against published blocks, its product against the worked one. */
#include "check.h"
#include "hex.h"
#include "reference_aes.h"
#include "reference_hbs.h"
#include "tests.h"

#include <string.h>

static void block(const char *digits, uint8_t bytes[16])
{
    size_t len = 0;
    CHECK(hex_read(digits, bytes, 16, &len));
    CHECK(len == 16);
}

static void aes(const char *key_hex, const char *plain_hex, const char *enciphered_hex)
{
    uint8_t key[16], plain[16], enciphered[16], out[16];
    check_context("AES of %s under %s", plain_hex, key_hex);
    block(key_hex, key);
    block(plain_hex, plain);
    block(enciphered_hex, enciphered);
    ref_aes_encipher(key, plain, out);
    CHECK(memcmp(out, enciphered, 16) == 0);
    ref_aes_decipher(key, enciphered, out);
    CHECK(memcmp(out, plain, 16) == 0);
}

static void product(const char *a_hex, const char *b_hex, const char *expected_hex)
{
    uint8_t a[16], b[16], expected[16], out[16];
    check_context("product of %s and %s", a_hex, b_hex);
    block(a_hex, a);
    block(b_hex, b);
    block(expected_hex, expected);
    ref_product(a, b, out);
    CHECK(memcmp(out, expected, 16) == 0);
    ref_product(b, a, out);
    CHECK(memcmp(out, expected, 16) == 0);
}

void test_reference(void)
{
    /* FIPS 197, appendices C.1 and B. */
    aes("000102030405060708090a0b0c0d0e0f", "00112233445566778899aabbccddeeff", "69c4e0d86a7b0430d8cdb78070b4c55a");
    aes("2b7e151628aed2a6abf7158809cf4f3c", "3243f6a8885a308d313198a2e0370734", "3925841d02dc09fbdc118597196a0b32");

    /* NIST SP 800-38A, F.1.1. */
    aes("2b7e151628aed2a6abf7158809cf4f3c", "6bc1bee22e409f96e93d7e117393172a", "3ad77bb40d7a3660a89ecaf32466ef97");
    aes("2b7e151628aed2a6abf7158809cf4f3c", "ae2d8a571e03ac9c9eb76fac45af8e51", "f5d3d58503b9699de785895a96fdbaaf");
    aes("2b7e151628aed2a6abf7158809cf4f3c", "30c81c46a35ce411e5fbc1191a0a52ef", "43b1cd7f598ece23881b00e3ed030688");
    aes("2b7e151628aed2a6abf7158809cf4f3c", "f69f2445df4f9b17ad2b417be66c3710", "7b0c785e27e8ad3f8223207104725dd4");

    /* 80 and fifteen 00, doubled, is 135. x times x^126 is x^127; x^64 times itself is x^128, which is 135. */
    product("80000000000000000000000000000000", "00000000000000000000000000000002", "00000000000000000000000000000087");
    product("40000000000000000000000000000000", "00000000000000000000000000000002", "80000000000000000000000000000000");
    product("00000000000000010000000000000000", "00000000000000010000000000000000", "00000000000000000000000000000087");
}

/* AES-128 as FIPS 197 words it, byte by byte. For comparison only: it is slow, and its time depends on the key. */
#ifndef REFERENCE_AES_H
#define REFERENCE_AES_H

#include <stdint.h>

void ref_aes_encipher(const uint8_t key[16], const uint8_t in[16], uint8_t out[16]);
void ref_aes_decipher(const uint8_t key[16], const uint8_t in[16], uint8_t out[16]);

#endif

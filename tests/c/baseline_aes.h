/* AES-128 enciphering by four tables, as portable C does it for speed. Only to measure beside. */
#ifndef BASELINE_AES_H
#define BASELINE_AES_H

#include <stddef.h>
#include <stdint.h>

/* Fills the tables. To be called once, before the others. */
void baseline_begin(void);

void baseline_expand(const uint8_t key[16], uint32_t round_keys[44]);

/* Enciphers count blocks where they stand. */
void baseline_encipher(const uint32_t round_keys[44], uint8_t *blocks, size_t count);

#endif

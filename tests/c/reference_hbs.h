/* The HBS mode over AES-128, written from docs/MODE.md for comparison. For sizes within the limits of yotskheni.h. */
#ifndef REFERENCE_HBS_H
#define REFERENCE_HBS_H

#include <stdbool.h>
#include <stddef.h>
#include <stdint.h>

/* The product of two blocks. out may be a or b. */
void ref_product(const uint8_t a[16], const uint8_t b[16], uint8_t out[16]);

/* S, the hash of header and message. */
void ref_hash(const uint8_t key[16], bool has_header, const uint8_t *header, size_t header_len,
              const uint8_t *message, size_t message_len, uint8_t s[16]);

/* XORs the stream from s into the text. */
void ref_stream(const uint8_t key[16], const uint8_t s[16], uint8_t *text, size_t text_len);

/* Seals text in place. */
void ref_seal(const uint8_t key[16], bool has_header, const uint8_t *header, size_t header_len, uint8_t tag[16],
              uint8_t *text, size_t text_len);

/* Takes the stream off text in place, and answers whether what is left is the message. */
bool ref_open(const uint8_t key[16], bool has_header, const uint8_t *header, size_t header_len,
              const uint8_t tag[16], uint8_t *text, size_t text_len);

#endif

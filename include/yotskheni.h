/*
 * Yotskheni: sealing and opening of one message in place, by the HBS mode over AES-128.
 *
 * Both functions work only in the buffers handed in. They allocate nothing, keep nothing between calls and share no
 * state, so any number of threads may call them at once, each on its own buffers.
 *
 * Rules for the buffers of a call:
 *
 * - Each is a pointer and the number of bytes there. All of these bytes must be the caller's, also where the length
 *   is one that the call refuses.
 * - They must not overlap one another. Nobody else may write to them during the call, and nobody else may read text,
 *   nor the tag of yotskheni_wrap.
 * - A pointer may be NULL where its length is 0. A pointer needs no alignment.
 *
 * The mode needs no nonce. It is deterministic: the same key, header and message always give the same tag and
 * ciphertext.
 */
#ifndef YOTSKHENI_H
#define YOTSKHENI_H

#include <stdbool.h>
#include <stddef.h>
#include <stdint.h>

#ifdef __cplusplus
extern "C" {
#endif

/* Sizes in bytes. Key and tag have exactly this size, header and text at most this. */
#define YOTSKHENI_KEY_SIZE 16
#define YOTSKHENI_TAG_SIZE 16
#define YOTSKHENI_HEADER_MAX 1024
#define YOTSKHENI_TEXT_MAX 4096

/* Answers. */
#define YOTSKHENI_ACCEPTED 0u          /* done */
#define YOTSKHENI_REFUSED_SIZE 4u      /* a size is wrong */
#define YOTSKHENI_REFUSED_MISMATCH 14u /* tag and text do not belong together under this key and header */

/*
 * Seals a message: replaces the text by its ciphertext, which is as long, and writes the tag.
 *
 * key, key_len        The key, 16 bytes. It is only read.
 * has_header          Whether there is a header. No header and an empty header are two different things, and give
 *                     different tags.
 * header, header_len  The header, 0 to 1,024 bytes. It is authenticated and not enciphered. It is only read. Where
 *                     has_header is false both are ignored, and of any size: NULL and 0 will do.
 * tag, tag_len        Where the tag goes, 16 bytes. What is there before does not matter.
 * text, text_len      The message, 0 to 4,096 bytes.
 *
 * Answers
 *   YOTSKHENI_ACCEPTED      text holds the ciphertext, tag holds the tag.
 *   YOTSKHENI_REFUSED_SIZE  key_len is not 16, or has_header is true and header_len is over 1,024, or tag_len is not
 *                           16, or text_len is over 4,096. Text and tag are as they were: text is still the plain
 *                           message, and must not be sent.
 */
uint32_t yotskheni_wrap(const uint8_t *key, size_t key_len, bool has_header, const uint8_t *header, size_t header_len,
                        uint8_t *tag, size_t tag_len, uint8_t *text, size_t text_len);

/*
 * Opens a message: replaces the ciphertext by the message, if the tag belongs to it under this key and header.
 *
 * key, key_len        The key, 16 bytes. It is only read.
 * has_header          Whether the message was sealed with a header.
 * header, header_len  The header that it was sealed with, 0 to 1,024 bytes. It is only read. Where has_header is false
 *                     both are ignored, and of any size: NULL and 0 will do.
 * tag, tag_len        The tag, 16 bytes. It is only read.
 * text, text_len      The ciphertext, 0 to 4,096 bytes.
 *
 * Answers
 *   YOTSKHENI_ACCEPTED          text holds the message.
 *   YOTSKHENI_REFUSED_SIZE      A size is wrong, by the same limits as in yotskheni_wrap. All text_len bytes of text
 *                               are zero, also where text_len itself is over 4,096.
 *   YOTSKHENI_REFUSED_MISMATCH  No message seals to this tag and ciphertext under this key and header: one of the four
 *                               was altered, or belongs to another message. All text_len bytes of text are zero.
 *
 * A refusal does not leave the ciphertext: who wants to try again, under another key say, keeps a copy.
 */
uint32_t yotskheni_unwrap(const uint8_t *key, size_t key_len, bool has_header, const uint8_t *header,
                          size_t header_len, const uint8_t *tag, size_t tag_len, uint8_t *text, size_t text_len);

#ifdef __cplusplus
}
#endif

#endif

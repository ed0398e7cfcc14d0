/*
 * A call of the library with its buffers fenced. What holds after every call is checked here: the fences stand; key and
 * header are as they were, and so is the tag after unwrap; a refused wrap left tag and text as they were; a refused
 * unwrap left the text zero.
 */
#ifndef CALL_H
#define CALL_H

#include "fenced.h"

#include <stdbool.h>
#include <stdint.h>

typedef struct {
    fenced key, header, tag, text;
    bool has_header;
} call;

/* Key and tag of 16 bytes. header NULL is no header, and is passed as NULL with length 0. */
void call_set(call *c, const uint8_t *key, const uint8_t *header, size_t header_len, const uint8_t *tag,
              const uint8_t *text, size_t text_len);

uint32_t call_wrap(call *c);
uint32_t call_unwrap(call *c);

#endif

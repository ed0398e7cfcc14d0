/* A buffer with fences before and behind it, which nobody may write to. */
#ifndef FENCED_H
#define FENCED_H

#include <stdbool.h>
#include <stddef.h>
#include <stdint.h>

enum { FENCE = 64, FENCED_MAX = 65536 + 4096 };

typedef struct {
    uint8_t *at;
    size_t len;
    uint8_t whole[FENCE + FENCED_MAX + FENCE];
} fenced;

/* Takes a copy of the bytes. Each call puts them at another alignment than the last. */
void fenced_set(fenced *f, const uint8_t *bytes, size_t len);

/* The NULL pointer with length 0. */
void fenced_set_null(fenced *f);

/* Whether the fences are as they were set. */
bool fenced_stands(const fenced *f);

/* Whether the bytes are these, or are all zero. */
bool fenced_is(const fenced *f, const uint8_t *bytes, size_t len);
bool fenced_is_zero(const fenced *f);

#endif

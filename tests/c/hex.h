/* Bytes from hex. */
#ifndef HEX_H
#define HEX_H

#include <stdbool.h>
#include <stddef.h>
#include <stdint.h>

/* Reads pairs of digits, or "." for nothing, into at most limit bytes. False where it cannot. */
bool hex_read(const char *digits, uint8_t *bytes, size_t limit, size_t *len);

#endif

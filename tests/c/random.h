/* Random inputs from a fixed seed, by xorshift64. */
#ifndef RANDOM_H
#define RANDOM_H

#include <stddef.h>
#include <stdint.h>

#define RANDOM_SEED UINT64_C(0x9e3779b97f4a7c15)

/* Each test begins again from the seed. */
void random_begin(void);

uint64_t random_word(void);

/* A number below limit, which is not 0. */
size_t random_below(size_t limit);

void random_fill(uint8_t *bytes, size_t len);

#endif

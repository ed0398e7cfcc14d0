/* The tests. Each goes through its cases and counts by CHECK. */
#ifndef TESTS_H
#define TESTS_H

#include <stddef.h>

void test_reference(void);
void test_vectors(const char *path);
void test_refusals(void);
void test_damage(void);
void test_nulls(void);
void test_edges(void);
void test_lengths(void);
void test_against_reference(size_t rounds);

#endif

/* CHECK counts, and says where it failed. */
#ifndef CHECK_H
#define CHECK_H

#include <stdbool.h>

/* Each answers what it was given, so that a caller can stop. */
#define CHECK(condition) check_count((condition), __FILE__, __LINE__, #condition)

bool check_count(bool holds, const char *file, int line, const char *what);

/* What is being tried, printed with a failure. */
void check_context(const char *format, ...) __attribute__((format(printf, 1, 2)));

unsigned long check_made(void);
unsigned long check_failed(void);

#endif

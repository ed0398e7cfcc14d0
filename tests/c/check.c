#include "check.h"

#include <stdarg.h>
#include <stdio.h>

enum { PRINTED_AT_MOST = 20 };

static unsigned long made, failed;
static char context[200];

bool check_count(bool holds, const char *file, int line, const char *what)
{
    made++;
    if (!holds && failed++ < PRINTED_AT_MOST)
        printf("%s:%d: failed: %s (%s)\n", file, line, what, context);
    return holds;
}

void check_context(const char *format, ...)
{
    va_list words;
    va_start(words, format);
    vsnprintf(context, sizeof context, format, words);
    va_end(words);
}

unsigned long check_made(void)
{
    return made;
}

unsigned long check_failed(void)
{
    return failed;
}

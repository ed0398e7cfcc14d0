#include "hex.h"

#include <string.h>

static int digit(char c)
{
    static const char digits[] = "0123456789abcdef";
    const char *found = c == '\0' ? NULL : strchr(digits, c);
    return found == NULL ? -1 : (int)(found - digits);
}

bool hex_read(const char *digits, uint8_t *bytes, size_t limit, size_t *len)
{
    size_t n = strcmp(digits, ".") == 0 ? 0 : strlen(digits);
    if (n % 2 != 0 || n / 2 > limit)
        return false;
    for (size_t i = 0; i < n; i += 2) {
        int high = digit(digits[i]), low = digit(digits[i + 1]);
        if (high < 0 || low < 0)
            return false;
        bytes[i / 2] = (uint8_t)(high * 16 + low);
    }
    *len = n / 2;
    return true;
}

#include "fenced.h"

#include <string.h>

enum { FENCE_BYTE = 0xc5 };

static bool all(const uint8_t *from, const uint8_t *to, uint8_t byte)
{
    while (from < to) {
        if (*from++ != byte)
            return false;
    }
    return true;
}

void fenced_set(fenced *f, const uint8_t *bytes, size_t len)
{
    static unsigned turn;
    uint8_t *at = f->whole + FENCE / 2 + turn++ % 17;
    memset(f->whole, FENCE_BYTE, (size_t)(at - f->whole));
    memset(at + len, FENCE_BYTE, FENCE);
    if (len > 0)
        memcpy(at, bytes, len);
    f->at = at;
    f->len = len;
}

void fenced_set_null(fenced *f)
{
    f->at = NULL;
    f->len = 0;
}

bool fenced_stands(const fenced *f)
{
    const uint8_t *end;
    if (f->at == NULL)
        return true;
    end = f->at + f->len;
    return all(f->whole, f->at, FENCE_BYTE) && all(end, end + FENCE, FENCE_BYTE);
}

bool fenced_is(const fenced *f, const uint8_t *bytes, size_t len)
{
    return f->len == len && (len == 0 || memcmp(f->at, bytes, len) == 0);
}

bool fenced_is_zero(const fenced *f)
{
    return f->len == 0 || all(f->at, f->at + f->len, 0);
}

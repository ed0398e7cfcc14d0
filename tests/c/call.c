#include "call.h"

#include "check.h"
#include "yotskheni.h"

#include <string.h>

/* What stood in a buffer before the call. */
typedef struct {
    size_t len;
    uint8_t bytes[FENCED_MAX];
} copy;

static copy key_before, header_before, tag_before, text_before;

static void keep(copy *before, const fenced *f)
{
    before->len = f->len;
    if (f->len > 0)
        memcpy(before->bytes, f->at, f->len);
}

static bool same(const copy *before, const fenced *f)
{
    return fenced_is(f, before->bytes, before->len);
}

static void before(const call *c)
{
    keep(&key_before, &c->key);
    keep(&header_before, &c->header);
    keep(&tag_before, &c->tag);
    keep(&text_before, &c->text);
}

static void after(const call *c)
{
    CHECK(fenced_stands(&c->key));
    CHECK(fenced_stands(&c->header));
    CHECK(fenced_stands(&c->tag));
    CHECK(fenced_stands(&c->text));
    CHECK(same(&key_before, &c->key));
    CHECK(same(&header_before, &c->header));
}

void call_set(call *c, const uint8_t *key, const uint8_t *header, size_t header_len, const uint8_t *tag,
              const uint8_t *text, size_t text_len)
{
    fenced_set(&c->key, key, YOTSKHENI_KEY_SIZE);
    c->has_header = header != NULL;
    if (c->has_header)
        fenced_set(&c->header, header, header_len);
    else
        fenced_set_null(&c->header);
    fenced_set(&c->tag, tag, YOTSKHENI_TAG_SIZE);
    fenced_set(&c->text, text, text_len);
}

uint32_t call_wrap(call *c)
{
    uint32_t answer;
    before(c);
    answer = yotskheni_wrap(c->key.at, c->key.len, c->has_header, c->header.at, c->header.len, c->tag.at, c->tag.len,
                            c->text.at, c->text.len);
    after(c);
    if (answer != YOTSKHENI_ACCEPTED) {
        CHECK(same(&tag_before, &c->tag));
        CHECK(same(&text_before, &c->text));
    }
    return answer;
}

uint32_t call_unwrap(call *c)
{
    uint32_t answer;
    before(c);
    answer = yotskheni_unwrap(c->key.at, c->key.len, c->has_header, c->header.at, c->header.len, c->tag.at,
                              c->tag.len, c->text.at, c->text.len);
    after(c);
    CHECK(same(&tag_before, &c->tag));
    if (answer != YOTSKHENI_ACCEPTED)
        CHECK(fenced_is_zero(&c->text));
    return answer;
}

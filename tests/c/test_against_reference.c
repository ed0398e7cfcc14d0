/*
 * Random messages both ways: what the library seals the reference opens, and what the reference seals the library
 * opens. Then one random bit is flipped, and both refuse.
 */
#include "call.h"
#include "check.h"
#include "random.h"
#include "reference_hbs.h"
#include "tests.h"
#include "yotskheni.h"

#include <string.h>

static call c;
static uint8_t key[YOTSKHENI_KEY_SIZE], tag[YOTSKHENI_TAG_SIZE];
static uint8_t header[YOTSKHENI_HEADER_MAX], message[YOTSKHENI_TEXT_MAX], text[YOTSKHENI_TEXT_MAX];
static size_t header_len, text_len;
static bool has_header;

/* Most are short, and one in eight is of any length. */
static size_t some_length(size_t limit)
{
    return random_below(random_below(8) == 0 ? limit + 1 : 100);
}

static void draw(void)
{
    has_header = random_below(4) != 0;
    header_len = has_header ? some_length(YOTSKHENI_HEADER_MAX) : 0;
    text_len = some_length(YOTSKHENI_TEXT_MAX);
    random_fill(key, sizeof key);
    random_fill(tag, sizeof tag);
    random_fill(header, header_len);
    random_fill(message, text_len);
    memcpy(text, message, text_len);
}

static void set(void)
{
    call_set(&c, key, has_header ? header : NULL, header_len, tag, text, text_len);
}

/* Tag and text as the library seals the message. */
static void library_seals(void)
{
    set();
    CHECK(call_wrap(&c) == YOTSKHENI_ACCEPTED);
    memcpy(tag, c.tag.at, sizeof tag);
    memcpy(text, c.text.at, text_len);
    CHECK(ref_open(key, has_header, header, header_len, tag, c.text.at, text_len));
    CHECK(fenced_is(&c.text, message, text_len));
}

static void reference_seals(void)
{
    ref_seal(key, has_header, header, header_len, tag, text, text_len);
    set();
    CHECK(call_unwrap(&c) == YOTSKHENI_ACCEPTED);
    CHECK(fenced_is(&c.text, message, text_len));
}

/* One bit of key, tag, header or text, each as likely as the others. The tag stands in for a part that is empty. */
static void damage(void)
{
    uint8_t *parts[] = {key, tag, header, text};
    const size_t lengths[] = {sizeof key, sizeof tag, header_len, text_len};
    size_t part = random_below(4);
    size_t bit;
    if (lengths[part] == 0)
        part = 1;
    bit = random_below(8 * lengths[part]);
    parts[part][bit / 8] ^= (uint8_t)(1 << bit % 8);
}

static void both_refuse(void)
{
    set();
    CHECK(call_unwrap(&c) == YOTSKHENI_REFUSED_MISMATCH);
    CHECK(fenced_is_zero(&c.text));
    CHECK(!ref_open(key, has_header, header, header_len, tag, text, text_len));
}

void test_against_reference(size_t rounds)
{
    for (size_t round = 0; round < rounds; round++) {
        draw();
        check_context("round %zu, header %zu (%d), text %zu", round, header_len, has_header, text_len);
        if (round % 2 == 0)
            library_seals();
        else
            reference_seals();
        damage();
        both_refuse();
    }
}

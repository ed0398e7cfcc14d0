/* Every length of text and every length of header, there and back, against the reference. */
#include "call.h"
#include "check.h"
#include "random.h"
#include "reference_hbs.h"
#include "tests.h"
#include "yotskheni.h"

#include <string.h>

static uint8_t header[YOTSKHENI_HEADER_MAX], message[YOTSKHENI_TEXT_MAX], sealed[YOTSKHENI_TEXT_MAX];

static void there_and_back(bool has_header, size_t header_len, size_t text_len)
{
    static call c;
    uint8_t key[YOTSKHENI_KEY_SIZE], tag[YOTSKHENI_TAG_SIZE], before[YOTSKHENI_TAG_SIZE];
    check_context("header %zu (%d), text %zu", header_len, has_header, text_len);
    random_fill(key, sizeof key);
    random_fill(before, sizeof before);
    memcpy(sealed, message, text_len);
    ref_seal(key, has_header, header, header_len, tag, sealed, text_len);

    call_set(&c, key, has_header ? header : NULL, header_len, before, message, text_len);
    CHECK(call_wrap(&c) == YOTSKHENI_ACCEPTED);
    CHECK(fenced_is(&c.tag, tag, sizeof tag));
    CHECK(fenced_is(&c.text, sealed, text_len));
    CHECK(call_unwrap(&c) == YOTSKHENI_ACCEPTED);
    CHECK(fenced_is(&c.text, message, text_len));
}

void test_lengths(void)
{
    random_fill(header, sizeof header);
    random_fill(message, sizeof message);
    for (size_t len = 0; len <= YOTSKHENI_TEXT_MAX; len++)
        there_and_back(len % 3 != 0, len % 49, len);
    for (size_t len = 0; len <= YOTSKHENI_HEADER_MAX; len++)
        there_and_back(true, len, len % 37);
    for (size_t len = 0; len <= 64; len++)
        there_and_back(false, 0, len);
}

/* Wrong sizes, one at a time and together. What refusals leave is checked by call_wrap and call_unwrap. */
#include "call.h"
#include "check.h"
#include "random.h"
#include "reference_hbs.h"
#include "tests.h"
#include "yotskheni.h"

#include <string.h>

static uint8_t bytes[FENCED_MAX];
static call c;

/* A message sealed by the reference, so that unwrap has only the size to refuse. */
static void set_sealed(bool has_header, size_t header_len, size_t text_len)
{
    static uint8_t header[YOTSKHENI_HEADER_MAX], text[YOTSKHENI_TEXT_MAX];
    uint8_t key[YOTSKHENI_KEY_SIZE], tag[YOTSKHENI_TAG_SIZE];
    random_fill(key, sizeof key);
    random_fill(header, header_len);
    random_fill(text, text_len);
    ref_seal(key, has_header, header, header_len, tag, text, text_len);
    call_set(&c, key, has_header ? header : NULL, header_len, tag, text, text_len);
}

static void sound(const char *what, bool has_header, size_t header_len, size_t text_len)
{
    check_context("%s", what);
    set_sealed(has_header, header_len, text_len);
    CHECK(call_unwrap(&c) == YOTSKHENI_ACCEPTED);
    CHECK(call_wrap(&c) == YOTSKHENI_ACCEPTED);
}

/* Every buffer right but one, which has another length: its bytes cut off or gone on with. */
static void one_wrong(const char *what, fenced *wrong, size_t len, size_t text_len)
{
    for (int unwrap = 0; unwrap < 2; unwrap++) {
        set_sealed(true, 20, text_len);
        random_fill(bytes, len);
        memcpy(bytes, wrong->at, len < wrong->len ? len : wrong->len);
        fenced_set(wrong, bytes, len);
        check_context("%s of %zu bytes, text of %zu, %s", what, len, c.text.len, unwrap ? "unwrap" : "wrap");
        CHECK((unwrap ? call_unwrap(&c) : call_wrap(&c)) == YOTSKHENI_REFUSED_SIZE);
    }
}

static void several_wrong(size_t key_len, bool has_header, size_t header_len, size_t tag_len, size_t text_len)
{
    for (int unwrap = 0; unwrap < 2; unwrap++) {
        random_fill(bytes, sizeof bytes);
        fenced_set(&c.key, bytes, key_len);
        c.has_header = has_header;
        fenced_set(&c.header, bytes + 1, header_len);
        fenced_set(&c.tag, bytes + 2, tag_len);
        fenced_set(&c.text, bytes + 3, text_len);
        check_context("key %zu, header %zu, tag %zu, text %zu, %s", key_len, header_len, tag_len, text_len,
                      unwrap ? "unwrap" : "wrap");
        CHECK((unwrap ? call_unwrap(&c) : call_wrap(&c)) == YOTSKHENI_REFUSED_SIZE);
    }
}

/* Where has_header is false, whatever is handed in as header counts for nothing. */
static void ignored_header(void)
{
    static const size_t lengths[] = {0, 1, 16, YOTSKHENI_HEADER_MAX, YOTSKHENI_HEADER_MAX + 1, 5000};
    for (size_t i = 0; i < sizeof lengths / sizeof *lengths; i++) {
        check_context("no header, with %zu bytes handed in", lengths[i]);
        set_sealed(false, 0, 50);
        random_fill(bytes, lengths[i]);
        fenced_set(&c.header, bytes, lengths[i]);
        CHECK(call_unwrap(&c) == YOTSKHENI_ACCEPTED);
        memcpy(bytes, c.text.at, c.text.len);
        CHECK(call_wrap(&c) == YOTSKHENI_ACCEPTED);
        CHECK(ref_open(c.key.at, false, NULL, 0, c.tag.at, c.text.at, c.text.len));
        CHECK(fenced_is(&c.text, bytes, c.text.len));
    }
}

void test_refusals(void)
{
    /* 272 is 16 modulo 256, and 65,552 is 16 modulo 65,536. */
    static const size_t not_16[] = {0, 1, 8, 15, 17, 24, 32, 255, 256, 272, 65536, 65552};
    static const size_t over_header[] = {1025, 1026, 1040, 2048, 4096, 65536, 65556};
    static const size_t over_text[] = {4097, 4098, 4111, 4112, 8192, 65535, 65536, 65552};
    static const size_t texts[] = {0, 1, 16, 33, 4096};

    sound("no header, no text", false, 0, 0);
    sound("the longest", true, YOTSKHENI_HEADER_MAX, YOTSKHENI_TEXT_MAX);
    for (size_t t = 0; t < sizeof texts / sizeof *texts; t++) {
        for (size_t i = 0; i < sizeof not_16 / sizeof *not_16; i++) {
            one_wrong("key", &c.key, not_16[i], texts[t]);
            one_wrong("tag", &c.tag, not_16[i], texts[t]);
        }
        for (size_t i = 0; i < sizeof over_header / sizeof *over_header; i++)
            one_wrong("header", &c.header, over_header[i], texts[t]);
    }
    for (size_t i = 0; i < sizeof over_text / sizeof *over_text; i++)
        one_wrong("text", &c.text, over_text[i], 100);

    several_wrong(15, true, 10, 15, 100);
    several_wrong(0, true, 1025, 0, 4097);
    several_wrong(17, false, 1025, 16, 100);
    several_wrong(16, false, 2000, 17, 100);
    several_wrong(16, false, 2000, 16, 4097);
    ignored_header();
}

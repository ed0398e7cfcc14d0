/* NULL with length 0, in every place. */
#include "call.h"
#include "check.h"
#include "random.h"
#include "reference_hbs.h"
#include "tests.h"
#include "yotskheni.h"

static call c;

static void set(bool has_header, bool null_text)
{
    static const uint8_t nothing[1];
    uint8_t key[YOTSKHENI_KEY_SIZE], tag[YOTSKHENI_TAG_SIZE];
    random_fill(key, sizeof key);
    ref_seal(key, has_header, NULL, 0, tag, NULL, 0);
    call_set(&c, key, has_header ? nothing : NULL, 0, tag, nothing, 0);
    fenced_set_null(&c.header);
    if (null_text)
        fenced_set_null(&c.text);
}

static void both_are(uint32_t answer)
{
    CHECK(call_unwrap(&c) == answer);
    CHECK(call_wrap(&c) == answer);
}

void test_nulls(void)
{
    for (int has_header = 0; has_header < 2; has_header++) {
        for (int null_text = 0; null_text < 2; null_text++) {
            uint8_t tag[YOTSKHENI_TAG_SIZE];
            check_context("header NULL (%d), text NULL (%d)", has_header, null_text);
            set(has_header, null_text);
            both_are(YOTSKHENI_ACCEPTED);
            ref_seal(c.key.at, has_header, NULL, 0, tag, NULL, 0);
            CHECK(fenced_is(&c.tag, tag, sizeof tag));

            c.tag.at[15] ^= 1;
            CHECK(call_unwrap(&c) == YOTSKHENI_REFUSED_MISMATCH);

            check_context("key NULL, header (%d), text NULL (%d)", has_header, null_text);
            set(has_header, null_text);
            fenced_set_null(&c.key);
            both_are(YOTSKHENI_REFUSED_SIZE);

            check_context("tag NULL, header (%d), text NULL (%d)", has_header, null_text);
            set(has_header, null_text);
            fenced_set_null(&c.tag);
            both_are(YOTSKHENI_REFUSED_SIZE);

            check_context("all NULL, header (%d)", has_header);
            fenced_set_null(&c.key);
            fenced_set_null(&c.text);
            both_are(YOTSKHENI_REFUSED_SIZE);
        }
    }
}

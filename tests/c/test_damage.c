/* Messages altered after sealing: refused by 14. That the text is then zero is checked by call_unwrap. */
#include "call.h"
#include "check.h"
#include "random.h"
#include "reference_aes.h"
#include "reference_hbs.h"
#include "tests.h"
#include "yotskheni.h"

#include <string.h>

typedef struct {
    uint8_t key[YOTSKHENI_KEY_SIZE], header[64], tag[YOTSKHENI_TAG_SIZE], text[64];
} message;

static message m;
static call c;

static void open_is(size_t header_len, bool has_header, size_t text_len, uint32_t answer)
{
    message copy = m;
    bool sound = answer == YOTSKHENI_ACCEPTED;
    call_set(&c, m.key, has_header ? m.header : NULL, header_len, m.tag, m.text, text_len);
    CHECK(call_unwrap(&c) == answer);
    CHECK(ref_open(m.key, has_header, m.header, header_len, m.tag, copy.text, text_len) == sound);
    if (sound)
        CHECK(fenced_is(&c.text, copy.text, text_len));
}

/* Every bit of one part, flipped and put back. */
static void flip_all(const char *what, uint8_t *part, size_t len, size_t header_len, bool has_header, size_t text_len)
{
    for (size_t bit = 0; bit < 8 * len; bit++) {
        check_context("bit %zu of the %s flipped, header %zu (%d), text %zu", bit, what, header_len, has_header,
                      text_len);
        part[bit / 8] ^= (uint8_t)(1 << bit % 8);
        open_is(header_len, has_header, text_len, YOTSKHENI_REFUSED_MISMATCH);
        part[bit / 8] ^= (uint8_t)(1 << bit % 8);
    }
    check_context("the %s put back", what);
    open_is(header_len, has_header, text_len, YOTSKHENI_ACCEPTED);
}

static void seal_random(size_t header_len, bool has_header, size_t text_len)
{
    random_fill((uint8_t *)&m, sizeof m);
    ref_seal(m.key, has_header, m.header, header_len, m.tag, m.text, text_len);
}

static void flips(size_t header_len, bool has_header, size_t text_len)
{
    seal_random(header_len, has_header, text_len);
    flip_all("key", m.key, sizeof m.key, header_len, has_header, text_len);
    flip_all("tag", m.tag, sizeof m.tag, header_len, has_header, text_len);
    flip_all("text", m.text, text_len, header_len, has_header, text_len);
    if (has_header)
        flip_all("header", m.header, header_len, header_len, has_header, text_len);
}

/* No header and an empty one are not the same, nor are a header and none. */
static void absent_or_empty(size_t text_len)
{
    check_context("sealed with an empty header, text %zu", text_len);
    seal_random(0, true, text_len);
    open_is(0, true, text_len, YOTSKHENI_ACCEPTED);
    open_is(0, false, text_len, YOTSKHENI_REFUSED_MISMATCH);
    check_context("sealed with no header, text %zu", text_len);
    seal_random(0, false, text_len);
    open_is(0, false, text_len, YOTSKHENI_ACCEPTED);
    open_is(0, true, text_len, YOTSKHENI_REFUSED_MISMATCH);
    check_context("sealed with a header, text %zu", text_len);
    seal_random(16, true, text_len);
    open_is(16, false, text_len, YOTSKHENI_REFUSED_MISMATCH);
    open_is(0, true, text_len, YOTSKHENI_REFUSED_MISMATCH);
}

/* Padding is not taken for bytes that are there: header or text cut or gone on with as it pads. */
static void padding(void)
{
    check_context("header gone on with by its padding");
    seal_random(15, true, 20);
    m.header[15] = 0x80;
    open_is(16, true, 20, YOTSKHENI_REFUSED_MISMATCH);
    open_is(15, true, 20, YOTSKHENI_ACCEPTED);
    check_context("header cut");
    open_is(14, true, 20, YOTSKHENI_REFUSED_MISMATCH);
    check_context("text cut");
    open_is(15, true, 19, YOTSKHENI_REFUSED_MISMATCH);
    open_is(15, true, 0, YOTSKHENI_REFUSED_MISMATCH);
    check_context("text gone on with");
    open_is(15, true, 21, YOTSKHENI_REFUSED_MISMATCH);
}

/*
 * The closest misses there are, which only a holder of the key can make: a tag for a block that is the hash of the
 * message but for one bit, or that is its tag but for one bit. The text is enciphered to fit. Whoever compares fewer
 * than all bits takes one of them.
 */
static void near_misses(size_t text_len)
{
    for (int of_tag = 0; of_tag < 2; of_tag++) {
        for (int bit = 0; bit < 128; bit++) {
            uint8_t s[16];
            check_context("near miss in bit %d of the %s, text %zu", bit, of_tag ? "tag" : "hash", text_len);
            random_fill((uint8_t *)&m, sizeof m);
            ref_hash(m.key, true, m.header, 20, m.text, text_len, s);
            if (of_tag) {
                ref_aes_encipher(m.key, s, m.tag);
                m.tag[bit / 8] ^= (uint8_t)(1 << bit % 8);
                ref_aes_decipher(m.key, m.tag, s);
            } else {
                s[bit / 8] ^= (uint8_t)(1 << bit % 8);
                ref_aes_encipher(m.key, s, m.tag);
            }
            ref_stream(m.key, s, m.text, text_len);
            open_is(20, true, text_len, YOTSKHENI_REFUSED_MISMATCH);
        }
    }
}

void test_damage(void)
{
    static const size_t texts[] = {0, 1, 16, 33, 48};
    for (size_t i = 0; i < sizeof texts / sizeof *texts; i++) {
        flips(20, true, texts[i]);
        flips(32, true, texts[i]);
        flips(0, true, texts[i]);
        flips(0, false, texts[i]);
        absent_or_empty(texts[i]);
        near_misses(texts[i]);
    }
    padding();
}

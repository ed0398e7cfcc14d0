/*
 * Buffers that begin or end at a page which nobody may touch. A fence shows only what is written beside a buffer; here
 * reading beside it ends the program, also in an archive that the sanitizers do not see into.
 */
#define _DEFAULT_SOURCE

#include "check.h"
#include "random.h"
#include "reference_hbs.h"
#include "tests.h"
#include "yotskheni.h"

#include <string.h>
#include <sys/mman.h>
#include <unistd.h>

typedef struct {
    uint8_t *from, *to;
} region;

static region keys, headers, tags, texts;

/* Room for a text, between two pages that are out of bounds. */
static bool map(region *r)
{
    size_t page = (size_t)sysconf(_SC_PAGESIZE);
    size_t room = (YOTSKHENI_TEXT_MAX + page - 1) / page * page;
    void *at = mmap(NULL, room + 2 * page, PROT_NONE, MAP_PRIVATE | MAP_ANONYMOUS, -1, 0);
    if (at == MAP_FAILED)
        return false;
    r->from = (uint8_t *)at + page;
    r->to = r->from + room;
    return mprotect(r->from, room, PROT_READ | PROT_WRITE) == 0;
}

/* Where a buffer of this length stands. */
static uint8_t *place(const region *r, size_t len, bool at_end)
{
    return at_end ? r->to - len : r->from;
}

static void at_edges(bool at_end, bool has_header, size_t header_len, size_t text_len)
{
    static uint8_t message[YOTSKHENI_TEXT_MAX], sealed[YOTSKHENI_TEXT_MAX];
    uint8_t right_tag[YOTSKHENI_TAG_SIZE];
    uint8_t *key = place(&keys, YOTSKHENI_KEY_SIZE, at_end);
    uint8_t *header = place(&headers, header_len, at_end);
    uint8_t *tag = place(&tags, YOTSKHENI_TAG_SIZE, at_end);
    uint8_t *text = place(&texts, text_len, at_end);
    check_context("header %zu (%d), text %zu, edge %s", header_len, has_header, text_len,
                  at_end ? "behind" : "before");
    random_fill(key, YOTSKHENI_KEY_SIZE);
    random_fill(header, header_len);
    random_fill(message, text_len);
    memcpy(sealed, message, text_len);
    ref_seal(key, has_header, header, header_len, right_tag, sealed, text_len);

    memcpy(text, message, text_len);
    CHECK(yotskheni_wrap(key, YOTSKHENI_KEY_SIZE, has_header, header, header_len, tag, YOTSKHENI_TAG_SIZE, text,
                         text_len) == YOTSKHENI_ACCEPTED);
    CHECK(memcmp(tag, right_tag, sizeof right_tag) == 0);
    CHECK(memcmp(text, sealed, text_len) == 0);

    CHECK(yotskheni_unwrap(key, YOTSKHENI_KEY_SIZE, has_header, header, header_len, tag, YOTSKHENI_TAG_SIZE, text,
                           text_len) == YOTSKHENI_ACCEPTED);
    CHECK(memcmp(text, message, text_len) == 0);

    memcpy(text, sealed, text_len);
    tag[3] ^= 4;
    CHECK(yotskheni_unwrap(key, YOTSKHENI_KEY_SIZE, has_header, header, header_len, tag, YOTSKHENI_TAG_SIZE, text,
                           text_len) == YOTSKHENI_REFUSED_MISMATCH);
    for (size_t i = 0; i < text_len; i++)
        CHECK(text[i] == 0);
}

/* Sizes that are refused: a buffer shorter than it should be is not read beyond its end. */
static void refused_at_edges(bool at_end, size_t key_len, size_t tag_len)
{
    uint8_t *key = place(&keys, key_len, at_end);
    uint8_t *tag = place(&tags, tag_len, at_end);
    uint8_t *text = place(&texts, 40, at_end);
    check_context("key %zu, tag %zu, edge %s", key_len, tag_len, at_end ? "behind" : "before");
    CHECK(yotskheni_wrap(key, key_len, false, NULL, 0, tag, tag_len, text, 40) == YOTSKHENI_REFUSED_SIZE);
    CHECK(yotskheni_unwrap(key, key_len, false, NULL, 0, tag, tag_len, text, 40) == YOTSKHENI_REFUSED_SIZE);
}

void test_edges(void)
{
    static const size_t header_lens[] = {0, 1, 15, 16, 17, 33, 1023, 1024};
    if (!CHECK(map(&keys) && map(&headers) && map(&tags) && map(&texts)))
        return;
    for (int at_end = 0; at_end < 2; at_end++) {
        for (size_t len = 0; len <= 80; len++) {
            size_t header_len = header_lens[len % (sizeof header_lens / sizeof *header_lens)];
            at_edges(at_end, true, header_len, len);
            at_edges(at_end, false, 0, len);
            at_edges(at_end, true, len, len % 18);
        }
        for (size_t len = YOTSKHENI_TEXT_MAX - 17; len <= YOTSKHENI_TEXT_MAX; len++)
            at_edges(at_end, true, 16, len);
        for (size_t len = 0; len < 16; len++) {
            refused_at_edges(at_end, len, YOTSKHENI_TAG_SIZE);
            refused_at_edges(at_end, YOTSKHENI_KEY_SIZE, len);
        }
    }
}

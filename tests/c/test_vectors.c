/* The vectors for AES-128, which come from another program: the reference and the library both agree with them. */
#include "call.h"
#include "check.h"
#include "hex.h"
#include "reference_hbs.h"
#include "tests.h"
#include "yotskheni.h"

#include <stdio.h>
#include <string.h>

enum { LINE_MAX_LEN = 32768, FIELDS = 6 };

typedef struct {
    uint8_t key[YOTSKHENI_KEY_SIZE], tag[YOTSKHENI_TAG_SIZE];
    uint8_t header[YOTSKHENI_HEADER_MAX], message[YOTSKHENI_TEXT_MAX], ciphertext[YOTSKHENI_TEXT_MAX];
    size_t header_len, text_len;
    bool has_header;
} vector;

/* cipher key header message tag ciphertext */
static bool read_vector(char *fields[FIELDS], vector *v)
{
    size_t key_len = 0, tag_len = 0, ciphertext_len = 0;
    v->has_header = strcmp(fields[2], "absent") != 0;
    v->header_len = 0;
    if (v->has_header && !hex_read(fields[2], v->header, sizeof v->header, &v->header_len))
        return false;
    return hex_read(fields[1], v->key, sizeof v->key, &key_len) && key_len == sizeof v->key &&
           hex_read(fields[3], v->message, sizeof v->message, &v->text_len) &&
           hex_read(fields[4], v->tag, sizeof v->tag, &tag_len) && tag_len == sizeof v->tag &&
           hex_read(fields[5], v->ciphertext, sizeof v->ciphertext, &ciphertext_len) && ciphertext_len == v->text_len;
}

static void reference(const vector *v)
{
    uint8_t text[YOTSKHENI_TEXT_MAX], tag[YOTSKHENI_TAG_SIZE];
    memcpy(text, v->message, sizeof text);
    ref_seal(v->key, v->has_header, v->header, v->header_len, tag, text, v->text_len);
    CHECK(memcmp(tag, v->tag, sizeof tag) == 0);
    CHECK(memcmp(text, v->ciphertext, v->text_len) == 0);
    CHECK(ref_open(v->key, v->has_header, v->header, v->header_len, v->tag, text, v->text_len));
    CHECK(memcmp(text, v->message, v->text_len) == 0);
}

static void library(const vector *v)
{
    static const uint8_t no_tag[YOTSKHENI_TAG_SIZE];
    static call c;
    const uint8_t *header = v->has_header ? v->header : NULL;
    call_set(&c, v->key, header, v->header_len, no_tag, v->message, v->text_len);
    CHECK(call_wrap(&c) == YOTSKHENI_ACCEPTED);
    CHECK(fenced_is(&c.tag, v->tag, sizeof v->tag));
    CHECK(fenced_is(&c.text, v->ciphertext, v->text_len));
    call_set(&c, v->key, header, v->header_len, v->tag, v->ciphertext, v->text_len);
    CHECK(call_unwrap(&c) == YOTSKHENI_ACCEPTED);
    CHECK(fenced_is(&c.text, v->message, v->text_len));
}

void test_vectors(const char *path)
{
    static char line[LINE_MAX_LEN];
    static vector v;
    int number = 0, tried = 0;
    FILE *file = fopen(path, "r");
    if (!CHECK(file != NULL))
        return;
    while (fgets(line, sizeof line, file) != NULL) {
        char *fields[FIELDS] = {NULL};
        int count = 0;
        check_context("line %d of the vectors", ++number);
        if (!CHECK(strchr(line, '\n') != NULL))
            break;
        if (strncmp(line, "aes128 ", 7) != 0)
            continue;
        for (char *word = strtok(line, " \n"); word != NULL && count < FIELDS; word = strtok(NULL, " \n"))
            fields[count++] = word;
        if (!CHECK(count == FIELDS) || !CHECK(read_vector(fields, &v)))
            continue;
        reference(&v);
        library(&v);
        tried++;
    }
    CHECK(tried >= 16);
    fclose(file);
}

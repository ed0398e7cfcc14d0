/*
 * Measures wrap and unwrap through the interface for C; the counter stream of the library's AES-128 beside the same
 * stream of a portable AES-128 in C, on the same blocks; and the hash over the multiplier with a table beside the same
 * hash over the one that doubles, on the same texts.
 *
 * Each number is the best of several runs. A call is measured together with the copying of its text into the buffer,
 * since both calls work in place.
 */
#define _POSIX_C_SOURCE 199309L

#include "baseline_aes.h"
#include "yotskheni.h"

#include <stdint.h>
#include <stdio.h>
#include <stdlib.h>
#include <string.h>
#include <time.h>

/* XORs text with AES-128 of the counters 1, 2, 3, ... under the key; from the archive that is only for measuring. */
uint32_t yotskheni_bench_stream(const uint8_t *key, size_t key_len, uint8_t *text, size_t text_len);

/* Writes the hash of text, with no header, under the hash key; from another such archive. */
typedef uint32_t hash_fn(const uint8_t *hash_key, size_t hash_key_len, const uint8_t *text, size_t text_len,
                         uint8_t *out, size_t out_len);
hash_fn yotskheni_bench_hash_doubling, yotskheni_bench_hash_table;

enum { RUNS = 9, HEADER = 16, BLOCKS = 256 };

#define RUN_NS 20e6 /* about as long as one run takes */

static uint8_t key[YOTSKHENI_KEY_SIZE], header[HEADER], tag[YOTSKHENI_TAG_SIZE], right_tag[YOTSKHENI_TAG_SIZE];
static uint8_t message[YOTSKHENI_TEXT_MAX], sealed[YOTSKHENI_TEXT_MAX], text[YOTSKHENI_TEXT_MAX];
static uint32_t round_keys[44];
static const uint8_t hash_key[16] = {0x66, 0xe9, 0x4b, 0xd4, 0xef, 0x8a, 0x2c, 0x3b,
                                     0x88, 0x4c, 0xfa, 0x59, 0xca, 0x34, 0x2b, 0x2e};
static uint8_t digest[16];

static void must(int holds, const char *what)
{
    if (!holds) {
        fprintf(stderr, "bench: %s\n", what);
        exit(1);
    }
}

static double now_ns(void)
{
    struct timespec t;
    must(clock_gettime(CLOCK_MONOTONIC, &t) == 0, "no clock");
    return (double)t.tv_sec * 1e9 + (double)t.tv_nsec;
}

static void wrap(size_t len)
{
    memcpy(text, message, len);
    must(yotskheni_wrap(key, sizeof key, true, header, sizeof header, tag, sizeof tag, text, len) ==
             YOTSKHENI_ACCEPTED,
         "wrap refused");
}

static void unwrap(size_t len)
{
    memcpy(text, sealed, len);
    must(yotskheni_unwrap(key, sizeof key, true, header, sizeof header, right_tag, sizeof right_tag, text, len) ==
             YOTSKHENI_ACCEPTED,
         "unwrap refused");
}

static void stream_baseline(size_t len)
{
    baseline_expand(key, round_keys);
    for (size_t i = 0; i < len / 16; i++) {
        uint8_t block[16] = {0};
        block[14] = (uint8_t)((i + 1) >> 8);
        block[15] = (uint8_t)(i + 1);
        baseline_encipher(round_keys, block, 1);
        for (size_t j = 0; j < 16; j++)
            text[16 * i + j] ^= block[j];
    }
}

static void stream_library(size_t len)
{
    must(yotskheni_bench_stream(key, sizeof key, text, len) == 0, "stream refused");
}

static void hash(hash_fn *call, size_t len)
{
    must(call(hash_key, sizeof hash_key, message, len, digest, sizeof digest) == 0, "hash refused");
}

static void hash_doubling(size_t len)
{
    hash(yotskheni_bench_hash_doubling, len);
}

static void hash_table(size_t len)
{
    hash(yotskheni_bench_hash_table, len);
}

/* Nanoseconds per call: the number of calls in a run is doubled until it is long enough. */
static double measure(void (*call)(size_t), size_t len)
{
    double best = 0;
    long calls = 1;
    for (int run = 0; run < RUNS;) {
        double begin = now_ns(), took;
        for (long i = 0; i < calls; i++)
            call(len);
        took = now_ns() - begin;
        if (took < RUN_NS && calls < 1L << 24) {
            calls *= 2;
            continue;
        }
        if (run == 0 || took / (double)calls < best)
            best = took / (double)calls;
        run++;
    }
    return best;
}

static void call_row(const char *name, void (*call)(size_t), size_t len)
{
    double ns = measure(call, len);
    printf("%-8s %6zu %12.0f %10.2f\n", name, len, ns, (double)len * 1e3 / ns);
}

static double block_row(const char *name, void (*call)(size_t))
{
    double ns = measure(call, 16 * BLOCKS) / BLOCKS;
    printf("%-8s %14.0f %10.1f %10.2f\n", name, 1e9 / ns, ns, 16 * 1e3 / ns);
    return ns;
}

static void hash_row(size_t len)
{
    double doubling = measure(hash_doubling, len), table = measure(hash_table, len);
    printf("%-8s %6zu %12.0f %10.2f %12.0f %10.2f %10.2f\n", "hash", len, doubling, (double)len * 1e3 / doubling, table,
           (double)len * 1e3 / table, doubling / table);
}

/* The example of FIPS 197, C.1, and the same stream from both. */
static void check_ciphers(void)
{
    static const uint8_t expected[16] = {0x69, 0xc4, 0xe0, 0xd8, 0x6a, 0x7b, 0x04, 0x30,
                                         0xd8, 0xcd, 0xb7, 0x80, 0x70, 0xb4, 0xc5, 0x5a};
    uint8_t block[16];
    for (int i = 0; i < 16; i++) {
        key[i] = (uint8_t)i;
        block[i] = (uint8_t)(0x11 * i);
    }
    baseline_expand(key, round_keys);
    baseline_encipher(round_keys, block, 1);
    must(memcmp(block, expected, 16) == 0, "the baseline is not AES-128");
    memcpy(text, message, sizeof text);
    stream_baseline(sizeof text);
    stream_library(sizeof text);
    must(memcmp(text, message, sizeof text) == 0, "the library's stream is not the baseline's");
}

/* The same hash over both multipliers, of every length. */
static void check_hashes(void)
{
    for (size_t len = 0; len <= sizeof message; len++) {
        uint8_t expected[sizeof digest];
        hash_doubling(len);
        memcpy(expected, digest, sizeof digest);
        memset(digest, 0, sizeof digest);
        hash_table(len);
        must(memcmp(digest, expected, sizeof digest) == 0, "the multipliers do not hash alike");
    }
}

int main(void)
{
    static const size_t lengths[] = {16, 64, 256, 1024, 4096};
    baseline_begin();
    for (size_t i = 0; i < sizeof message; i++)
        message[i] = (uint8_t)(i * 7 + i / 256);
    check_ciphers();
    check_hashes();

    printf("%-8s %6s %12s %10s   header of %d bytes, best of %d\n", "call", "bytes", "ns", "MB/s", HEADER, RUNS);
    for (size_t i = 0; i < sizeof lengths / sizeof *lengths; i++) {
        wrap(lengths[i]);
        memcpy(sealed, text, lengths[i]);
        memcpy(right_tag, tag, sizeof tag);
        unwrap(lengths[i]);
        must(memcmp(text, message, lengths[i]) == 0, "unwrap left another message");
        call_row("wrap", wrap, lengths[i]);
        call_row("unwrap", unwrap, lengths[i]);
    }

    printf("\n%-8s %14s %10s %10s   counter stream of AES-128, key expanded once in %d blocks\n", "cipher", "blocks/s",
           "ns/block", "MB/s", BLOCKS);
    double baseline = block_row("baseline", stream_baseline);
    double library = block_row("library", stream_library);
    printf("library / baseline: %.2f\n", baseline / library);

    printf("\n%-8s %6s %12s %10s %12s %10s %10s\n", "hash", "bytes", "doubling, ns", "MB/s", "table, ns", "MB/s", "ratio");
    for (size_t i = 0; i < sizeof lengths / sizeof *lengths; i++)
        hash_row(lengths[i]);
    return 0;
}

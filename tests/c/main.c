/* Runs all tests over the linked library: main VECTORS ROUNDS. */
#include "check.h"
#include "random.h"
#include "tests.h"

#include <inttypes.h>
#include <stdio.h>
#include <stdlib.h>

static const char *vectors;
static size_t rounds;

static void run_vectors(void)
{
    test_vectors(vectors);
}

static void run_against_reference(void)
{
    test_against_reference(rounds);
}

static void run(const char *name, void (*test)(void))
{
    unsigned long made = check_made(), failed = check_failed();
    random_begin();
    check_context("%s", name);
    test();
    check_context("%s", name);
    CHECK(check_made() > made); /* it tried something */
    printf("  %s: %lu checks, %lu failed\n", name, check_made() - made, check_failed() - failed);
    fflush(stdout);
}

int main(int count, char **words)
{
    if (count != 3) {
        fprintf(stderr, "usage: %s VECTORS ROUNDS\n", words[0]);
        return 2;
    }
    vectors = words[1];
    rounds = (size_t)strtoul(words[2], NULL, 10);
    printf("  seed %016" PRIx64 ", %zu random rounds\n", RANDOM_SEED, rounds);
    run("reference", test_reference);
    run("vectors", run_vectors);
    run("refusals", test_refusals);
    run("damage", test_damage);
    run("nulls", test_nulls);
    run("edges", test_edges);
    run("lengths", test_lengths);
    run("against reference", run_against_reference);
    printf("  %lu checks, %lu failed\n", check_made(), check_failed());
    return check_failed() == 0 ? 0 : 1;
}

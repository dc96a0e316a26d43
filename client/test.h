/* What the tests of the C interface share. */
#ifndef TEST_H
#define TEST_H
#include <stdio.h>

static int failures;

#define EXPECT(holds) \
    do { \
        if (!(holds)) { \
            fprintf(stderr, "%s:%d: not so: %s\n", __FILE__, __LINE__, #holds); \
            failures++; \
        } \
    } while (0)

/* The table of the example in document 01 (the customer's paper), and the derivation of (10 5 12) from it. */
#define EXAMPLE_TABLE "   10   13   20\n   11    1   12\n   13    2   14\n   14    3   11\n"
#define EXAMPLE_DERIVATION \
    "    0    0    0   13    2   14\n    0    0    0   10   13   20\n    2    1    2   10   14   20\n" \
    "    0    0    0   14    3   11\n    5    4    3   10    5   11\n    0    0    0   11    1   12\n" \
    "    4    6    5   10    5   12\n"

static int finish(const char *name) {
    printf("%s: %s\n", name, failures ? "FAILED" : "passed");
    return failures != 0;
}

#endif

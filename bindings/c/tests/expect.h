/* Counts what holds, and prints what doesn't. */
#ifndef EXPECT_H
#define EXPECT_H

#include <stdint.h>
#include <stdio.h>

static int passed, failed;

static void expect(int holds, const char *what, uint64_t seed)
{
    passed += holds;
    failed += !holds;
    if (!holds && failed < 20) {
        printf("c: not so: %s, seed %llu\n", what, (unsigned long long)seed);
    }
}

/* Prints the counts, and returns the status of the program. */
static int report(void)
{
    printf("c: %d passed, %d failed\n", passed, failed);
    return failed != 0;
}

#endif

/* What the programs of this folder share: what each counts, its last line, and numbers by chance. */
#include <stdbool.h>
#include <stdint.h>
#include <stdio.h>
#include <stdlib.h>
#include <string.h>

static unsigned long passed, failed;

/* Counts what is tried; of what did not hold the first ten are told, each with a number that says where. */
static void check(bool held, const char *what, unsigned long long number)
{
    passed += held;
    if (!held && failed++ < 10)
        printf("%s (%llu)\n", what, number);
}

static int counted(void)
{
    printf("%lu passed, %lu failed\n", passed, failed);
    return failed != 0;
}

/* A number below another, the same ones in each run. */
static inline uint64_t drawn(uint64_t below)
{
    static uint64_t seed = 88172645463325252u;
    seed ^= seed << 13, seed ^= seed >> 7, seed ^= seed << 17;
    return seed % below;
}

/* What the programs fuzz and model share: numbers that a seed gives, and a stop at the first violation. */
#ifndef FUZZ_H
#define FUZZ_H

#include <stdint.h>
#include <stdio.h>
#include <stdlib.h>

static uint64_t seed;
static long calls_done, calls_wanted = 100000;

/* A number below most; 0 where most is 0. */
static uint32_t below(uint32_t most) {
    seed = seed * 6364136223846793005u + 1442695040888963407u;
    return most == 0 ? 0 : (uint32_t)((seed >> 33) % most);
}

static void stop(const char *what, uint32_t found) {
    printf("violation after %ld calls: %s (%u)\n", calls_done, what, found);
    exit(1);
}

#endif

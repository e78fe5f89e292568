/* What the benches in C end by where something does not hold. */
#ifndef WALLTHYME_BENCH_MUST_H
#define WALLTHYME_BENCH_MUST_H

#include <stdio.h>
#include <stdlib.h>

static inline void must(int holds, const char *what)
{
    if (!holds) {
        fprintf(stderr, "failed: %s\n", what);
        exit(1);
    }
}

#endif

/* Counting what is tested and what does not hold. */
#ifndef EXPECT_H
#define EXPECT_H

#include "reference.h"
#include <stdio.h>

static size_t tests, failures;

static inline void expect(bool holds, const char *what, const char *which) {
    tests++;
    if (holds)
        return;
    failures++;
    if (failures <= 20)
        printf("reference: %s: %s does not hold\n", which, what);
}

static inline bool is(towhepamu_checked answer, uint64_t refusal, uint64_t place) {
    return answer.refusal == refusal && answer.place == place;
}

#endif

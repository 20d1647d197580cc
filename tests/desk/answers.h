/* What the parts of the reference answer with. */
#ifndef ANSWERS_H
#define ANSWERS_H

#include "reference.h"

static const towhepamu_checked accepted = {TOWHEPAMU_ACCEPTED, 0};

static inline towhepamu_checked refused(enum towhepamu_refusal refusal, uint64_t place) {
    return (towhepamu_checked){refusal, place};
}

static inline bool passes(towhepamu_checked test) {
    return test.refusal == TOWHEPAMU_ACCEPTED;
}

static inline towhepamu_planned unplanned(towhepamu_checked why) {
    return (towhepamu_planned){why.refusal, why.place, 0, 0, 0};
}

static inline size_t smaller(size_t a, size_t b) {
    return a < b ? a : b;
}

#endif

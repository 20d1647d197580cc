/* Numbers drawn from a fixed seed (xorshift64*), the same in every run. */
#ifndef DRAW_H
#define DRAW_H

#include <stdbool.h>
#include <stdint.h>

typedef struct {
    uint64_t state; /* not 0 */
} generator;

/* 0 up to, but without, `below`, which is not 0. */
static inline uint64_t draw(generator *g, uint64_t below) {
    g->state ^= g->state >> 12;
    g->state ^= g->state << 25;
    g->state ^= g->state >> 27;
    return (g->state * UINT64_C(2685821657736338717) >> 16) % below;
}

static inline uint64_t draw_between(generator *g, uint64_t least, uint64_t most) {
    return least + draw(g, most - least + 1);
}

static inline bool one_in(generator *g, uint64_t n) {
    return draw(g, n) == 0;
}

#endif

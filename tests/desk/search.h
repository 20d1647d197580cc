/*
 * The best plan by tables over sets of tasks: what its two parts share, the tables (planners.c) and
 * the levels of one set on one core (levels.c). A set is a bit mask.
 *
 * A value is a cost and, of the plan that has it, the choices as digits in base 33, task 1 first.
 * Ordered by cost and then key, the least value is the plan that the paper asks for. Values of
 * tasks on different cores add up part by part, so the least value of a whole is the least sum of
 * its parts.
 *
 * A core with a kept task begins with the idle energy of the whole span, and each task takes away
 * that of its busy ticks. So a task may add less than nothing to a core's cost.
 */
#ifndef SEARCH_H
#define SEARCH_H

#include "reference.h"

enum { MOST_SETS = 1 << MOST_TASKS, BASE = MOST_CORES * MOST_LEVELS + 1 };

typedef struct {
    int64_t cost;
    uint64_t key;
} value;

/* Costs from MOST_COST on stand for none: no plan has one, `none` less what twelve tasks take away
   is still above it, and no sum of two overflows. */
#define MOST_COST (INT64_C(1) << 60)
static const value nothing = {0, 0};
static const value none = {INT64_C(1) << 61, 0};

typedef struct {
    const reference_instance *in;
    uint64_t digit[MOST_TASKS];              /* what 1 as a task's choice adds to a key */
    uint64_t ticks[MOST_TASKS][MOST_LEVELS]; /* of a job */
    value option[MOST_TASKS][MOST_LEVELS];   /* what a task at a level adds to an awake core 1 */
    value awake;                             /* what such a core begins with */
    value alone[MOST_SETS];                  /* at most the least of running that set on core 1 */
    value best[MOST_SETS];                   /* the least on all cores so far, by `alone` */
} search;

static inline value plus(value a, value b) {
    return (value){a.cost + b.cost, a.key + b.key};
}

static inline bool comes_before(value a, value b) {
    return a.cost < b.cost || (a.cost == b.cost && a.key < b.key);
}

static inline void keep_lesser(value *kept, value other) {
    if (comes_before(other, *kept))
        *kept = other;
}

/* A level at which a job takes longer than it may is never used; its option is nothing, since its
   cost might overflow. */
static inline bool is_usable(const search *s, size_t task, size_t level) {
    return s->ticks[task][level] <= s->in->task[task].deadline;
}

static inline size_t first_of(size_t set) {
    size_t task = 0;
    while ((set >> task & 1) == 0)
        task++;
    return task;
}

/* A bound on costs that is a sum over tasks: what running a set on core 1 costs is at least what
   each task of the set is charged, less one amount. Charges are SCALE times as large as costs. */
enum { SCALE = 1024 };

typedef struct {
    int64_t of_task[MOST_TASKS], less;
} charges;

/* What every value of running that set on core 1 comes to at least. */
value charged_at_least(const search *s, const charges *by, size_t set);

/* The least value of running that set on core 1, and charges that are large for it; `none`, and no
   charges, where it does not fit at any levels. */
value least_alone(const search *s, size_t set, charges *by);

#endif

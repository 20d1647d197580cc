/* A second planner, which tries every plan and shares with the first one nothing but the prices and
   the test of a plan. */
#include "answers.h"

/* Plans are tried in the order of their first differing choice; of equal costs the first stays.
   Whether the cores fit takes longest to find, so that it is asked last. */
static void try_from(const reference_instance *in, size_t task, uint8_t *plan, uint64_t *least,
                     uint8_t *best) {
    if (task < in->tasks) {
        for (uint8_t choice = 0; choice <= in->cores * in->levels; choice++) {
            plan[task] = choice;
            try_from(in, task + 1, plan, least, best);
        }
        return;
    }
    uint64_t cost = reference_amounts(in, plan).cost;
    if (cost < *least && passes(reference_test_plan(in, plan, in->tasks))) {
        *least = cost;
        for (size_t i = 0; i < in->tasks; i++)
            best[i] = plan[i];
    }
}

bool reference_best_exhaustive(const reference_instance *in, uint8_t plan[MOST_TASKS]) {
    uint8_t tried[MOST_TASKS] = {0};
    uint64_t least = UINT64_MAX;
    try_from(in, 0, tried, &least, plan);
    return least < UINT64_MAX;
}

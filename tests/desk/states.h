/* States of a core's dispatching, possible and not, and prepared cores that are damaged. */
#ifndef STATES_H
#define STATES_H

#include "drawings.h"

/* About the ticks of a job of a task at its level, or few, or any; mostly none where the plan does
   not keep the task on that core. */
static inline uint32_t draw_left(generator *g, const reference_instance *in, const drawing *given,
                                 size_t task, size_t core) {
    bool kept = task < in->tasks && task < given->plan_len && given->plan[task] != 0 &&
                given->plan[task] <= in->cores * in->levels &&
                reference_runs_on(in, given->plan, task, core);
    if (!kept)
        return one_in(g, 40) ? 1 : 0;
    uint64_t ticks = reference_ticks(in, task, reference_level_of(in, given->plan[task]));
    switch (draw(g, 8)) {
    case 0:
        return (uint32_t)(ticks + (one_in(g, 6) ? 1 : 0));
    case 1:
        return one_in(g, 20) ? UINT32_MAX : 0;
    default:
        return (uint32_t)draw(g, ticks + 1);
    }
}

static inline towhepamu_state draw_state(generator *g, const reference_instance *in,
                                         const drawing *given, size_t core) {
    towhepamu_state state = {0};
    state.tick = (uint32_t)(one_in(g, 16) ? in->span + draw(g, 2) : draw(g, in->span));
    for (size_t i = 0; i < MOST_TASKS; i++)
        state.left[i] = draw_left(g, in, given, i, core);
    state.last = (uint32_t)draw(g, in->tasks + (one_in(g, 8) ? 3 : 1));
    if (one_in(g, 40))
        state.last = UINT32_MAX;
    return state;
}

/* More tasks than places, a number out of order or out of range, a period of 0. */
static inline void damage_core(generator *g, towhepamu_core *core) {
    size_t tasks = core->tasks, at = tasks == 0 ? 0 : draw(g, tasks);
    switch (draw(g, tasks == 0 ? 1 : 4)) {
    case 0:
        core->tasks = one_in(g, 2) ? MOST_TASKS + 1 : SIZE_MAX;
        break;
    case 1:
        core->numbers[at] = one_in(g, 2) ? 0 : MOST_TASKS + 1;
        break;
    case 2:
        core->numbers[at] = at == 0 ? 0 : core->numbers[at - 1];
        break;
    default:
        core->periods[at] = 0;
    }
}

#endif

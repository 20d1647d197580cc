/* What a plan's choices name; refusals 7 and 8; prices. */
#include "answers.h"

/* ---- What choices name ---- */

uint64_t reference_jobs(const reference_instance *in, size_t task) {
    return in->span / in->task[task].period;
}

/* Job j, from 0, is due at j x period + deadline. */
uint64_t reference_jobs_due(const reference_instance *in, size_t task, uint64_t tick) {
    uint32_t period = in->task[task].period, deadline = in->task[task].deadline;
    return tick < deadline ? 0 : (tick - deadline) / period + 1;
}

bool reference_has_early(const reference_instance *in) {
    for (size_t i = 0; i < in->tasks; i++)
        if (in->task[i].deadline < in->task[i].period)
            return true;
    return false;
}

uint64_t reference_ticks(const reference_instance *in, size_t task, size_t level) {
    uint32_t cycles = in->task[task].cycles, speed = in->level[level].speed;
    return cycles / speed + (cycles % speed != 0) + in->start_ticks;
}

size_t reference_core_of(const reference_instance *in, uint8_t choice) {
    return (size_t)(choice - 1) / in->levels;
}

size_t reference_level_of(const reference_instance *in, uint8_t choice) {
    return (size_t)(choice - 1) % in->levels;
}

bool reference_runs_on(const reference_instance *in, const uint8_t *plan, size_t task,
                       size_t core) {
    return plan[task] != 0 && reference_core_of(in, plan[task]) == core;
}

/* ---- Refusals 7 and 8 ---- */

towhepamu_checked reference_test_choices(const reference_instance *in, const uint8_t *plan,
                                         size_t plan_len) {
    if (plan_len != in->tasks)
        return refused(TOWHEPAMU_CHOICES, smaller(plan_len, in->tasks));
    for (size_t i = 0; i < in->tasks; i++)
        if (plan[i] > in->cores * in->levels || (plan[i] == 0 && in->task[i].penalty == MUST))
            return refused(TOWHEPAMU_CHOICES, i);
    return accepted;
}

uint64_t reference_overdue(const reference_instance *in, const uint8_t *plan, size_t core) {
    uint64_t due_at[MOST_SPAN + 1], due = 0; /* ticks of the jobs due then, and by then */
    for (uint32_t t = 0; t <= in->span; t++)
        due_at[t] = 0;
    for (size_t i = 0; i < in->tasks; i++)
        if (reference_runs_on(in, plan, i, core))
            for (uint32_t t = in->task[i].deadline; t <= in->span; t += in->task[i].period)
                due_at[t] += reference_ticks(in, i, reference_level_of(in, plan[i]));
    uint64_t tick = 0, most = 0;
    for (uint32_t t = 1; t <= in->span; t++) {
        due += due_at[t];
        if (due > t && (tick == 0 || due * tick > most * t)) {
            tick = t;
            most = due;
        }
    }
    return tick;
}

towhepamu_checked reference_test_plan(const reference_instance *in, const uint8_t *plan,
                                      size_t plan_len) {
    towhepamu_checked test = reference_test_choices(in, plan, plan_len);
    for (size_t c = 0; passes(test) && c < in->cores; c++)
        if (reference_overdue(in, plan, c) != 0)
            test = refused(TOWHEPAMU_OVERLOAD, c + 1);
    return test;
}

/* ---- Prices ---- */

/* A core with a kept task draws idle power in the ticks that its jobs leave of the span; one
   without is off. A job takes at least one tick, so that a load of 0 is that of no task. */
towhepamu_planned reference_amounts(const reference_instance *in, const uint8_t *plan) {
    uint64_t energy = 0, penalty = 0, load[MOST_CORES] = {0};
    for (size_t i = 0; i < in->tasks; i++) {
        uint64_t jobs = reference_jobs(in, i);
        if (plan[i] == 0) {
            penalty += jobs * in->task[i].penalty;
        } else {
            size_t level = reference_level_of(in, plan[i]);
            uint64_t busy = jobs * reference_ticks(in, i, level);
            load[reference_core_of(in, plan[i])] += busy;
            energy += busy * in->level[level].power;
        }
    }
    for (size_t c = 0; c < in->cores; c++)
        if (load[c] > 0)
            energy += in->idle_power * (in->span - load[c]);
    uint64_t cost = in->energy_weight * energy + in->penalty_weight * penalty;
    return (towhepamu_planned){TOWHEPAMU_ACCEPTED, 0, energy, penalty, cost};
}

towhepamu_planned reference_price(const reference_instance *in, const uint8_t *plan,
                                  size_t plan_len) {
    towhepamu_checked test = reference_test_plan(in, plan, plan_len);
    return passes(test) ? reference_amounts(in, plan) : unplanned(test);
}

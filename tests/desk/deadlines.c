/* Deadlines of a site, close to the edges: about what a job takes, about what some plan just meets,
   short ones and any. */
#include "generate.h"

static uint32_t clamp(uint64_t number, uint32_t most) {
    return number < 1 ? 1 : number > most ? most : (uint32_t)number;
}

/* One less, the same, or one more; mostly the same. */
static uint32_t about(generator *g, uint64_t number, uint32_t most) {
    return clamp(number + (one_in(g, 4) ? draw(g, 3) : 1) - 1, most);
}

/* ---- One by one ---- */

typedef enum { ANY, SHORT, ABOUT_ITS_TICKS, KINDS } deadline_kind;

static uint32_t draw_deadline(generator *g, const reference_instance *in, size_t task,
                              deadline_kind kind) {
    uint32_t period = in->task[task].period;
    switch (kind) {
    case SHORT:
        return (uint32_t)draw_between(g, 1, 1 + period / 8);
    case ABOUT_ITS_TICKS: /* at a level, which one tick less rules out */
        return about(g, reference_ticks(in, task, draw(g, in->levels)), period);
    default:
        return (uint32_t)draw_between(g, 1, period);
    }
}

/* ---- By a plan ---- */

/* From a release of the task to the end of the slots of its job, at most. */
static uint32_t longest_answer(const reference_instance *in, size_t task, const uint8_t *row) {
    uint32_t longest = 0, period = in->task[task].period;
    for (uint32_t t = 0; t < in->span; t++)
        if (row[t] == task + 1 && t % period + 1 > longest)
            longest = t % period + 1;
    return longest;
}

/* Any plan that fits with whole periods; tasks are refused until it does. */
static void draw_fitting(generator *g, const reference_instance *in, uint8_t *plan,
                         uint8_t *table) {
    bool fast = one_in(g, 2);
    for (size_t i = 0; i < in->tasks; i++) {
        uint64_t level = fast ? in->levels - 1 : draw(g, in->levels);
        plan[i] = (uint8_t)(1 + draw(g, in->cores) * in->levels + level);
    }
    while (reference_tabulate(in, plan, in->tasks, table, TOWHEPAMU_MOST_TABLE_BYTES).refusal !=
           TOWHEPAMU_ACCEPTED)
        plan[draw(g, in->tasks)] = 0;
}

void draw_just_met(generator *g, reference_instance *in) {
    uint8_t plan[MOST_TASKS], table[TOWHEPAMU_MOST_TABLE_BYTES];
    reference_instance all_refusable = *in;
    for (size_t i = 0; i < in->tasks; i++)
        all_refusable.task[i].penalty = 1;
    draw_fitting(g, &all_refusable, plan, table);
    for (size_t i = 0; i < in->tasks; i++)
        if (plan[i] != 0) {
            const uint8_t *row = table + reference_core_of(in, plan[i]) * in->span;
            in->task[i].deadline = about(g, longest_answer(in, i, row), in->task[i].period);
        } else {
            in->task[i].deadline = draw_deadline(g, in, i, ABOUT_ITS_TICKS);
        }
}

deadlines_written draw_deadlines(generator *g, reference_instance *in) {
    for (size_t i = 0; i < in->tasks; i++)
        in->task[i].deadline = in->task[i].period;
    if (one_in(g, 2))
        return one_in(g, 4) ? NO_DEADLINES : LIST_ENDS;
    if (in->tasks > 0 && one_in(g, 2)) {
        draw_just_met(g, in);
    } else {
        deadline_kind kind = (deadline_kind)draw(g, KINDS);
        for (size_t i = 0; i < in->tasks; i++)
            in->task[i].deadline = draw_deadline(g, in, i, kind);
    }
    bool some = one_in(g, 3); /* the others keep their whole period */
    for (size_t i = 0; some && i < in->tasks; i++)
        if (one_in(g, 2))
            in->task[i].deadline = in->task[i].period;
    return EACH_DEADLINE;
}

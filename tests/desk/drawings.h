/* Plans with their tables, sound and damaged, drawn at random for the check. */
#ifndef DRAWINGS_H
#define DRAWINGS_H

#include "generate.h"
#include <string.h>

enum { SLACK = 40, MOST_GIVEN = TOWHEPAMU_MOST_TABLE_BYTES + SLACK };

typedef struct {
    uint8_t plan[MOST_GIVEN], table[MOST_GIVEN];
    size_t plan_len, table_len;
} drawing;

static inline uint8_t draw_choice(generator *g, const reference_instance *in) {
    return (uint8_t)draw(g, in->cores * in->levels + (one_in(g, 4) ? 2 : 1));
}

static inline uint8_t draw_slot(generator *g, const reference_instance *in) {
    return (uint8_t)(one_in(g, 8) ? draw(g, 256) : draw(g, in->tasks + 1));
}

/* Any plan, with its table if its cores fit, else with any table. */
static inline void draw_drawing(generator *g, const reference_instance *in, drawing *given) {
    given->plan_len = in->tasks;
    given->table_len = in->cores * in->span;
    for (size_t i = 0; i < given->plan_len; i++)
        given->plan[i] = draw_choice(g, in);
    for (size_t s = 0; s < given->table_len; s++)
        given->table[s] = one_in(g, 2) ? 0 : draw_slot(g, in);
    reference_tabulate(in, given->plan, given->plan_len, given->table, given->table_len);
}

static inline void swap_slots(drawing *given, size_t a, size_t b) {
    uint8_t slot = given->table[a];
    given->table[a] = given->table[b];
    given->table[b] = slot;
}

/* Moves a slot of a job behind its due tick, where its task has an early one. */
static inline void make_late(generator *g, const reference_instance *in, drawing *given,
                             size_t at) {
    uint8_t task = given->table[at];
    if (task == 0 || task > in->tasks)
        return;
    const reference_task *of = &in->task[task - 1];
    size_t release = at - at % in->span % of->period;
    if (of->deadline < of->period)
        swap_slots(given, at, release + draw_between(g, of->deadline, of->period - 1));
}

static inline void damage_drawing(generator *g, const reference_instance *in, drawing *given) {
    size_t slots = in->cores * in->span, at = draw(g, slots);
    switch (draw(g, 9)) {
    case 0:
        given->plan_len = draw(g, in->tasks + 3);
        break;
    case 1:
        given->table_len = one_in(g, 2) ? draw(g, slots) : slots + draw(g, SLACK);
        break;
    case 2: /* often a table that passes and does not run the earliest due first */
        swap_slots(given, at, (at + 1) % slots);
        break;
    case 3:
        swap_slots(given, at, draw(g, slots));
        break;
    case 4:
        memset(given->table + at, 0, slots - at);
        break;
    case 5:
        make_late(g, in, given, at);
        break;
    case 6:
    case 7:
        at = draw(g, in->tasks + 1);
        given->plan[at] = draw_choice(g, in); /* sometimes of no task */
        break;
    default:
        given->table[at] = draw_slot(g, in);
    }
}

#endif

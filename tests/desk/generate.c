/* Sites, but for their deadlines. */
#include "generate.h"

static uint32_t between(generator *g, uint32_t least, uint32_t most) {
    return (uint32_t)draw_between(g, least, most);
}

static uint32_t clamp(uint64_t number, uint32_t least, uint32_t most) {
    return number < least ? least : number > most ? most : (uint32_t)number;
}

/* ---- Sites ---- */

static void draw_levels(generator *g, reference_instance *in) {
    static const reference_level xscale[] = {
        {150, 80}, {400, 170}, {600, 400}, {800, 900}, {1000, 1600}};
    bool proportional = one_in(g, 4), wide = one_in(g, 2), known = in->levels <= 5 && one_in(g, 4);
    uint32_t step = wide && !proportional ? 65535 / in->levels : 3, factor = between(g, 1, 5);
    reference_level below = {0, 0};
    for (size_t l = 0; l < in->levels; l++) {
        reference_level *level = &in->level[l];
        level->speed = below.speed + between(g, 1, step);
        level->power = below.power + between(g, 1, step);
        if (proportional)
            level->power = factor * level->speed;
        if (known)
            *level = xscale[l];
        below = *level;
    }
}

static uint32_t draw_idle_power(generator *g, const reference_instance *in) {
    uint32_t top = in->level[in->levels - 1].power, some = in->level[draw(g, in->levels)].power;
    switch (draw(g, 5)) {
    case 0:
        return 0;
    case 1:
        return between(g, 1, 5);
    case 2: /* a level then draws as much, or one more or less */
        return clamp((uint64_t)some + draw(g, 3), 1, 65536) - 1;
    case 3:
        return clamp((uint64_t)top + between(g, 1, 2 * top), 1, 65535);
    default:
        return 65535 - (uint32_t)draw(g, 2);
    }
}

static uint32_t draw_start_ticks(generator *g, const reference_instance *in) {
    switch (draw(g, 8)) {
    case 0:
        return 0;
    case 1: /* as many as a period has, give or take one */
        return clamp((uint64_t)in->span + draw(g, 3), 1, 1001) - 1;
    case 2:
        return between(g, 999, 1000);
    case 3:
        return between(g, 1, 1 + in->span / 4 % 1000);
    default:
        return between(g, 1, 3);
    }
}

static uint32_t draw_span(generator *g, uint32_t most) {
    static const uint32_t spans[] = {1,   2,   3,   4,    6,    8,    10,   12,   20,   24,
                                     30,  36,  60,  64,   96,   100,  120,  180,  240,  360,
                                     512, 720, 840, 1024, 1440, 2048, 2520, 3600, 4095, 4096};
    size_t count = 0;
    while (count < sizeof spans / sizeof spans[0] && spans[count] <= most)
        count++;
    return spans[draw(g, count)];
}

static uint32_t draw_divisor(generator *g, uint32_t number) {
    if (one_in(g, 3))
        return number;
    uint32_t divisor = between(g, 1, number);
    while (number % divisor != 0)
        divisor++;
    return divisor;
}

/* Cycles that take about that many ticks at a level, often exactly. */
static uint32_t draw_cycles(generator *g, uint64_t ticks, uint32_t speed) {
    return clamp(ticks * speed - (one_in(g, 2) ? 0 : draw(g, speed)), 1, 100000000);
}

/* What a job adds to the energy: on a core by itself, or on one that is awake anyway. */
static uint64_t draw_energy(generator *g, const reference_instance *in, const reference_task *task,
                            const reference_level *level) {
    uint64_t ticks = (task->cycles + level->speed - 1) / level->speed + in->start_ticks;
    uint64_t busy = ticks * level->power, idle = in->idle_power;
    if (one_in(g, 2))
        return busy + (ticks < task->period ? idle * (task->period - ticks) : 0);
    return busy > idle * ticks ? busy - idle * ticks : 0;
}

/* Often just what keeping the task costs at some level, give or take one. */
static uint32_t draw_penalty(generator *g, const reference_instance *in,
                             const reference_task *task) {
    uint64_t energy = draw_energy(g, in, task, &in->level[draw(g, in->levels)]);
    switch (draw(g, 6)) {
    case 0:
        return between(g, 1, 100);
    case 1:
        return one_in(g, 2) ? 1 : 1000000;
    default:
        energy = energy * in->energy_weight / in->penalty_weight;
        return clamp(energy + draw(g, 3), 2, 1000001) - 1;
    }
}

/* Tasks drawn one by one. `heavy` from 1 (light) to 8 (many fit at no level). */
static void draw_tasks(generator *g, reference_instance *in, uint32_t heavy) {
    uint32_t musts = between(g, 0, 4);
    for (size_t i = 0; i < in->tasks; i++) {
        reference_task *task = &in->task[i];
        if (i > 0 && one_in(g, 4)) {
            *task = in->task[draw(g, i)];
            continue;
        }
        task->period = draw_divisor(g, in->span);
        uint64_t ticks = draw_between(g, 1, 1 + (uint64_t)task->period * heavy / 4);
        uint32_t speed = in->level[one_in(g, 2) ? in->levels - 1 : draw(g, in->levels)].speed;
        task->cycles = draw_cycles(g, ticks, speed);
        task->penalty = draw(g, 4) < musts ? MUST : draw_penalty(g, in, task);
    }
}

/* Tasks that fill some cores to the last tick at top speed; sometimes one cycle too many. */
static void draw_full_cores(generator *g, reference_instance *in) {
    uint32_t room[MOST_CORES], top = in->level[in->levels - 1].speed;
    for (size_t c = 0; c < in->cores; c++)
        room[c] = in->span;
    for (size_t i = 0; i < in->tasks; i++) {
        reference_task *task = &in->task[i];
        uint32_t *core = &room[draw(g, in->cores)];
        task->period = draw_divisor(g, in->span);
        uint32_t jobs = in->span / task->period, most = *core / jobs;
        uint32_t ticks = most == 0 ? 1 : one_in(g, 2) ? most : between(g, 1, most);
        *core -= most == 0 ? 0 : jobs * ticks;
        uint32_t start = ticks > in->start_ticks ? in->start_ticks : 0;
        task->cycles = clamp((uint64_t)(ticks - start) * top, 1, 100000000);
        task->penalty = one_in(g, 8) ? draw_penalty(g, in, task) : MUST;
    }
    if (in->tasks > 0 && one_in(g, 3)) {
        uint32_t *cycles = &in->task[draw(g, in->tasks)].cycles;
        *cycles = clamp(*cycles + 1, 1, 100000000);
    }
}

size_t draw_site(generator *g, site_limits limits, uint32_t *words) {
    reference_instance in;
    bool weighted = one_in(g, 4);
    in.energy_weight = weighted ? between(g, 1, 1000) : 1;
    in.penalty_weight = weighted ? between(g, 1, 1000) : 1;
    in.cores = between(g, 1, limits.most_cores);
    in.levels = between(g, 1, limits.most_levels);
    in.tasks = between(g, limits.least_tasks, limits.most_tasks);
    in.span = draw_span(g, limits.most_span);
    draw_levels(g, &in);
    written_as as = {one_in(g, 2) ? 3 : between(g, 4, 5), LIST_ENDS};
    in.idle_power = as.settings >= 4 ? draw_idle_power(g, &in) : 0;
    in.start_ticks = as.settings >= 5 ? draw_start_ticks(g, &in) : 0;
    if (one_in(g, 4))
        draw_full_cores(g, &in);
    else
        draw_tasks(g, &in, between(g, 1, 8));
    as.deadlines = draw_deadlines(g, &in);
    return list_words(&in, as, words);
}

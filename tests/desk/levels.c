/*
 * The least value of one set of tasks on one core: every combination of levels is tried, but for
 * those that cannot come before one that was found.
 *
 * What rules most of them out is weak duality. Let ticks have weights, and charge a task at a level
 * its cost and, for each of these ticks, the weight times what it has due by then. On a core that
 * fits no more is due by a tick than has passed, so that all charges less the weights times their
 * ticks are at most the cost; and they are least where each task is charged least, by itself.
 * Whatever the weights, that is a bound. Good ones are looked for in steps: up for a tick by which
 * too much is due at the levels that are charged least, down for one by which there is room.
 */
#include "search.h"
#include <string.h>

enum { MOST_TICKS = 32, MOST_STEPS = 600, MOST_VAIN_STEPS = 10 };

/* No sum of charges overflows: weights of 32 ticks, by each of which 4,096 are due, of 12 tasks. */
static const double most_weight = 1e12;

typedef struct {
    const search *s;
    size_t set;
    uint8_t plan[MOST_TASKS]; /* on core 1 */
    size_t ticks;             /* how many have a weight */
    uint64_t tick[MOST_TICKS];
    int64_t weight[MOST_TICKS];
    int64_t at[MOST_TASKS][MOST_LEVELS]; /* what a task is charged at a level */
    value least;                         /* found so far */
} trial;

/* ---- Charges ---- */

static void charge(trial *t) {
    for (size_t i = 0; i < t->s->in->tasks; i++) {
        int64_t of_tick = 0;
        for (size_t n = 0; n < t->ticks; n++)
            of_tick += t->weight[n] * (int64_t)reference_jobs_due(t->s->in, i, t->tick[n]);
        for (size_t l = 0; l < t->s->in->levels; l++)
            if (is_usable(t->s, i, l))
                t->at[i][l] =
                    SCALE * t->s->option[i][l].cost + of_tick * (int64_t)t->s->ticks[i][l];
    }
}

/* The usable level at which a task is charged least. */
static size_t least_charged(const trial *t, size_t task) {
    size_t least = t->s->in->levels - 1;
    for (size_t l = least; l-- > 0;)
        if (is_usable(t->s, task, l) && t->at[task][l] < t->at[task][least])
            least = l;
    return least;
}

static charges least_charges(const trial *t) {
    charges least = {{0}, 0};
    for (size_t n = 0; n < t->ticks; n++)
        least.less += t->weight[n] * (int64_t)t->tick[n];
    for (size_t i = 0; i < t->s->in->tasks; i++)
        least.of_task[i] = t->at[i][least_charged(t, i)];
    return least;
}

/* Not less than a quotient, and a whole number. */
static int64_t divided(int64_t charge) {
    return charge / SCALE + (charge % SCALE > 0);
}

static int64_t charge_of(const charges *by, size_t set) {
    int64_t sum = -by->less;
    for (size_t rest = set; rest != 0; rest &= rest - 1)
        sum += by->of_task[first_of(rest)];
    return sum;
}

/* With the key of the slowest levels, which is the lowest. */
value charged_at_least(const search *s, const charges *by, size_t set) {
    value least = {s->awake.cost + divided(charge_of(by, set)), 0};
    for (size_t rest = set; rest != 0; rest &= rest - 1)
        least.key += s->digit[first_of(rest)];
    return least;
}

/* ---- Weights ---- */

static void choose_least_charged(trial *t) {
    for (size_t rest = t->set; rest != 0; rest &= rest - 1)
        t->plan[first_of(rest)] = (uint8_t)(1 + least_charged(t, first_of(rest)));
}

static void choose_fastest(trial *t) {
    for (size_t rest = t->set; rest != 0; rest &= rest - 1)
        t->plan[first_of(rest)] = (uint8_t)t->s->in->levels;
}

static value value_of(const trial *t) {
    value sum = t->s->awake;
    for (size_t rest = t->set; rest != 0; rest &= rest - 1)
        sum = plus(sum, t->s->option[first_of(rest)][t->plan[first_of(rest)] - 1u]);
    return sum;
}

/* How much more is due by a tick than has passed. */
static int64_t excess(const trial *t, uint64_t tick) {
    int64_t due = -(int64_t)tick;
    for (size_t rest = t->set; rest != 0; rest &= rest - 1) {
        size_t task = first_of(rest), level = t->plan[task] - 1u;
        due += (int64_t)(reference_jobs_due(t->s->in, task, tick) * t->s->ticks[task][level]);
    }
    return due;
}

static void remember(trial *t, uint64_t tick) {
    for (size_t n = 0; n < t->ticks; n++)
        if (t->tick[n] == tick)
            return;
    if (t->ticks < MOST_TICKS) {
        t->tick[t->ticks] = tick;
        t->weight[t->ticks++] = 0;
    }
}

/* Moves each weight in proportion to what is too much by its tick, all of them as far as would gain
   that much if no level changed. False where there is nothing to move or to gain. */
static bool move_weights(trial *t, double gain) {
    double all = 0;
    for (size_t n = 0; n < t->ticks; n++) {
        double more = (double)excess(t, t->tick[n]);
        if (more > 0 || t->weight[n] > 0)
            all += more * more;
    }
    if (all == 0 || gain <= 0)
        return false;
    for (size_t n = 0; n < t->ticks; n++) {
        double moved = (double)t->weight[n] + gain / all * (double)excess(t, t->tick[n]);
        t->weight[n] = (int64_t)(moved < 0 ? 0 : moved > most_weight ? most_weight : moved);
    }
    return true;
}

/* Looks for weights with which the charges are large. Levels that fit are found on the way. */
static void find_weights(trial *t) {
    int64_t best[MOST_TICKS] = {0};
    value most = {INT64_MIN, 0};
    double part = 1;
    for (size_t step = 0, vain = 0; step < MOST_STEPS; step++) {
        charge(t);
        charges by = least_charges(t);
        value sum = charged_at_least(t->s, &by, t->set);
        if (comes_before(most, sum)) {
            most = sum;
            memcpy(best, t->weight, sizeof best);
            vain = 0;
        } else if (++vain == MOST_VAIN_STEPS) {
            part /= 2;
            vain = 0;
        }
        choose_least_charged(t);
        uint64_t tick = reference_overdue(t->s->in, t->plan, 0);
        if (tick == 0)
            keep_lesser(&t->least, value_of(t));
        else
            remember(t, tick);
        if (!move_weights(t, part * SCALE * (double)(t->least.cost - sum.cost)))
            break;
    }
    memcpy(t->weight, best, sizeof best);
    charge(t);
}

/* ---- Every level ---- */

/* `open` are the tasks that are not decided: they stand in the plan at the fastest level, and are
   charged least in `charged`. */
static void try_levels(trial *t, size_t open, value so_far, int64_t charged) {
    const search *s = t->s;
    value lowest = {s->awake.cost + divided(charged), so_far.key};
    for (size_t rest = open; rest != 0; rest &= rest - 1)
        lowest.key += s->digit[first_of(rest)];
    if (!comes_before(lowest, t->least) ||
        !comes_before(plus(so_far, open == 0 ? s->awake : s->alone[open]), t->least) ||
        reference_overdue(s->in, t->plan, 0) != 0)
        return;
    if (open == 0) {
        t->least = plus(so_far, s->awake);
        return;
    }
    size_t task = first_of(open), first = least_charged(t, task);
    for (size_t n = 0; n < s->in->levels; n++) {
        size_t l = (first + n) % s->in->levels;
        if (is_usable(s, task, l)) {
            t->plan[task] = (uint8_t)(l + 1);
            try_levels(t, open & (open - 1), plus(so_far, s->option[task][l]),
                       charged + t->at[task][l] - t->at[task][first]);
        }
    }
    t->plan[task] = (uint8_t)s->in->levels;
}

value least_alone(const search *s, size_t set, charges *by) {
    trial t = {.s = s, .set = set};
    choose_fastest(&t);
    if (reference_overdue(s->in, t.plan, 0) != 0)
        return none;
    t.least = value_of(&t);
    find_weights(&t);
    *by = least_charges(&t);
    choose_fastest(&t);
    try_levels(&t, set, nothing, charge_of(by, set));
    return t.least;
}

/*
 * The best plan by tables over sets of tasks (search.h). One core's table begins with knapsacks by
 * load, which are right where all deadlines are the periods, and else lower values. A plan that is
 * least by such a table is the best one if each of its cores fits and has the table's value. If one
 * does not, the table is raised at that core's set to what is right, and the next plan is looked
 * at.
 */
#include "search.h"

static void list_options(search *s) {
    uint64_t digit = 1;
    for (size_t i = s->in->tasks; i-- > 0; digit *= BASE) {
        s->digit[i] = digit;
        for (size_t l = 0; l < s->in->levels; l++) {
            s->ticks[i][l] = reference_ticks(s->in, i, l);
            s->option[i][l] = nothing;
            if (is_usable(s, i, l)) {
                uint64_t busy = s->in->energy_weight * reference_jobs(s->in, i) * s->ticks[i][l];
                int64_t more = (int64_t)s->in->level[l].power - (int64_t)s->in->idle_power;
                s->option[i][l] = (value){(int64_t)busy * more, (l + 1) * digit};
            }
        }
    }
    s->awake = (value){(int64_t)s->in->energy_weight * s->in->idle_power * s->in->span, 0};
}

/* ---- One core ---- */

/*
 * within[w] is the least value of running the tasks of `set` on one core with load at most w. Each
 * of the first `open` tasks is left out and then put in, until all are decided.
 */
static void fill_knapsacks(search *s, size_t open, size_t set, const value *within) {
    size_t span = s->in->span;
    if (open == 0) {
        s->alone[set] = within[span];
        return;
    }
    size_t task = open - 1;
    fill_knapsacks(s, task, set, within);

    value with[MOST_SPAN + 1];
    size_t first = task == 0 ? span : 0; /* after the last task only the whole span is asked for */
    for (size_t w = first; w <= span; w++)
        with[w] = none;
    for (size_t l = 0; l < s->in->levels; l++) {
        uint64_t load = reference_jobs(s->in, task) * s->ticks[task][l];
        if (is_usable(s, task, l))
            for (size_t w = load > first ? load : first; w <= span; w++)
                keep_lesser(&with[w], plus(within[w - load], s->option[task][l]));
    }
    fill_knapsacks(s, task, set | (size_t)1 << task, with);
}

static void keep_greater(value *kept, value other) {
    if (comes_before(*kept, other))
        *kept = other;
}

/* Raises the table at a set to what is right, and at the others as far as its charges say. Where a
   set does not fit at any levels, no larger one does. */
static void raise_at(search *s, size_t set) {
    charges by;
    value least = least_alone(s, set, &by);
    s->alone[set] = least;
    for (size_t other = 1; other < (size_t)1 << s->in->tasks; other++)
        if (least.cost < MOST_COST)
            keep_greater(&s->alone[other], charged_at_least(s, &by, other));
        else if ((other & set) == set)
            s->alone[other] = none;
}

/* ---- All cores ---- */

/* Adds one more core: each set's tasks are parted between it and the cores so far. */
static void add_core(search *s, size_t core) {
    uint64_t moved[MOST_SETS]; /* what moving a set from core 1 to this core adds to its key */
    moved[0] = 0;
    for (size_t set = 1; set < (size_t)1 << s->in->tasks; set++)
        moved[set] = moved[set & (set - 1)] + core * s->in->levels * s->digit[first_of(set)];
    /* From the whole set down: a smaller set then still has its value without this core. */
    for (size_t set = (size_t)1 << s->in->tasks; set-- > 0;) {
        value least = s->best[set];
        for (size_t part = set; part != 0; part = (part - 1) & set) {
            value here = {s->alone[part].cost, s->alone[part].key + moved[part]};
            keep_lesser(&least, plus(here, s->best[set ^ part]));
        }
        s->best[set] = least;
    }
}

/* The penalty of refusing all tasks outside `set`; false where one of them may not be refused. */
static bool penalty_without(const reference_instance *in, size_t set, uint64_t *penalty) {
    *penalty = 0;
    for (size_t i = 0; i < in->tasks; i++) {
        if (set >> i & 1)
            continue;
        if (in->task[i].penalty == MUST)
            return false;
        *penalty += reference_jobs(in, i) * in->task[i].penalty;
    }
    return true;
}

static value choose(search *s) {
    value least = none;
    uint64_t penalty;
    s->best[0] = nothing; /* a core without a task is off */
    for (size_t set = 1; set < (size_t)1 << s->in->tasks; set++)
        s->best[set] = s->alone[set];
    for (size_t core = 1; core < s->in->cores; core++)
        add_core(s, core);
    for (size_t set = 0; set < (size_t)1 << s->in->tasks; set++)
        if (penalty_without(s->in, set, &penalty))
            keep_lesser(&least,
                        plus(s->best[set], (value){(int64_t)(s->in->penalty_weight * penalty), 0}));
    return least;
}

/* ---- Until the plan fits ---- */

/* Whether a core of the plan fits and has the value that the table has for its set. */
static bool is_settled(const search *s, const uint8_t *plan, size_t core, size_t set) {
    value sum = s->awake;
    for (size_t rest = set; rest != 0; rest &= rest - 1)
        sum = plus(sum, s->option[first_of(rest)][reference_level_of(s->in, plan[first_of(rest)])]);
    return sum.cost == s->alone[set].cost && reference_overdue(s->in, plan, core) == 0;
}

/* Raises the table for each core of the plan that is not settled; false where all are. */
static bool raise_for(search *s, const uint8_t *plan) {
    bool raised = false;
    for (size_t c = 0; c < s->in->cores; c++) {
        size_t set = 0;
        for (size_t i = 0; i < s->in->tasks; i++)
            set |= (size_t)reference_runs_on(s->in, plan, i, c) << i;
        if (set != 0 && !is_settled(s, plan, c, set)) {
            raise_at(s, set);
            raised = true;
        }
    }
    return raised;
}

bool reference_best(const reference_instance *in, uint8_t plan[MOST_TASKS]) {
    static search s;
    value within[MOST_SPAN + 1];
    s.in = in;
    list_options(&s);
    for (size_t w = 0; w <= in->span; w++)
        within[w] = s.awake;
    fill_knapsacks(&s, in->tasks, 0, within);
    do {
        value least = choose(&s);
        if (least.cost >= MOST_COST)
            return false;
        for (size_t i = 0; i < in->tasks; i++)
            plan[i] = (uint8_t)(least.key / s.digit[i] % BASE);
    } while (raise_for(&s, plan));
    return true;
}

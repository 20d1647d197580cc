/*
 * The reference's two planners against each other on small sites; its check against planned tables
 * and every kind of single damage to them; and its test of a core against every row.
 */
#include "expect.h"
#include "generate.h"
#include <string.h>

enum { SMALL_SITES = 24000, MOST_PLANS = 30000, TINY_SITES = 3000, TINY_SPAN = 6 };

/* Of the small sites with a plan: those with idle power, those with more than every level, those
   with start ticks that run a task, and those with a deadline before the period's end. */
static size_t with_idle_power, above_levels, with_start_ticks, with_deadlines;

/* Of the small sites that would have a plan with whole periods: those without one, those with
   another one; and of those that would have one without start ticks. */
static size_t unplanned_by_deadlines, planned_otherwise;
static size_t unplanned_by_start_ticks, otherwise_by_start_ticks;

/* Of the tiny sites, whose plans are tested with every row. */
static size_t cores_fit, cores_late;

/* ---- Damage ---- */

/* What one wrong slot of a table that passes must bring. */
static void test_damaged_slot(const reference_instance *in, const uint8_t *plan, uint8_t *table,
                              size_t slot, uint8_t wrong) {
    uint8_t right = table[slot];
    if (wrong == right)
        return;
    bool named = wrong == 0 ||
                 (wrong <= in->tasks && reference_runs_on(in, plan, wrong - 1u, slot / in->span));
    uint8_t lowest = right == 0 || (wrong != 0 && wrong < right) ? wrong : right;
    table[slot] = wrong;
    towhepamu_checked answer =
        reference_check_table(in, plan, in->tasks, table, in->cores * in->span);
    expect(named ? is(answer, 10, lowest) : is(answer, 9, slot), "refused", "a wrong slot");
    answer = reference_check_table_slots(in, plan, in->tasks, table, in->cores * in->span);
    expect(is(answer, named ? 0 : 9, named ? 0 : slot), "passes or not", "a slot");
    table[slot] = right;
}

/* What one wrong choice must bring; a level of equal ticks is not wrong. */
static void test_damaged_choice(const reference_instance *in, uint8_t *plan, const uint8_t *table,
                                size_t task, uint8_t wrong) {
    uint8_t right = plan[task];
    if (wrong == right)
        return;
    bool elsewhere =
        right == 0 || wrong == 0 || reference_core_of(in, right) != reference_core_of(in, wrong);
    bool slower = !elsewhere && reference_ticks(in, task, reference_level_of(in, right)) !=
                                    reference_ticks(in, task, reference_level_of(in, wrong));
    plan[task] = wrong;
    towhepamu_checked answer =
        reference_check_table(in, plan, in->tasks, table, in->cores * in->span);
    if (wrong > in->cores * in->levels || (wrong == 0 && in->task[task].penalty == MUST))
        expect(is(answer, 7, task), "refused", "a choice out of range");
    else if (right == 0 || slower)
        expect(is(answer, 10, task + 1), "refused", "a choice that has other ticks");
    else
        expect(answer.refusal == (elsewhere ? 9 : 0), "refused", "a choice elsewhere");
    plan[task] = right;
}

static void test_damage(generator *g, const reference_instance *in, uint8_t *plan, uint8_t *table) {
    size_t slots = in->cores * in->span;
    for (size_t n = 0; n < 10; n++) {
        size_t slot = draw(g, slots);
        uint64_t wrong = one_in(g, 4) ? draw(g, 256) : draw(g, in->tasks + 2);
        test_damaged_slot(in, plan, table, slot, (uint8_t)wrong);
    }
    for (size_t n = 0; n < 5 && in->tasks > 0; n++) {
        size_t task = draw(g, in->tasks);
        uint64_t wrong = draw(g, in->cores * in->levels + 2);
        test_damaged_choice(in, plan, table, task, (uint8_t)wrong);
    }
    size_t other = draw(g, slots);
    expect(is(reference_check_table(in, plan, in->tasks, table, other), 9, other), "refused",
           "a shorter table");
    expect(is(reference_check_table(in, plan, in->tasks + 1, table, other), 7, in->tasks),
           "refused", "a longer plan");
    expect(is(reference_check_table_slots(in, plan, in->tasks, table, other), 9, other), "refused",
           "slots of a shorter table");
    expect(is(reference_check_table_slots(in, plan, in->tasks + 1, table, other), 7, in->tasks),
           "refused", "slots for a longer plan");
}

/* ---- Small sites ---- */

static bool few_plans(const reference_instance *in) {
    uint64_t plans = 1;
    for (size_t i = 0; i < in->tasks; i++)
        plans *= 1 + in->cores * in->levels;
    return plans <= MOST_PLANS;
}

/* Counts what deadlines have changed. */
static void note_deadlines(const reference_instance *in, bool found, const uint8_t *plan) {
    uint8_t other[MOST_TASKS];
    reference_instance whole = *in;
    for (size_t i = 0; i < in->tasks; i++)
        whole.task[i].deadline = in->task[i].period;
    if (!reference_has_early(in) || !reference_best(&whole, other))
        return;
    with_deadlines += found;
    unplanned_by_deadlines += !found;
    planned_otherwise += found && memcmp(plan, other, in->tasks) != 0;
}

/* Counts what start ticks have changed. */
static void note_start_ticks(const reference_instance *in, bool found, const uint8_t *plan) {
    uint8_t other[MOST_TASKS];
    reference_instance without = *in;
    without.start_ticks = 0;
    if (in->start_ticks == 0 || !reference_best(&without, other))
        return;
    with_start_ticks += found && reference_amounts(in, plan).energy > 0;
    unplanned_by_start_ticks += !found;
    otherwise_by_start_ticks += found && memcmp(plan, other, in->tasks) != 0;
}

/* One small site: the same plan by both planners; its table passes, damaged it does not. */
static bool test_small_site(generator *g) {
    uint32_t words[MOST_INSTANCE_WORDS];
    reference_instance in;
    uint8_t plan[MOST_TASKS], other[MOST_TASKS], table[TOWHEPAMU_MOST_TABLE_BYTES];
    size_t count = draw_site(g, (site_limits){4, 6, 0, 12, 120}, words);
    expect(reference_read(words, count, &in).refusal == TOWHEPAMU_ACCEPTED, "reads", "a site");
    if (!few_plans(&in))
        return test_small_site(g);

    bool found = reference_best(&in, plan);
    expect(found == reference_best_exhaustive(&in, other), "both plan it or neither", "a site");
    note_deadlines(&in, found, plan);
    note_start_ticks(&in, found, plan);
    if (!found)
        return false;
    expect(memcmp(plan, other, in.tasks) == 0, "both answer the same plan", "a site");
    with_idle_power += in.idle_power > 0;
    above_levels += in.idle_power > in.level[in.levels - 1].power;
    expect(reference_tabulate(&in, plan, in.tasks, table, sizeof table).refusal == 0, "is tabled",
           "a plan");
    expect(is(reference_check_table(&in, plan, in.tasks, table, in.cores * in.span), 0, 0),
           "passes the check", "a table");
    test_damage(g, &in, plan, table);
    return true;
}

/* ---- Every row ---- */

/* Whether one of all rows of the only core passes the check. */
static bool some_row_passes(const reference_instance *in, const uint8_t *plan) {
    uint8_t row[TINY_SPAN] = {0};
    for (;;) {
        if (reference_check_table(in, plan, in->tasks, row, in->span).refusal == 0)
            return true;
        size_t t = 0;
        for (; t < in->span && row[t] == in->tasks; t++)
            row[t] = 0;
        if (t == in->span)
            return false;
        row[t]++;
    }
}

static void test_rows(generator *g) {
    uint32_t words[MOST_INSTANCE_WORDS];
    reference_instance in;
    uint8_t plan[MOST_TASKS], row[TINY_SPAN];
    size_t count = draw_site(g, (site_limits){1, 4, 1, 3, TINY_SPAN}, words);
    reference_read(words, count, &in);
    for (size_t i = 0; i < in.tasks; i++) {
        in.task[i].penalty = 1;
        plan[i] = (uint8_t)draw(g, in.levels + 1);
    }
    bool fits = reference_overdue(&in, plan, 0) == 0;
    expect(fits == some_row_passes(&in, plan), "some row serves exactly where it fits", "a core");
    if (fits) {
        reference_tabulate(&in, plan, in.tasks, row, in.span);
        expect(is(reference_check_table(&in, plan, in.tasks, row, in.span), 0, 0), "is served",
               "a core");
    }
    cores_fit += fits;
    cores_late += !fits;
}

int main(void) {
    generator g = {20240229};
    size_t planned = 0;
    for (size_t n = 0; n < SMALL_SITES; n++)
        planned += test_small_site(&g);
    for (size_t n = 0; n < TINY_SITES; n++)
        test_rows(&g);
    printf("reference: %d small sites, %zu with a plan, of these %zu with idle power, %zu above "
           "every level's, %zu with deadlines\n",
           SMALL_SITES, planned, with_idle_power, above_levels, with_deadlines);
    printf(
        "reference: %zu run tasks with start ticks, which leave %zu more without a plan, and %zu "
        "with another one\n",
        with_start_ticks, unplanned_by_start_ticks, otherwise_by_start_ticks);
    printf("reference: deadlines leave %zu without a plan, and %zu with another one; every row of "
           "%zu cores that fit and %zu that do not\n",
           unplanned_by_deadlines, planned_otherwise, cores_fit, cores_late);
    printf("reference: plans: %zu tests, %zu fail\n", tests, failures);
    return failures > 0 || planned_otherwise == 0 || unplanned_by_deadlines == 0 ||
           with_start_ticks == 0 || unplanned_by_start_ticks == 0 || otherwise_by_start_ticks == 0;
}

/* The table of a plan, and the two checks of a given one. */
#include "answers.h"

/* ---- The table ---- */

/* One core's row, tick by tick: of the jobs released and not finished the earliest due runs. */
static void draw_row(const reference_instance *in, const uint8_t *plan, size_t core, uint8_t *row) {
    uint64_t ticks[MOST_TASKS] = {0}, left[MOST_TASKS] = {0};
    uint32_t due[MOST_TASKS] = {0};
    for (size_t i = 0; i < in->tasks; i++)
        if (reference_runs_on(in, plan, i, core))
            ticks[i] = reference_ticks(in, i, reference_level_of(in, plan[i]));
    for (uint32_t t = 0; t < in->span; t++) {
        size_t runs = in->tasks;
        for (size_t i = 0; i < in->tasks; i++) {
            if (t % in->task[i].period == 0) {
                left[i] = ticks[i];
                due[i] = t + in->task[i].deadline;
            }
            if (left[i] > 0 && (runs == in->tasks || due[i] < due[runs]))
                runs = i;
        }
        row[t] = 0;
        if (runs < in->tasks) {
            left[runs]--;
            row[t] = (uint8_t)(runs + 1);
        }
    }
}

towhepamu_checked reference_tabulate(const reference_instance *in, const uint8_t *plan,
                                     size_t plan_len, uint8_t *table, size_t table_len) {
    if (table_len < in->cores * in->span)
        return refused(TOWHEPAMU_BUFFER, in->cores * in->span);
    towhepamu_checked test = reference_test_plan(in, plan, plan_len);
    if (passes(test))
        for (size_t c = 0; c < in->cores; c++)
            draw_row(in, plan, c, table + c * in->span);
    return test;
}

/* ---- The checks ---- */

/* Refusal 9. */
static towhepamu_checked test_slots(const reference_instance *in, const uint8_t *plan,
                                    const uint8_t *table, size_t table_len) {
    if (table_len != in->cores * in->span)
        return refused(TOWHEPAMU_SLOTS, smaller(table_len, in->cores * in->span));
    for (size_t s = 0; s < table_len; s++)
        if (table[s] > in->tasks ||
            (table[s] != 0 && !reference_runs_on(in, plan, table[s] - 1u, s / in->span)))
            return refused(TOWHEPAMU_SLOTS, s);
    return accepted;
}

reference_counted reference_count_job(const reference_instance *in, size_t task, uint64_t ticks,
                                      const uint8_t *row, uint32_t release) {
    uint32_t period = in->task[task].period, deadline = in->task[task].deadline;
    uint64_t slots = 0;
    for (uint32_t t = 0; t < period; t++) {
        slots += row[release + t] == task + 1;
        if (row[release + t] == task + 1 && (slots > ticks || t >= deadline))
            return (reference_counted){COUNT_OVER, t + 1};
    }
    return (reference_counted){slots < ticks ? COUNT_SHORT : COUNT_RIGHT, period};
}

/* Whether every job of a kept task has exactly its ticks before it is due, and no slot after. */
static bool is_served(const reference_instance *in, size_t task, uint8_t choice,
                      const uint8_t *row) {
    uint64_t ticks = reference_ticks(in, task, reference_level_of(in, choice));
    for (uint32_t release = 0; release < in->span; release += in->task[task].period)
        if (reference_count_job(in, task, ticks, row, release).count != COUNT_RIGHT)
            return false;
    return true;
}

/* Refusal 10. */
static towhepamu_checked test_jobs(const reference_instance *in, const uint8_t *plan,
                                   const uint8_t *table) {
    for (size_t i = 0; i < in->tasks; i++)
        if (plan[i] != 0 &&
            !is_served(in, i, plan[i], table + reference_core_of(in, plan[i]) * in->span))
            return refused(TOWHEPAMU_JOB, i + 1);
    return accepted;
}

towhepamu_checked reference_check_table_slots(const reference_instance *in, const uint8_t *plan,
                                              size_t plan_len, const uint8_t *table,
                                              size_t table_len) {
    towhepamu_checked test = reference_test_choices(in, plan, plan_len);
    return passes(test) ? test_slots(in, plan, table, table_len) : test;
}

towhepamu_checked reference_check_table(const reference_instance *in, const uint8_t *plan,
                                        size_t plan_len, const uint8_t *table, size_t table_len) {
    towhepamu_checked test = reference_check_table_slots(in, plan, plan_len, table, table_len);
    return passes(test) ? test_jobs(in, plan, table) : test;
}

/* The calls over text. */
#include "answers.h"

static towhepamu_planned plan_by(bool (*best)(const reference_instance *, uint8_t *),
                                 const uint8_t *text, size_t text_len, uint8_t *plan,
                                 size_t plan_len, uint8_t *table, size_t table_len) {
    reference_instance in;
    uint8_t choices[MOST_TASKS];
    towhepamu_checked test = reference_read_text(text, text_len, &in);
    if (!passes(test))
        return unplanned(test);
    if (plan_len < in.tasks)
        return unplanned(refused(TOWHEPAMU_BUFFER, in.tasks));
    if (table_len < in.cores * in.span)
        return unplanned(refused(TOWHEPAMU_BUFFER, in.cores * in.span));
    if (!best(&in, choices))
        return unplanned(refused(TOWHEPAMU_NO_PLAN, 0));
    for (size_t i = 0; i < in.tasks; i++)
        plan[i] = choices[i];
    reference_tabulate(&in, choices, in.tasks, table, table_len);
    return reference_price(&in, choices, in.tasks);
}

towhepamu_planned reference_plan(const uint8_t *text, size_t text_len, uint8_t *plan,
                                 size_t plan_len, uint8_t *table, size_t table_len) {
    return plan_by(reference_best, text, text_len, plan, plan_len, table, table_len);
}

towhepamu_planned reference_plan_exhaustive(const uint8_t *text, size_t text_len, uint8_t *plan,
                                            size_t plan_len, uint8_t *table, size_t table_len) {
    return plan_by(reference_best_exhaustive, text, text_len, plan, plan_len, table, table_len);
}

towhepamu_checked reference_check_slots(const uint8_t *text, size_t text_len, const uint8_t *plan,
                                        size_t plan_len, const uint8_t *table, size_t table_len) {
    reference_instance in;
    towhepamu_checked test = reference_read_text(text, text_len, &in);
    return passes(test) ? reference_check_table_slots(&in, plan, plan_len, table, table_len) : test;
}

towhepamu_checked reference_check(const uint8_t *text, size_t text_len, const uint8_t *plan,
                                  size_t plan_len, const uint8_t *table, size_t table_len) {
    reference_instance in;
    towhepamu_checked test = reference_read_text(text, text_len, &in);
    return passes(test) ? reference_check_table(&in, plan, plan_len, table, table_len) : test;
}

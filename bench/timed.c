#include "timed.h"

/* ---- The proved code, now and before: calls of the archive, and the entry of bench/entries.sh */

tabulate_entry timed_tabulate;

#ifdef WITH_BEFORE
plan_entry before_towhepamu_plan;
check_entry before_towhepamu_check;
#endif

/* ---- The plain C ---- */

static uint64_t tabulate_plainly(const uint32_t *words, size_t word_count, const uint32_t *choices,
                                 size_t choice_count, uint8_t *table, size_t table_len) {
    reference_instance in;
    uint8_t plan[MOST_TASKS];
    reference_read(words, word_count, &in);
    for (size_t i = 0; i < choice_count; i++)
        plan[i] = (uint8_t)choices[i];
    return reference_tabulate(&in, plan, choice_count, table, table_len).refusal;
}

const implementation implementations[IMPLEMENTATIONS] = {
#ifdef WITH_BEFORE
    [BEFORE] = {before_towhepamu_plan, before_towhepamu_check, NULL},
#endif
    [NOW] = {towhepamu_plan, towhepamu_check, timed_tabulate},
    [PLAIN] = {reference_plan, reference_check, tabulate_plainly},
};

/*
 * Documents 01 and 02 (a) to (g) and (m) in plain C, written from the papers alone: what the
 * archive is compared with and timed against. Choices and slots are bytes, as at the C interface.
 */
#ifndef REFERENCE_H
#define REFERENCE_H

#include "towhepamu.h"
#include <stdbool.h>

enum {
    MOST_CORES = TOWHEPAMU_MOST_CORES,
    MOST_LEVELS = TOWHEPAMU_MOST_LEVELS,
    MOST_TASKS = TOWHEPAMU_MOST_TASKS,
    MOST_SPAN = TOWHEPAMU_MOST_SPAN,
    MOST_ENTRIES = TOWHEPAMU_MOST_ENTRIES,
    MOST_WORDS = TOWHEPAMU_MOST_TEXT_BYTES / 2, /* of a text: a digit in every second byte */
    MOST_GAPS = MOST_SPAN / 2,                  /* of a row: each has a busy slot behind it */
    MOST_INSTANCE_WORDS = 6 + (1 + 2 * MOST_LEVELS) + (1 + 3 * MOST_TASKS) + (1 + MOST_TASKS)
};

/* The penalty of a task that may not be refused. */
#define MUST UINT32_MAX

typedef struct {
    uint32_t speed, power;
} reference_level;

typedef struct {
    uint32_t period, cycles, penalty, deadline;
} reference_task;

typedef struct {
    uint32_t energy_weight, penalty_weight, cores, idle_power, start_ticks, levels, tasks, span;
    reference_level level[MOST_LEVELS];
    reference_task task[MOST_TASKS];
} reference_instance;

/* Text to words: refusals 1, 6. `count` is set where accepted. */
towhepamu_checked reference_words(const uint8_t *text, size_t text_len, uint32_t *words,
                                  size_t words_len, size_t *count);

/* Words to instance: refusals 2, 3, 4. `instance` is whole only where accepted. */
towhepamu_checked reference_read(const uint32_t *words, size_t count, reference_instance *instance);

/* Text to instance: refusals 1, 2, 3, 4. `instance` is whole only where accepted. */
towhepamu_checked reference_read_text(const uint8_t *text, size_t text_len,
                                      reference_instance *instance);

/* Jobs of a task, from 0: in a span, and due by a tick of it; ticks of one at a level, from 0. */
uint64_t reference_jobs(const reference_instance *instance, size_t task);
uint64_t reference_jobs_due(const reference_instance *instance, size_t task, uint64_t tick);
uint64_t reference_ticks(const reference_instance *instance, size_t task, size_t level);

/* Whether some task is due before its period's end. */
bool reference_has_early(const reference_instance *instance);

/* Core and level of a choice other than 0, from 0; whether a plan keeps a task on a core, from 0.
 */
size_t reference_core_of(const reference_instance *instance, uint8_t choice);
size_t reference_level_of(const reference_instance *instance, uint8_t choice);
bool reference_runs_on(const reference_instance *instance, const uint8_t *plan, size_t task,
                       size_t core);

/* Of the ticks of the span by which more is due on a core, from 0, than has passed, the one by
   which it is most, in proportion; 0 where there is none and the core fits. */
uint64_t reference_overdue(const reference_instance *instance, const uint8_t *plan, size_t core);

/* The tests of a given plan: refusal 7; refusals 7, 8. */
towhepamu_checked reference_test_choices(const reference_instance *instance, const uint8_t *plan,
                                         size_t plan_len);
towhepamu_checked reference_test_plan(const reference_instance *instance, const uint8_t *plan,
                                      size_t plan_len);

/* Energy, penalty and cost: of a plan whose cores fit, any numbers where they do not; and of a
   given plan: refusals 7, 8. */
towhepamu_planned reference_amounts(const reference_instance *instance, const uint8_t *plan);
towhepamu_planned reference_price(const reference_instance *instance, const uint8_t *plan,
                                  size_t plan_len);

/* The table of a given plan: refusals 6, 7, 8. */
towhepamu_checked reference_tabulate(const reference_instance *instance, const uint8_t *plan,
                                     size_t plan_len, uint8_t *table, size_t table_len);

/* The slots of one job, counted from its release towards the next one, to the first too many: one
   more than its ticks, or one from its due tick on. `read` is how many slots that took. */
typedef enum { COUNT_SHORT, COUNT_RIGHT, COUNT_OVER } reference_count;

typedef struct {
    reference_count count;
    uint32_t read;
} reference_counted;

/* For a task, from 0, whose job takes so many ticks and is released at that tick of the row. */
reference_counted reference_count_job(const reference_instance *instance, size_t task,
                                      uint64_t ticks, const uint8_t *row, uint32_t release);

/* The two checks of a given plan and table: of the slots alone, refusals 7, 9; and of the jobs too,
   refusals 7, 9, 10. */
towhepamu_checked reference_check_table_slots(const reference_instance *instance,
                                              const uint8_t *plan, size_t plan_len,
                                              const uint8_t *table, size_t table_len);
towhepamu_checked reference_check_table(const reference_instance *instance, const uint8_t *plan,
                                        size_t plan_len, const uint8_t *table, size_t table_len);

/* The best plan, by tables over sets of tasks (planners.c) and by trying every plan (exhaustive.c);
   false where there is none. */
bool reference_best(const reference_instance *instance, uint8_t plan[MOST_TASKS]);
bool reference_best_exhaustive(const reference_instance *instance, uint8_t plan[MOST_TASKS]);

/* towhepamu_plan, towhepamu_check_slots and towhepamu_check; and planning again, for small sites,
   by trying every plan. */
towhepamu_planned reference_plan(const uint8_t *text, size_t text_len, uint8_t *plan,
                                 size_t plan_len, uint8_t *table, size_t table_len);
towhepamu_planned reference_plan_exhaustive(const uint8_t *text, size_t text_len, uint8_t *plan,
                                            size_t plan_len, uint8_t *table, size_t table_len);
towhepamu_checked reference_check_slots(const uint8_t *text, size_t text_len, const uint8_t *plan,
                                        size_t plan_len, const uint8_t *table, size_t table_len);
towhepamu_checked reference_check(const uint8_t *text, size_t text_len, const uint8_t *plan,
                                  size_t plan_len, const uint8_t *table, size_t table_len);

/* towhepamu_read and towhepamu_list (listings.c). */
towhepamu_site reference_site(const uint8_t *text, size_t text_len);
towhepamu_listed reference_list(const uint8_t *text, size_t text_len, uint8_t *out, size_t out_len);

/* The gaps of a row, which repeats: each once, by its first tick and how many slots it has. None of
   a row without a busy slot. */
typedef struct {
    size_t first, size;
} reference_gap;

size_t reference_gaps(const uint8_t *row, size_t span, reference_gap *gaps);

/* The least idle energy of a row and its sleeps. */
typedef struct {
    uint64_t energy;
    uint32_t sleeps;
} reference_slept;

reference_slept reference_sleep_row(const uint8_t *row, size_t span, uint32_t idle_power,
                                    uint32_t switching_energy, uint32_t switching_time);

/* towhepamu_sleep: refusals 1, 2, 3, 4, 11, 6, 7, 9, 10 (sleeping.c, as the two above). */
towhepamu_checked reference_sleep(const uint8_t *text, size_t text_len, const uint8_t *plan,
                                  size_t plan_len, const uint8_t *table, size_t table_len,
                                  uint32_t switching_energy, uint32_t switching_time,
                                  uint64_t *energies, size_t energies_len, uint32_t *sleeps,
                                  size_t sleeps_len);

/* towhepamu_dispatch: refusals 1, 2, 3, 4, 7, 8, 12, 13 (dispatching.c). */
towhepamu_dispatched reference_dispatch(const uint8_t *text, size_t text_len, const uint8_t *plan,
                                        size_t plan_len, uint32_t core, towhepamu_state *state,
                                        bool ended);

/* towhepamu_prepare: refusals 1, 2, 3, 4, 7, 8, 12. Places that are not filled are 0. */
towhepamu_checked reference_prepare(const uint8_t *text, size_t text_len, const uint8_t *plan,
                                    size_t plan_len, uint32_t core, towhepamu_node *node);

/* Opening hours (calendars.c, to the end). */
typedef struct {
    uint32_t year, month, day; /* the last two from 1 */
} reference_date;

typedef struct {
    reference_date date;
    uint32_t opening, closing, plan;
} reference_entry;

typedef struct {
    uint32_t entries;
    reference_entry entry[MOST_ENTRIES];
} reference_calendar;

/* Whether there is that date, of any year; and whether one that there is comes after another. */
bool reference_is_date(reference_date date);
bool reference_is_later(reference_date date, reference_date other);

/* The days from 1 January 2000 to a date of that year or a later one. */
uint32_t reference_day_number(reference_date date);

/* Words to calendar: refusals 2, 3, 17. `calendar` is whole only where accepted. */
towhepamu_checked reference_read_calendar(const uint32_t *words, size_t count,
                                          reference_calendar *calendar);

/* What a calendar answers: refusal 18. */
towhepamu_ruled reference_ask(const reference_calendar *calendar, reference_date date,
                              uint32_t minute);

/* towhepamu_calendar: refusals 1, 2, 3, 17, 18. */
towhepamu_ruled reference_rule(const uint8_t *text, size_t text_len, uint32_t year, uint32_t month,
                               uint32_t day, uint32_t minute);

#endif

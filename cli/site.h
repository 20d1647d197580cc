/*
 * A site file: its numbers, and the settings, levels, tasks and deadlines that they say.
 *
 * What a file says is listed once, in site.c: the sections with their numbers, and each number's
 * name, range and where it is kept. A further number of the settings or a further section is one
 * entry in each of the three lists there.
 */
#ifndef SITE_H
#define SITE_H

#include "numbers.h"

/* Which number of a site file a number is. */
typedef enum {
    SETTINGS_COUNT,
    ENERGY_WEIGHT,
    PENALTY_WEIGHT,
    CORES,
    IDLE_POWER, /* 0 where the settings end before it, as are start ticks */
    START_TICKS,
    LEVELS_COUNT,
    SPEED,
    POWER,
    TASKS_COUNT,
    PERIOD,
    CYCLES,
    PENALTY,
    DEADLINES_COUNT, /* 0, or that of the tasks; a list may end before it */
    DEADLINE         /* the period where there is none */
} site_field;

typedef struct {
    uint32_t speed, power;
} site_level;

typedef struct {
    uint32_t period, cycles, penalty, deadline;
} site_task;

/* The penalty of a task that may not be refused. */
#define SITE_MUST UINT32_MAX

typedef struct {
    number_list list;
    /* Only of an accepted site: */
    uint32_t energy_weight, penalty_weight, cores, idle_power, start_ticks, levels, tasks;
    size_t span;
    site_level level[TOWHEPAMU_MOST_LEVELS];
    site_task task[TOWHEPAMU_MOST_TASKS];
} parsed_site;

extern const file_form site_form;

/* Fills in what an accepted site says, from its numbers; the span is the library's. */
void site_fill_in(parsed_site *site, size_t span);

/* Writes the text of an accepted site anew, as it is filled in: each number without leading zeros,
   parted from the next by one byte. So the text fits, however full of spaces and zeros it was: the
   numbers of an accepted site, 73 at most, have ten digits at most. */
void site_rewrite(parsed_site *site);

/* Whether a task, from 0, is due before its period's end; whether some task is. */
bool site_is_early(const parsed_site *site, size_t task);
bool site_has_early(const parsed_site *site);

/* Jobs of a task in a span, those due by a tick of it, and ticks of one of its jobs; task and level
   from 0. */
uint64_t site_jobs(const parsed_site *site, size_t task);
uint64_t site_jobs_due(const parsed_site *site, size_t task, uint64_t tick);
uint64_t site_ticks(const parsed_site *site, size_t task, size_t level);

#endif

#include "site.h"
#include <inttypes.h>
#include <stdio.h>

/* ---- What a site file says ---- */

static const section sections[] = {
    {SETTINGS_COUNT, ENERGY_WEIGHT, START_TICKS, true},
    {LEVELS_COUNT, SPEED, POWER, false},
    {TASKS_COUNT, PERIOD, PENALTY, false},
    {DEADLINES_COUNT, DEADLINE, DEADLINE, false},
};

static const field_words fields[] = {
    [SETTINGS_COUNT] = {"count of settings", NULL, 3, 5},
    [ENERGY_WEIGHT] = {"energy weight", NULL, 1, 1000},
    [PENALTY_WEIGHT] = {"penalty weight", NULL, 1, 1000},
    [CORES] = {"number of cores", NULL, 1, TOWHEPAMU_MOST_CORES},
    [IDLE_POWER] = {"idle power", NULL, 0, 65535},
    [START_TICKS] = {"number of start ticks", NULL, 0, 1000},
    [LEVELS_COUNT] = {"count of levels", NULL, 1, TOWHEPAMU_MOST_LEVELS},
    [SPEED] = {"speed", "level", 1, 65535},
    [POWER] = {"power", "level", 1, 65535},
    [TASKS_COUNT] = {"count of tasks", NULL, 0, TOWHEPAMU_MOST_TASKS},
    [PERIOD] = {"period", "task", 1, TOWHEPAMU_MOST_SPAN},
    [CYCLES] = {"number of cycles", "task", 1, 100000000},
    [PENALTY] = {"penalty", "task", 1, 1000000},
    [DEADLINES_COUNT] = {"count of deadlines", NULL, 0, TOWHEPAMU_MOST_TASKS},
    [DEADLINE] = {"deadline", "task", 1, TOWHEPAMU_MOST_SPAN},
};

const file_form site_form = {"a site file", fields, sections, sizeof sections / sizeof sections[0]};

/* Where a number of an accepted site is kept; NULL for what no site keeps. */
static uint32_t *kept_at(parsed_site *site, number_name name) {
    switch (name.field) {
    case ENERGY_WEIGHT:
        return &site->energy_weight;
    case PENALTY_WEIGHT:
        return &site->penalty_weight;
    case CORES:
        return &site->cores;
    case IDLE_POWER:
        return &site->idle_power;
    case START_TICKS:
        return &site->start_ticks;
    case LEVELS_COUNT:
        return &site->levels;
    case SPEED:
        return &site->level[name.of - 1].speed;
    case POWER:
        return &site->level[name.of - 1].power;
    case TASKS_COUNT:
        return &site->tasks;
    case PERIOD:
        return &site->task[name.of - 1].period;
    case CYCLES:
        return &site->task[name.of - 1].cycles;
    case PENALTY:
        return &site->task[name.of - 1].penalty;
    case DEADLINE:
        return &site->task[name.of - 1].deadline;
    default:
        return NULL;
    }
}

void site_fill_in(parsed_site *site, size_t span) {
    site->span = span;
    site->idle_power = site->start_ticks = 0;
    for (size_t i = 0; i < TOWHEPAMU_MOST_TASKS; i++)
        site->task[i].deadline = 0;
    for (size_t i = 0; i < site->list.count; i++) {
        uint32_t *kept = kept_at(site, name_of(&site->list, i));
        if (kept != NULL)
            *kept = site->list.numbers[i].value;
    }
    for (size_t i = 0; i < site->tasks; i++)
        if (site->task[i].deadline == 0)
            site->task[i].deadline = site->task[i].period;
}

void site_rewrite(parsed_site *site) {
    size_t len = 0;
    for (size_t i = 0; i < site->list.count; i++) {
        const uint32_t *kept = kept_at(site, name_of(&site->list, i));
        uint32_t value = kept != NULL ? *kept : site->list.numbers[i].value;
        len += (size_t)snprintf((char *)site->list.text + len, sizeof site->list.text - len,
                                "%" PRIu32 "\n", value);
    }
    site->list.text_len = len;
    take_numbers(&site->list);
}

/* ---- What is computed of it ---- */

bool site_is_early(const parsed_site *site, size_t task) {
    return site->task[task].deadline < site->task[task].period;
}

bool site_has_early(const parsed_site *site) {
    for (size_t i = 0; i < site->tasks; i++)
        if (site_is_early(site, i))
            return true;
    return false;
}

uint64_t site_jobs(const parsed_site *site, size_t task) {
    return site->span / site->task[task].period;
}

uint64_t site_jobs_due(const parsed_site *site, size_t task, uint64_t tick) {
    const site_task *of = &site->task[task];
    return tick < of->deadline ? 0 : (tick - of->deadline) / of->period + 1;
}

uint64_t site_ticks(const parsed_site *site, size_t task, size_t level) {
    uint32_t cycles = site->task[task].cycles, speed = site->level[level].speed;
    return cycles / speed + (cycles % speed != 0) + site->start_ticks;
}

/* A site with its plan: what the library answers, once it was read and passed the check. */
#ifndef ANSWER_H
#define ANSWER_H

#include "site.h"

typedef struct {
    parsed_site site;
    towhepamu_planned price;
    uint8_t plan[TOWHEPAMU_MOST_TASKS];
    uint8_t table[TOWHEPAMU_MOST_TABLE_BYTES];
} planned_site;

/* Reads the site of a file. Where it is refused, tells why and returns false; `why` is then the
   refusal and its place. */
bool read_site(const char *name, parsed_site *site, towhepamu_checked *why);

/* Plans the answer's site, which was read; its price says where that is refused, and nothing is
   told. */
void plan_read_site(planned_site *answer);

/* Reads a site and plans it; refused as above. */
bool plan_site(const char *name, planned_site *answer, towhepamu_checked *why);

/* Core and level of a task's choice, from 1; 0 where it is refused. The task is numbered from 0. */
size_t core_of(const planned_site *answer, size_t task);
size_t level_of(const planned_site *answer, size_t task);

/* Whether a core, numbered from 1, keeps a task; else it is off. */
bool is_awake(const planned_site *answer, size_t core);

/* Ticks of each job of a kept task, numbered from 0, at its level. */
uint64_t ticks_of(const planned_site *answer, size_t task);

/* The row of a core, numbered from 0. */
const uint8_t *row_of(const planned_site *answer, size_t core);

#endif

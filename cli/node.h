/*
 * What a node runs, as a file tells it: a listing, or a list of numbers. A list of numbers is a
 * plan, one choice a task; a table, one number a slot, core 1's slots first; or a dump, which is
 * the numbers of a plan and then those of a table. Where its lines end is of no matter.
 */
#ifndef NODE_H
#define NODE_H

#include "site.h"

enum { NODE_MOST_NUMBERS = TOWHEPAMU_MOST_TASKS + TOWHEPAMU_MOST_TABLE_BYTES + 1 };

typedef struct {
    uint64_t core, level, ticks; /* core 0 where the task is refused */
} node_task;

typedef struct {
    const char *file;
    bool is_listing;
    /* All numbers of a list, or the slots of a listing. Of more than fit only the count goes on. */
    size_t count;
    uint32_t numbers[NODE_MOST_NUMBERS];
    /* Only of a listing: */
    bool is_refused;         /* the listing is the line of a refusal */
    uint64_t refusal, place; /* which one */
    uint64_t span, energy, penalty, cost;
    size_t tasks, cores; /* how many lines there are */
    node_task task[TOWHEPAMU_MOST_TASKS];
    size_t row[TOWHEPAMU_MOST_CORES + 1]; /* where each row begins, and the last one ends */
} node_file;

/* Reads a file. Where it is neither a listing nor a list of numbers, tells so and returns false. */
bool node_read(const char *name, node_file *node);

/* The listing's choice for a task of the site, or 255, which is none, where its core or level is
   none of the site's. */
uint8_t node_choice(const node_file *node, const parsed_site *site, size_t task);

/* A number as the library takes it: one above 255 names nothing, as 255 does. */
uint8_t node_byte(uint32_t number);

#endif

/* The subcommands. Each is given its arguments and returns how the program ends. */
#ifndef COMMANDS_H
#define COMMANDS_H

#include "towhepamu.h"
#include <stdbool.h>
#include <stddef.h>

enum {
    MOST_FILES = 3,
    NUMBERS_OF_A_TASK = 3, /* TASK LOW HIGH */
    MOST_NUMBERS = NUMBERS_OF_A_TASK * TOWHEPAMU_MOST_TASKS
};

typedef struct {
    size_t files;
    const char *file[MOST_FILES]; /* the site or the calendar first */
    const char *plan, *table;     /* of `plan`: where to write them, or NULL */
    bool text;                    /* of `picture`: for a terminal */
    const char *energy, *time;    /* of `sleep`: the switching words, as given, or NULL */
    const char *core, *ended; /* of `dispatch`: which core, as given, and the reports, or NULL */
    size_t numbers;
    const char *number[MOST_NUMBERS]; /* of `quote`: for each task NUMBERS_OF_A_TASK, as given */
    const char *date, *clock; /* of `hours`: a date and a time of that day, as given, or NULL */
} arguments;

int run_plan(const arguments *given);
int run_check(const arguments *given);
int run_slots(const arguments *given);
int run_compare(const arguments *given);
int run_sums(const arguments *given);
int run_sleep(const arguments *given);
int run_picture(const arguments *given);
int run_dispatch(const arguments *given);
int run_quote(const arguments *given);
int run_hours(const arguments *given);

#endif

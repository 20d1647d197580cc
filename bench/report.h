/* What is timed, and the tables of what it took. */
#ifndef REPORT_H
#define REPORT_H

#include "instances.h"
#include "timed.h"

enum operation {
    PLANNING,
    PLANNING_LOW,
    PLANNING_HIGH,
    READING,
    TABLING,
    CHECKING,
    CHECKING_TOO_MANY,
    CHECKING_LAST_SHORT,
    OPERATIONS
};

/* Planning a site that has idle power. */
bool has_idle_power(enum operation o);

/*
 * The time of each implementation, then the ratios of NOW. Where planning has idle power the column
 * of BEFORE is the same site planned without it, by NOW.
 */
enum { TO_BEFORE = IMPLEMENTATIONS, TO_PLAIN, COLUMNS };

/* For each site of each family; no number where a call was not timed. */
extern double times_of[FAMILIES][OPERATIONS][COLUMNS][SITES_A_FAMILY];

/* Of the times that were taken, which it sorts; no number where there is none. */
double median(double *times, size_t count);

/* The families, with a group of columns for each operation from `first` to `last`. */
void print_table(enum operation first, enum operation last);

#endif

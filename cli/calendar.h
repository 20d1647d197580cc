/*
 * A calendar: its numbers, and the entries that they say.
 *
 * What a file says is listed once, in calendar.c, as that of a site is in site.c.
 */
#ifndef CALENDAR_H
#define CALENDAR_H

#include "dates.h"
#include "numbers.h"

/* Which number of a calendar a number is. */
typedef enum { ENTRIES_COUNT, YEAR, MONTH, DAY, OPENING, CLOSING, PLAN_NUMBER } calendar_field;

typedef struct {
    date from;
    uint32_t opening, closing, plan;
} calendar_entry;

typedef struct {
    number_list list;
    /* Only of an accepted calendar: */
    size_t entries;
    calendar_entry entry[TOWHEPAMU_MOST_ENTRIES];
} parsed_calendar;

extern const file_form calendar_form;

/* Fills in what an accepted calendar says, from its numbers; false where these are not as many as
   it counts. */
bool calendar_fill_in(parsed_calendar *of);

/* Tells why a calendar is refused, on standard error. */
void tell_calendar_refusal(const number_list *list, uint64_t refusal, uint64_t place);

#endif

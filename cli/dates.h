/* Dates of the Gregorian calendar and times of day, as words have them and in words. */
#ifndef DATES_H
#define DATES_H

#include <stdbool.h>
#include <stdint.h>

typedef struct {
    uint32_t year, month, day; /* the last two from 1 */
} date;

/* Whether a word is written as a date, 2024-02-28, and as a time, 08:00; there need be none such.
 */
bool is_written_as_date(const char *word);
bool is_written_as_time(const char *word);

/* The date of such a word; the minute of such a word, or TOWHEPAMU_DAY_MINUTES, which is none. */
date date_of(const char *word);
uint32_t minute_of(const char *word);

/* Whether there is that date, from 2000 to 2099. */
bool is_date(date of);

/* The days from 1 January 2000 to a date that there is. */
uint32_t day_number(date of);

typedef struct {
    char text[64];
} date_words;

/* "Wednesday", "2024-02-28", and both. */
const char *weekday_of(date of);
date_words plain_date(date of);
date_words full_date(date of);

/* Which dates there are, where there is no such date: "the days of February 2023 are 1 to 28". */
date_words dates_there_are(date none);

/* "08:00"; the end of the day is 24:00. */
typedef struct {
    char text[8];
} clock_words;

clock_words clock_of(uint32_t minute);

#endif

/* Calendars with a question, and what they answer. */
#ifndef KNOWN_CALENDARS_H
#define KNOWN_CALENDARS_H

#include "reference.h"

typedef struct {
    const char *name, *text;
    reference_date date;
    uint32_t minute;
    towhepamu_ruled answer;
} known_calendar;

#define FEBRUARY "2024 2 28 480 1080 7"
#define MARCH "2024 3 1 0 1440 9"
#define STORE "2 " FEBRUARY " " MARCH
#define LEAP_DAYS "3 2000 2 29 0 1 1  2024 2 29 0 1 2  2096 2 29 0 1 3"

/* clang-format off */
static const known_calendar known_calendars[] = {
    /* 2024 has a 29 February, two days after the first entry's date. */
    {"opening", STORE, {2024, 2, 28}, 480, {0, 0, 7, 2}},
    {"before opening", STORE, {2024, 2, 28}, 479, {0, 0, 0, 2}},
    {"last minute", STORE, {2024, 2, 29}, 1079, {0, 0, 7, 1}},
    {"closing", STORE, {2024, 2, 29}, 1080, {0, 0, 0, 1}},
    {"before the first entry", STORE, {2024, 2, 27}, 500, {0, 0, 0, 1}},
    {"an entry's own day", STORE, {2024, 3, 1}, 0, {0, 0, 9, 0}},
    {"the last minute of a day", STORE, {2024, 3, 1}, 1439, {0, 0, 9, 0}},
    {"the first day", STORE, {2000, 1, 1}, 500, {0, 0, 0, 8824}},
    {"the last day", STORE, {2099, 12, 31}, 720, {0, 0, 9, 0}},
    {"closing in the day's last minute", "1 2024 2 28 0 1439 7", {2024, 2, 28}, 1439, {0, 0, 0, 0}},

    {"no entry", "0", {2024, 2, 28}, 480, {0, 0, 0, 0}},
    {"the whole century", "2 2000 1 1 0 1440 255 2099 12 31 0 1440 1", {2000, 1, 1}, 0,
     {0, 0, 255, 36524}},
    {"from December to its end", "1 2099 12 31 0 1440 1", {2099, 12, 1}, 0, {0, 0, 0, 30}},
    {"up to December 2099", "1 2099 12 1 0 1440 1", {2000, 1, 1}, 0, {0, 0, 0, 36494}},
    {"over the leap day of 2000", "1 2000 3 1 0 1 1", {2000, 2, 28}, 0, {0, 0, 0, 2}},
    {"over a February of 28 days", "1 2023 3 1 0 1 1", {2023, 2, 28}, 0, {0, 0, 0, 1}},
    {"over a year's end", "1 2024 1 1 0 1 1", {2023, 12, 31}, 0, {0, 0, 0, 1}},
    {"leap days", LEAP_DAYS, {2000, 2, 29}, 0, {0, 0, 1, 8766}},
    {"one minute", "1 2024 2 28 1439 1440 7", {2024, 2, 28}, 1439, {0, 0, 7, 0}},
    {"the minute before it", "1 2024 2 28 1439 1440 7", {2024, 2, 28}, 1438, {0, 0, 0, 0}},
    {"zeros and line feeds", "\n002\n" FEBRUARY "\n\n" MARCH " ", {2024, 2, 28}, 480, {0, 0, 7, 2}},

    {"another byte", "2 2024-02-28 480 1080 7", {2024, 2, 28}, 480, {1, 6, 0, 0}},
    {"too large a number", "1 2024 2 28 480 1080 4294967296", {2024, 2, 28}, 480, {1, 21, 0, 0}},
    {"text before words", "201 x", {2024, 2, 28}, 480, {1, 4, 0, 0}},
    {"no word", "", {2024, 2, 28}, 480, {2, 0, 0, 0}},
    {"an entry is missing", "2 " FEBRUARY, {2024, 2, 28}, 480, {2, 7, 0, 0}},
    {"an entry ends early", "1 2024 2 28 480 1080", {2024, 2, 28}, 480, {2, 6, 0, 0}},
    {"a word left over", STORE " 0", {2024, 2, 28}, 480, {2, 13, 0, 0}},
    {"a word after no entry", "0 0", {2024, 2, 28}, 480, {2, 1, 0, 0}},

    {"201 entries", "201", {2024, 2, 28}, 480, {3, 0, 0, 0}},
    {"year 1999", "1 1999 12 31 0 1 1", {2024, 2, 28}, 480, {3, 1, 0, 0}},
    {"year 2100", "1 2100 1 1 0 1 1", {2024, 2, 28}, 480, {3, 1, 0, 0}},
    {"month 0", "1 2024 0 28 0 1 1", {2024, 2, 28}, 480, {3, 2, 0, 0}},
    {"month 13", "1 2024 13 28 0 1 1", {2024, 2, 28}, 480, {3, 2, 0, 0}},
    {"day 0", "1 2024 2 0 0 1 1", {2024, 2, 28}, 480, {3, 3, 0, 0}},
    {"day 32", "1 2024 1 32 0 1 1", {2024, 2, 28}, 480, {3, 3, 0, 0}},
    {"opening 1,441", "1 2024 2 28 1441 1442 1", {2024, 2, 28}, 480, {3, 4, 0, 0}},
    {"opening 1,440", "1 2024 2 28 1440 1440 1", {2024, 2, 28}, 480, {3, 5, 0, 0}},
    {"opening 1,440 and no more", "1 2024 2 28 1440", {2024, 2, 28}, 480, {2, 5, 0, 0}},
    {"closing 1,441", "1 2024 2 28 480 1441 1", {2024, 2, 28}, 480, {3, 5, 0, 0}},
    {"closing at opening", "1 2024 2 28 480 480 1", {2024, 2, 28}, 480, {3, 5, 0, 0}},
    {"closing before opening", "1 2024 2 28 480 479 1", {2024, 2, 28}, 480, {3, 5, 0, 0}},
    {"plan 0", "1 2024 2 28 480 1080 0", {2024, 2, 28}, 480, {3, 6, 0, 0}},
    {"plan 256", "1 2024 2 28 480 1080 256", {2024, 2, 28}, 480, {3, 6, 0, 0}},

    {"29 February 2023", "1 2023 2 29 480 1080 7", {2024, 2, 28}, 480, {17, 1, 0, 0}},
    {"31 April", "1 2024 4 31 480 1080 7", {2024, 2, 28}, 480, {17, 1, 0, 0}},
    {"one date twice", "2 " FEBRUARY " " FEBRUARY, {2024, 2, 28}, 480, {17, 7, 0, 0}},
    {"an earlier date", "2 " MARCH " " FEBRUARY, {2024, 2, 28}, 480, {17, 7, 0, 0}},
    {"an earlier year", "2 " MARCH " 2023 12 31 0 1 1", {2024, 2, 28}, 480, {17, 7, 0, 0}},
    {"its words before its date", "1 2023 2 29 480 1080 0", {2024, 2, 28}, 480, {3, 6, 0, 0}},
    {"its end before its date", "1 2023 2 29 480 1080", {2024, 2, 28}, 480, {2, 6, 0, 0}},
    {"a date before later words", "2 2023 2 29 480 1080 7 1999", {2024, 2, 28}, 480, {17, 1, 0, 0}},
    {"a date before words left over", "1 2023 2 29 480 1080 7 0", {2024, 2, 28}, 480, {17, 1, 0, 0}},
    {"a date before the end", "2 2023 2 29 480 1080 7", {2024, 2, 28}, 480, {17, 1, 0, 0}},

    {"asked for 29 February 2023", STORE, {2023, 2, 29}, 480, {18, 0, 0, 0}},
    {"asked for 1999", STORE, {1999, 12, 31}, 480, {18, 0, 0, 0}},
    {"asked for 2100", STORE, {2100, 1, 1}, 480, {18, 0, 0, 0}},
    {"asked for month 0", STORE, {2024, 0, 1}, 480, {18, 0, 0, 0}},
    {"asked for month 13", STORE, {2024, 13, 1}, 480, {18, 0, 0, 0}},
    {"asked for day 0", STORE, {2024, 2, 0}, 480, {18, 0, 0, 0}},
    {"asked for day 30", STORE, {2024, 2, 30}, 480, {18, 0, 0, 0}},
    {"asked for minute 1,440", STORE, {2024, 3, 1}, 1440, {18, 0, 0, 0}},
    {"asked for no minute at all", STORE, {2024, 3, 1}, UINT32_MAX, {18, 0, 0, 0}},
    {"asked for nothing there is", "0", {UINT32_MAX, UINT32_MAX, UINT32_MAX}, 0, {18, 0, 0, 0}},
    {"words left over before the question", STORE " 0", {2023, 2, 29}, 1440, {2, 13, 0, 0}},
    {"a date before the question", "1 2023 2 29 480 1080 7", {2023, 2, 29}, 1440, {17, 1, 0, 0}},
};
/* clang-format on */

enum { KNOWN_CALENDARS = sizeof known_calendars / sizeof known_calendars[0] };

#endif

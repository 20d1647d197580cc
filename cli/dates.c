#include "dates.h"
#include "files.h"
#include "towhepamu.h"
#include <inttypes.h>
#include <stdio.h>
#include <string.h>

/* ---- Words ---- */

/* Whether a word has a digit where the form has 0, and else what the form has. */
static bool has_form(const char *word, const char *form) {
    for (; *form != 0; word++, form++)
        if (*form == '0' ? *word < '0' || *word > '9' : *word != *form)
            return false;
    return *word == 0;
}

bool is_written_as_date(const char *word) {
    return has_form(word, "0000-00-00");
}

bool is_written_as_time(const char *word) {
    return has_form(word, "00:00");
}

/* The number that so many digits are. */
static uint32_t number_at(const char *digits, size_t count) {
    char number[8] = "";
    return word_of(strncat(number, digits, count));
}

date date_of(const char *word) {
    return (date){number_at(word, 4), number_at(word + 5, 2), number_at(word + 8, 2)};
}

uint32_t minute_of(const char *word) {
    uint32_t hour = number_at(word, 2), minute = number_at(word + 3, 2);
    return hour < 24 && minute < 60 ? 60 * hour + minute : TOWHEPAMU_DAY_MINUTES;
}

/* ---- Days ---- */

static uint32_t month_length(uint32_t year, uint32_t month) {
    bool is_leap = year % 4 == 0 && (year % 100 != 0 || year % 400 == 0);
    if (month == 2)
        return is_leap ? 29 : 28;
    return month == 4 || month == 6 || month == 9 || month == 11 ? 30 : 31;
}

static bool has_year(date of) {
    return of.year >= TOWHEPAMU_FIRST_YEAR && of.year <= TOWHEPAMU_LAST_YEAR;
}

static bool has_month(date of) {
    return of.month >= 1 && of.month <= 12;
}

bool is_date(date of) {
    return has_year(of) && has_month(of) && of.day >= 1 &&
           of.day <= month_length(of.year, of.month);
}

/* Of these years every fourth is a leap year, the first among them. */
uint32_t day_number(date of) {
    uint32_t years = of.year - TOWHEPAMU_FIRST_YEAR, days = 365 * years + (years + 3) / 4;
    for (uint32_t month = 1; month < of.month; month++)
        days += month_length(of.year, month);
    return days + of.day - 1;
}

/* ---- In words ---- */

const char *weekday_of(date of) {
    static const char *const names[] = {
        "Saturday",  "Sunday",   "Monday", "Tuesday",
        "Wednesday", "Thursday", "Friday"}; /* as 1 January 2000 was */
    return names[day_number(of) % 7];
}

date_words plain_date(date of) {
    date_words out;
    snprintf(out.text, sizeof out.text, "%04" PRIu32 "-%02" PRIu32 "-%02" PRIu32, of.year, of.month,
             of.day);
    return out;
}

date_words full_date(date of) {
    date_words out;
    snprintf(out.text, sizeof out.text, "%s %.16s", weekday_of(of), plain_date(of).text);
    return out;
}

date_words dates_there_are(date none) {
    static const char *const months[] = {"January",   "February", "March",    "April",
                                         "May",       "June",     "July",     "August",
                                         "September", "October",  "November", "December"};
    date_words out;
    if (!has_year(none))
        snprintf(out.text, sizeof out.text, "the years are %d to %d", TOWHEPAMU_FIRST_YEAR,
                 TOWHEPAMU_LAST_YEAR);
    else if (!has_month(none))
        snprintf(out.text, sizeof out.text, "the months of a year are 1 to 12");
    else
        snprintf(out.text, sizeof out.text, "the days of %s %" PRIu32 " are 1 to %" PRIu32,
                 months[none.month - 1], none.year, month_length(none.year, none.month));
    return out;
}

clock_words clock_of(uint32_t minute) {
    clock_words out;
    snprintf(out.text, sizeof out.text, "%02u:%02u", minute / 60 % 100, minute % 60);
    return out;
}

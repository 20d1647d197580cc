/* Opening hours, document 02 (m). */
#include "taking.h"

/* ---- Dates ---- */

static bool is_leap_year(uint32_t year) {
    return year % 400 == 0 || (year % 4 == 0 && year % 100 != 0);
}

static uint32_t month_length(uint32_t year, uint32_t month) {
    static const uint32_t lengths[] = {31, 28, 31, 30, 31, 30, 31, 31, 30, 31, 30, 31};
    return lengths[month - 1] + (month == 2 && is_leap_year(year));
}

bool reference_is_date(reference_date date) {
    return date.month >= 1 && date.month <= 12 && date.day >= 1 &&
           date.day <= month_length(date.year, date.month);
}

bool reference_is_later(reference_date date, reference_date other) {
    if (date.year != other.year)
        return date.year > other.year;
    if (date.month != other.month)
        return date.month > other.month;
    return date.day > other.day;
}

uint32_t reference_day_number(reference_date date) {
    uint32_t days = 0;
    for (uint32_t year = 2000; year < date.year; year++)
        days += is_leap_year(year) ? 366 : 365;
    for (uint32_t month = 1; month < date.month; month++)
        days += month_length(date.year, month);
    return days + date.day - 1;
}

/* ---- Words to calendar ---- */

static bool take_entry(cursor *from, reference_entry *entry) {
    reference_date *date = &entry->date;
    return take(from, 2000, 2099, &date->year) && take(from, 1, 12, &date->month) &&
           take(from, 1, 31, &date->day) && take(from, 0, 1440, &entry->opening) &&
           take(from, entry->opening + 1, 1440, &entry->closing) &&
           take(from, 1, 255, &entry->plan);
}

static bool take_entries(cursor *from, reference_calendar *calendar) {
    if (!take(from, 0, MOST_ENTRIES, &calendar->entries))
        return false;
    for (size_t i = 0; i < calendar->entries; i++) {
        reference_entry *entry = &calendar->entry[i];
        size_t first = from->at;
        if (!take_entry(from, entry))
            return false;
        if (!reference_is_date(entry->date) ||
            (i > 0 && !reference_is_later(entry->date, calendar->entry[i - 1].date)))
            return stop(from, TOWHEPAMU_DATE, first);
    }
    return true;
}

towhepamu_checked reference_read_calendar(const uint32_t *words, size_t count,
                                          reference_calendar *calendar) {
    cursor from = {words, count, 0, accepted};
    if (take_entries(&from, calendar))
        take_end(&from);
    return from.answer;
}

/* ---- The answer ---- */

static towhepamu_ruled unruled(towhepamu_checked why) {
    return (towhepamu_ruled){why.refusal, why.place, 0, 0};
}

towhepamu_ruled reference_ask(const reference_calendar *calendar, reference_date date,
                              uint32_t minute) {
    if (date.year < 2000 || date.year > 2099 || !reference_is_date(date) || minute > 1439)
        return unruled(refused(TOWHEPAMU_QUESTION, 0));
    towhepamu_ruled answer = unruled(accepted);
    size_t later = 0; /* how many entries are not, and so the first that is */
    while (later < calendar->entries && !reference_is_later(calendar->entry[later].date, date))
        later++;
    if (later > 0) {
        const reference_entry *ruling = &calendar->entry[later - 1];
        if (ruling->opening <= minute && minute < ruling->closing)
            answer.plan = ruling->plan;
    }
    if (later < calendar->entries)
        answer.days =
            reference_day_number(calendar->entry[later].date) - reference_day_number(date);
    return answer;
}

towhepamu_ruled reference_rule(const uint8_t *text, size_t text_len, uint32_t year, uint32_t month,
                               uint32_t day, uint32_t minute) {
    uint32_t words[MOST_WORDS];
    size_t count = 0;
    reference_calendar calendar;
    towhepamu_checked test = reference_words(text, text_len, words, MOST_WORDS, &count);
    if (passes(test))
        test = reference_read_calendar(words, count, &calendar);
    return passes(test) ? reference_ask(&calendar, (reference_date){year, month, day}, minute)
                        : unruled(test);
}

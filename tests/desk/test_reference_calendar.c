/*
 * The reference's calendar by itself: its dates and day numbers beside the C library's, for all
 * days from 2000 to 2099; known calendars; and drawn ones walked through day by day, with what
 * rules kept on the way and what follows found from the other end.
 */
#define _DEFAULT_SOURCE
#include "drawn_calendars.h"
#include "expect.h"
#include "known_calendars.h"
#include <string.h>
#include <time.h>

enum { DAYS = 36525, WALKED = 24, LARGE_WALKED = 6 };

/* By the C library. */
static reference_date dates[DAYS];

/* ---- Dates ---- */

static reference_date date_of(time_t second) {
    struct tm at;
    gmtime_r(&second, &at);
    return (reference_date){(uint32_t)at.tm_year + 1900, (uint32_t)at.tm_mon + 1,
                            (uint32_t)at.tm_mday};
}

static time_t second_of(reference_date date) {
    struct tm at = {
        .tm_year = (int)date.year - 1900, .tm_mon = (int)date.month - 1, .tm_mday = (int)date.day};
    return timegm(&at);
}

static bool is_same_date(reference_date a, reference_date b) {
    return memcmp(&a, &b, sizeof a) == 0;
}

static void test_days(void) {
    time_t first = second_of((reference_date){2000, 1, 1});
    for (uint32_t day = 0; day < DAYS; day++) {
        dates[day] = date_of(first + (time_t)day * 86400);
        expect(reference_day_number(dates[day]) == day, "its number", "a day");
        expect(!reference_is_later(dates[day], dates[day]), "not later than itself", "a day");
        if (day > 0)
            expect(reference_is_later(dates[day], dates[day - 1]) &&
                       !reference_is_later(dates[day - 1], dates[day]),
                   "later than the day before", "a day");
    }
    expect(is_same_date(dates[0], (reference_date){2000, 1, 1}) &&
               is_same_date(dates[36494], (reference_date){2099, 12, 1}) &&
               is_same_date(dates[DAYS - 1], (reference_date){2099, 12, 31}),
           "first and last", "the days");
}

/* A date that there is not is taken by the C library as another one. */
static void test_dates(void) {
    size_t there = 0;
    for (uint32_t year = 2000; year <= 2099; year++)
        for (uint32_t month = 0; month <= 13; month++)
            for (uint32_t day = 0; day <= 32; day++) {
                reference_date date = {year, month, day};
                bool is = is_same_date(date_of(second_of(date)), date);
                there += is;
                expect(reference_is_date(date) == is, "whether there is", "a date");
            }
    expect(there == DAYS, "how many there are", "the dates");
    for (uint32_t year = 1600; year <= 2400; year += 100)
        expect(reference_is_date((reference_date){year, 2, 29}) == (year % 400 == 0),
               "29 February of a century", "a date");
}

/* ---- Known calendars ---- */

static bool is_same_answer(towhepamu_ruled a, towhepamu_ruled b) {
    return memcmp(&a, &b, sizeof a) == 0;
}

static void test_known(const known_calendar *known) {
    towhepamu_ruled answer =
        reference_rule((const uint8_t *)known->text, strlen(known->text), known->date.year,
                       known->date.month, known->date.day, known->minute);
    expect(is_same_answer(answer, known->answer), "the answer", known->name);
}

/* The longest calendar: 200 entries of any dates have room in a text only where it is tight. */
static void test_longest(void) {
    static char text[TOWHEPAMU_MOST_TEXT_BYTES + 1];
    size_t len = (size_t)snprintf(text, sizeof text, "%d", MOST_ENTRIES);
    for (uint32_t i = 0; i < MOST_ENTRIES; i++)
        len += (size_t)snprintf(text + len, sizeof text - len, " %u %u %u 0 1 %u", dates[i].year,
                                dates[i].month, dates[i].day, i + 1);
    for (uint32_t i = 0; i < MOST_ENTRIES; i++) {
        towhepamu_ruled expected = {0, 0, i + 1, i + 1 < MOST_ENTRIES};
        expect(is_same_answer(reference_rule((const uint8_t *)text, len, dates[i].year,
                                             dates[i].month, dates[i].day, 0),
                              expected),
               "an entry", "200 entries");
    }
    memset(text + len, ' ', sizeof text - len);
    towhepamu_ruled most = {0, 0, 200, 0}, beyond = {1, TOWHEPAMU_MOST_TEXT_BYTES, 0, 0};
    expect(is_same_answer(
               reference_rule((const uint8_t *)text, TOWHEPAMU_MOST_TEXT_BYTES, 2099, 12, 31, 0),
               most),
           "4,096 bytes", "200 entries");
    expect(
        is_same_answer(reference_rule((const uint8_t *)text, sizeof text, 2099, 12, 31, 0), beyond),
        "4,097 bytes", "200 entries");
}

/* ---- Day by day ---- */

/* The days from each day to the next entry's: from the last day back, one more each day. */
static void count_back(const reference_calendar *calendar, uint32_t to_next[DAYS]) {
    uint32_t left = calendar->entries, next = 0;
    for (uint32_t day = DAYS; day-- > 0;) {
        to_next[day] = next;
        next += next > 0;
        if (left > 0 && is_same_date(dates[day], calendar->entry[left - 1].date)) {
            left--;
            next = 1;
        }
    }
    expect(left == 0, "every entry has its day", "a calendar");
}

/* A day of a calendar, and what it must answer then. */
typedef struct {
    const reference_calendar *calendar;
    const reference_entry *ruling; /* NULL before the first entry */
    uint32_t day, to_next;
} walked_day;

static void test_minute(const walked_day *on, uint32_t minute, uint64_t plan) {
    expect(is_same_answer(reference_ask(on->calendar, dates[on->day], minute),
                          (towhepamu_ruled){0, 0, plan, on->to_next}),
           "the answer", "a day of a calendar");
}

static void test_day(const walked_day *on) {
    const reference_entry none = {{2000, 1, 1}, 480, 1080, 0};
    const reference_entry *ruling = on->ruling == NULL ? &none : on->ruling;
    test_minute(on, ruling->opening, ruling->plan);
    test_minute(on, ruling->closing - 1, ruling->plan);
    if (ruling->opening > 0) {
        test_minute(on, 0, 0);
        test_minute(on, ruling->opening - 1, 0);
    }
    if (ruling->closing < 1440) {
        test_minute(on, ruling->closing, 0);
        test_minute(on, 1439, 0);
    }
}

static void walk_through(generator *g, uint32_t most) {
    static uint32_t words[1 + MOST_ENTRIES * ENTRY_WORDS], to_next[DAYS];
    static reference_calendar calendar;
    size_t count = draw_calendar(g, most, words), next = 0;
    walked_day on = {&calendar, NULL, 0, 0};
    expect(is(reference_read_calendar(words, count, &calendar), 0, 0), "reads", "a calendar");
    count_back(&calendar, to_next);
    for (on.day = 0; on.day < DAYS; on.day++) {
        if (next < calendar.entries && is_same_date(dates[on.day], calendar.entry[next].date))
            on.ruling = &calendar.entry[next++];
        on.to_next = to_next[on.day];
        test_day(&on);
    }
}

int main(void) {
    generator g = {20000229};
    test_days();
    test_dates();
    for (size_t k = 0; k < KNOWN_CALENDARS; k++)
        test_known(&known_calendars[k]);
    test_longest();
    for (size_t n = 0; n < WALKED; n++)
        walk_through(&g, n < LARGE_WALKED ? MOST_ENTRIES : 12);
    printf("reference: calendar: %zu tests, %zu fail\n", tests, failures);
    return failures > 0;
}

/*
 * The archive's calendar against the reference, on calendars drawn from a fixed seed, damaged ones
 * and known ones; of some all days from 2000 to 2099. The same answers, and not a byte of the text
 * or around it touched.
 */
#define _DEFAULT_SOURCE
#include "drawn_calendars.h"
#include "known_calendars.h"
#include "lent.h"
#include <inttypes.h>

enum {
    CALENDARS = 6000,
    LARGE_CALENDARS = 600,
    SWEPT = 12,
    LARGE_SWEPT = 2,
    QUESTIONS = 12,
    MOST_REPORTED = 10,
    REFUSALS = 19
};

/* The text that is lent, and its calendar where it reads. */
static lent text;
static reference_calendar calendar;

static size_t compared, differ, seen[REFUSALS];

/* What accepted questions were about, so that a run that had none is told. */
static size_t in_force, closed, before_all, on_a_date, over_days;

/* ---- One comparison ---- */

static void report(const char *what, question asked, towhepamu_ruled answer,
                   towhepamu_ruled expected) {
    if (++differ > MOST_REPORTED)
        return;
    printf("desk: calendar: %s; asked for %" PRIu32 "-%" PRIu32 "-%" PRIu32 " minute %" PRIu32
           ", text:\n%.*s\n"
           "  archive: refusal %" PRIu64 " place %" PRIu64 " plan %" PRIu64 " days %" PRIu64 "\n"
           "  reference: refusal %" PRIu64 " place %" PRIu64 " plan %" PRIu64 " days %" PRIu64 "\n",
           what, asked.date.year, asked.date.month, asked.date.day, asked.minute, (int)text.len,
           (const char *)text.bytes, answer.refusal, answer.place, answer.plan, answer.days,
           expected.refusal, expected.place, expected.plan, expected.days);
}

static void note(question asked, towhepamu_ruled answer) {
    bool rules = false;
    for (size_t i = 0; i < calendar.entries; i++) {
        bool later = reference_is_later(calendar.entry[i].date, asked.date);
        rules = rules || !later;
        on_a_date += !later && !reference_is_later(asked.date, calendar.entry[i].date);
    }
    in_force += answer.plan > 0;
    closed += rules && answer.plan == 0;
    before_all += !rules && calendar.entries > 0;
    over_days += answer.days > 1;
}

static void compare(question asked) {
    towhepamu_ruled expected = reference_rule(text.bytes, text.len, asked.date.year,
                                              asked.date.month, asked.date.day, asked.minute);
    towhepamu_ruled answer = towhepamu_calendar(text.bytes, text.len, asked.date.year,
                                                asked.date.month, asked.date.day, asked.minute);
    compared++;
    seen[expected.refusal]++;
    if (expected.refusal == TOWHEPAMU_ACCEPTED)
        note(asked, expected);
    if (memcmp(&answer, &expected, sizeof answer) != 0)
        report("answers otherwise", asked, answer, expected);
}

/* ---- One text ---- */

static void lend_text(generator *g, const uint8_t *bytes, size_t len) {
    uint32_t words[MOST_WORDS];
    size_t count = 0;
    lend_copy(&text, bytes, len, one_in(g, 2) ? 0 : GUARD);
    bool reads = reference_words(bytes, len, words, MOST_WORDS, &count).refusal == 0 &&
                 reference_read_calendar(words, count, &calendar).refusal == 0;
    if (!reads)
        calendar.entries = 0;
}

static void test_untouched(const uint8_t *bytes, size_t len) {
    if (!still_has(&text, bytes, len) && ++differ <= MOST_REPORTED)
        puts("desk: calendar: the text is written to");
}

static void compare_known(generator *g, const known_calendar *known) {
    const uint8_t *bytes = (const uint8_t *)known->text;
    lend_text(g, bytes, strlen(known->text));
    compare((question){known->date, known->minute});
    test_untouched(bytes, strlen(known->text));
}

/* Every date of the century, and some that there are not, at two minutes drawn for each. */
static void compare_all_days(generator *g) {
    for (uint32_t year = 2000; year <= 2099; year++)
        for (uint32_t month = 1; month <= 12; month++)
            for (uint32_t day = 1; day <= 31; day++)
                for (size_t n = 0; n < 2; n++) {
                    uint32_t minute = draw_question(g, &calendar).minute;
                    compare((question){{year, month, day}, minute});
                }
}

static void compare_calendar(generator *g, uint32_t most, bool all_days) {
    static uint32_t words[MOST_DRAWN_WORDS];
    static uint8_t bytes[MOST_DRAWN_TEXT];
    size_t count = draw_calendar(g, most, words);
    uint64_t harm = all_days ? 3 : draw(g, 4); /* to the words, to the text, or none */
    for (size_t times = harm == 0 ? draw_between(g, 1, 2) : 0; times > 0; times--)
        damage_calendar(g, words, &count);
    size_t len = write_text(g, words, count, !all_days && one_in(g, 2), bytes);
    if (harm == 1)
        damage_text(g, bytes, &len);
    lend_text(g, bytes, len);
    for (size_t n = 0; n < QUESTIONS; n++)
        compare(draw_question(g, &calendar));
    if (all_days)
        compare_all_days(g);
    test_untouched(bytes, len);
}

/* ---- All of them ---- */

static bool print_seen(void) {
    static const size_t possible[] = {0, 1, 2, 3, 17, 18};
    bool all = true;
    printf("desk: calendar:");
    for (size_t i = 0; i < sizeof possible / sizeof possible[0]; i++) {
        printf("%s %zu: %zu", i == 0 ? " refusal" : ",", possible[i], seen[possible[i]]);
        all = all && seen[possible[i]] > 0;
    }
    printf(
        "\ndesk: calendar: plans in force %zu, outside hours %zu, before the first entry %zu, on "
        "an entry's date %zu, days before the next %zu; %zu compared, %zu differ\n",
        in_force, closed, before_all, on_a_date, over_days, compared, differ);
    return all && in_force > 0 && closed > 0 && before_all > 0 && on_a_date > 0 && over_days > 0;
}

int main(void) {
    generator g = {20991231};
    text = make_room();
    for (size_t k = 0; k < KNOWN_CALENDARS; k++)
        compare_known(&g, &known_calendars[k]);
    for (size_t n = 0; n < CALENDARS; n++)
        compare_calendar(&g, (uint32_t)draw(&g, 12), false);
    for (size_t n = 0; n < LARGE_CALENDARS; n++)
        compare_calendar(&g, (uint32_t)draw_between(&g, 100, MOST_ENTRIES), false);
    for (size_t n = 0; n < SWEPT; n++)
        compare_calendar(&g, n < LARGE_SWEPT ? 150 : 8, true);
    bool whole = print_seen();
    return differ > 0 || !whole;
}

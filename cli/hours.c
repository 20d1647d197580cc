/* hours CALENDAR [DATE [TIME]]: which plan of a calendar is in force, and when the next entry
   comes. */
#include "calendar.h"
#include "commands.h"
#include "files.h"
#include <inttypes.h>
#include <stdio.h>

static towhepamu_ruled ask(const number_list *list, date on, uint32_t minute) {
    return towhepamu_calendar(list->text, list->text_len, on.year, on.month, on.day, minute);
}

/* ---- What the entries say ---- */

/* A day of a calendar. */
typedef struct {
    const parsed_calendar *of;
    date on;
    size_t begun; /* how many entries are of this date or an earlier one; the last of them rules */
} calendar_day;

static calendar_day day_of(const parsed_calendar *of, date on) {
    calendar_day day = {of, on, 0};
    while (day.begun < of->entries && day_number(of->entry[day.begun].from) <= day_number(on))
        day.begun++;
    return day;
}

/* NULL before the first entry. */
static const calendar_entry *ruling_on(const calendar_day *day) {
    return day->begun == 0 ? NULL : &day->of->entry[day->begun - 1];
}

/* NULL where none follows. */
static const calendar_entry *next_after(const calendar_day *day) {
    return day->begun == day->of->entries ? NULL : &day->of->entry[day->begun];
}

static uint32_t days_to_next(const calendar_day *day) {
    const calendar_entry *next = next_after(day);
    return next == NULL ? 0 : day_number(next->from) - day_number(day->on);
}

static uint32_t plan_by_entries(const calendar_day *day, uint32_t minute) {
    const calendar_entry *ruling = ruling_on(day);
    bool open = ruling != NULL && ruling->opening <= minute && minute < ruling->closing;
    return open ? ruling->plan : 0;
}

/* The library's plan. One that answers otherwise than the entries say errs. */
static uint32_t plan_at(const calendar_day *day, uint32_t minute) {
    towhepamu_ruled answer = ask(&day->of->list, day->on, minute);
    uint32_t plan = plan_by_entries(day, minute), days = days_to_next(day);
    if (answer.refusal != TOWHEPAMU_ACCEPTED || answer.plan != plan || answer.days != days)
        give_up("%s: for %s, %s the library answers refusal %" PRIu64 ", plan %" PRIu64
                ", days %" PRIu64 "; the entries say plan %" PRIu32 ", days %" PRIu32,
                file_words(day->of->list.file), full_date(day->on).text, clock_of(minute).text,
                answer.refusal, answer.plan, answer.days, plan, days);
    return plan;
}

/* ---- One day ---- */

static void print_ruling(const calendar_day *day) {
    const calendar_entry *ruling = ruling_on(day);
    if (ruling == NULL)
        puts(": no entry rules");
    else
        printf(": entry %zu rules, from %s on\n", day->begun, full_date(ruling->from).text);
}

static void print_next(const calendar_day *day) {
    const calendar_entry *next = next_after(day);
    printf("days %-7" PRIu32, days_to_next(day));
    if (next == NULL)
        puts("no entry follows");
    else
        printf("to entry %zu, %s\n", day->begun + 1, full_date(next->from).text);
}

static void print_minute(const calendar_day *day, uint32_t minute) {
    const calendar_entry *ruling = ruling_on(day);
    uint32_t plan = plan_at(day, minute);
    printf("%s, %s, minute %" PRIu32, full_date(day->on).text, clock_of(minute).text, minute);
    print_ruling(day);
    if (ruling == NULL)
        puts("plan 0");
    else if (plan != 0)
        printf("plan %-7" PRIu32 "from %s up to, but without, %s\n", plan,
               clock_of(ruling->opening).text, clock_of(ruling->closing).text);
    else
        printf("plan 0      plan %" PRIu32 " is only from %s up to, but without, %s\n",
               ruling->plan, clock_of(ruling->opening).text, clock_of(ruling->closing).text);
    print_next(day);
}

/* Each plan from its first minute up to, but without, the next one's. */
static void print_day(const calendar_day *day) {
    printf("%s", full_date(day->on).text);
    print_ruling(day);
    for (uint32_t from = 0, to = 0; from < TOWHEPAMU_DAY_MINUTES; from = to) {
        uint32_t plan = plan_at(day, from);
        while (to < TOWHEPAMU_DAY_MINUTES && plan_at(day, to) == plan)
            to++;
        printf("plan %-7" PRIu32 "from %4" PRIu32 " up to, but without, %4" PRIu32 "    %s to %s\n",
               plan, from, to, clock_of(from).text, clock_of(to).text);
    }
    print_next(day);
}

/* ---- Every entry ---- */

/* The minutes at which an entry's plan begins and ends, and those before them. */
static void test_entry(const calendar_day *day, const calendar_entry *entry) {
    const uint32_t edges[] = {entry->opening, entry->closing};
    for (size_t i = 0; i < 2; i++) {
        if (edges[i] > 0)
            plan_at(day, edges[i] - 1);
        if (edges[i] < TOWHEPAMU_DAY_MINUTES)
            plan_at(day, edges[i]);
    }
}

static void print_entry(const parsed_calendar *of, size_t i) {
    const calendar_entry *entry = &of->entry[i];
    calendar_day day = day_of(of, entry->from);
    test_entry(&day, entry);
    printf("%5zu  %-9s %s%9" PRIu32 "  %s%9" PRIu32 "  %s%6" PRIu32 "    %s\n", i + 1,
           weekday_of(entry->from), plain_date(entry->from).text, entry->opening,
           clock_of(entry->opening).text, entry->closing, clock_of(entry->closing).text,
           entry->plan,
           next_after(&day) == NULL ? "from then on" : amount_of(days_to_next(&day), "day").text);
}

static void print_entries(const parsed_calendar *of) {
    puts("An entry rules from its date until the day before the next. Its plan is in force from "
         "the\n"
         "opening minute up to, but without, the closing one; otherwise, and before the first "
         "entry,\n"
         "plan 0.");
    if (of->entries == 0)
        puts("\nThere is no entry.");
    else
        printf("\n%5s  %-20s%16s%16s%6s    %s\n", "entry", "date", "opening", "closing", "plan",
               "rules");
    for (size_t i = 0; i < of->entries; i++)
        print_entry(of, i);
}

/* ---- The call ---- */

/* What is asked; the first minute of the day, or of all, where no time or date is given. */
typedef struct {
    date on;
    uint32_t minute;
} question;

static question question_of(const arguments *given) {
    const date first = {TOWHEPAMU_FIRST_YEAR, 1, 1};
    return (question){given->date == NULL ? first : date_of(given->date),
                      given->clock == NULL ? 0 : minute_of(given->clock)};
}

static bool has_minute(question asked) {
    return asked.minute < TOWHEPAMU_DAY_MINUTES;
}

static int tell_refusal(const arguments *given, const number_list *list, question asked,
                        towhepamu_ruled why) {
    if (why.refusal == TOWHEPAMU_QUESTION && !is_date(asked.on))
        fprintf(stderr, "towhepamu: there is no date %s: %s\n", given->date,
                dates_there_are(asked.on).text);
    else if (why.refusal == TOWHEPAMU_QUESTION && !has_minute(asked))
        fprintf(stderr,
                "towhepamu: there is no time %s: the hours are 00 to 23, the minutes 00 to 59\n",
                given->clock);
    else
        tell_calendar_refusal(list, why.refusal, why.place);
    return REFUSED;
}

int run_hours(const arguments *given) {
    static parsed_calendar of;
    question asked = question_of(given);
    read_numbers(given->file[0], &calendar_form, &of.list);
    towhepamu_ruled answer = ask(&of.list, asked.on, asked.minute);
    if (answer.refusal != TOWHEPAMU_ACCEPTED)
        return tell_refusal(given, &of.list, asked, answer);
    if (!calendar_fill_in(&of) || !is_date(asked.on) || !has_minute(asked))
        give_up("%s: this program and the library read it, or the question, differently",
                file_words(of.list.file));
    printf("%s: which plan is in force; minutes are the site's local time\n\n",
           file_words(of.list.file));
    calendar_day day = day_of(&of, asked.on);
    if (given->date == NULL)
        print_entries(&of);
    else if (given->clock == NULL)
        print_day(&day);
    else
        print_minute(&day, asked.minute);
    return WELL;
}

#include "calendar.h"
#include "files.h"
#include "list_words.h"
#include <inttypes.h>

/* ---- What a calendar says ---- */

static const section sections[] = {{ENTRIES_COUNT, YEAR, PLAN_NUMBER, false}};

static const field_words fields[] = {
    [ENTRIES_COUNT] = {"count of entries", NULL, 0, TOWHEPAMU_MOST_ENTRIES},
    [YEAR] = {"year", "entry", TOWHEPAMU_FIRST_YEAR, TOWHEPAMU_LAST_YEAR},
    [MONTH] = {"month", "entry", 1, 12},
    [DAY] = {"day", "entry", 1, 31},
    [OPENING] = {"opening minute", "entry", 0, TOWHEPAMU_DAY_MINUTES},
    [CLOSING] = {"closing minute", "entry", 0, TOWHEPAMU_DAY_MINUTES},
    [PLAN_NUMBER] = {"plan number", "entry", 1, 255},
};

const file_form calendar_form = {"a calendar", fields, sections, 1};

/* The entry whose year has that index. All its numbers must be there. */
static calendar_entry entry_at(const number_list *list, size_t index) {
    const placed_number *number = &list->numbers[index];
    return (calendar_entry){{number[0].value, number[1].value, number[2].value},
                            number[OPENING - YEAR].value,
                            number[CLOSING - YEAR].value,
                            number[PLAN_NUMBER - YEAR].value};
}

enum { NUMBERS_OF_AN_ENTRY = PLAN_NUMBER - YEAR + 1 };

bool calendar_fill_in(parsed_calendar *of) {
    of->entries = of->list.numbers[0].value;
    if (of->entries > TOWHEPAMU_MOST_ENTRIES ||
        of->list.count != 1 + of->entries * NUMBERS_OF_AN_ENTRY)
        return false;
    for (size_t i = 0; i < of->entries; i++)
        of->entry[i] = entry_at(&of->list, 1 + i * NUMBERS_OF_AN_ENTRY);
    return true;
}

/* ---- Refusals in words ---- */

/* 3: a year, which has no commas, and a closing minute, whose range the opening one begins. */
static bool tell_calendar_range(const number_list *list, size_t index) {
    int field = name_of(list, index).field;
    digits most = grouped(TOWHEPAMU_DAY_MINUTES);
    if (field == YEAR)
        tell_number(list, index, "; it must be %d to %d", TOWHEPAMU_FIRST_YEAR,
                    TOWHEPAMU_LAST_YEAR);
    else if (field == CLOSING && list->numbers[index - 1].value == TOWHEPAMU_DAY_MINUTES)
        tell_number(list, index,
                    "; it must be above the opening minute, %d, and at most %s: let it open "
                    "earlier",
                    TOWHEPAMU_DAY_MINUTES, most.text);
    else if (field == CLOSING)
        tell_number(list, index,
                    "; it must be above the opening minute, %" PRIu32 ", and at most %s",
                    list->numbers[index - 1].value, most.text);
    return field == YEAR || field == CLOSING;
}

/* 17: a date that there is not, or that is not later than the one before. */
static bool tell_date(const number_list *list, size_t index) {
    number_name name = name_of(list, index);
    if (name.field != YEAR || list->count - index < NUMBERS_OF_AN_ENTRY)
        return false;
    size_t offset = list->numbers[index].offset;
    date of = entry_at(list, index).from;
    if (!is_date(of))
        tell_at(list->file, list->text, offset, "date of entry %zu is %s, which there is not: %s",
                name.of, plain_date(of).text, dates_there_are(of).text);
    else if (name.of > 1)
        tell_at(list->file, list->text, offset,
                "date of entry %zu is %s; it must be later than %s, that of entry %zu: entries "
                "stand by date, each date once",
                name.of, full_date(of).text,
                full_date(entry_at(list, index - NUMBERS_OF_AN_ENTRY).from).text, name.of - 1);
    return !is_date(of) || name.of > 1;
}

void tell_calendar_refusal(const number_list *list, uint64_t refusal, uint64_t place) {
    bool is_there = place < list->count;
    if (refusal == TOWHEPAMU_RANGE && is_there && tell_calendar_range(list, place))
        return;
    if (refusal == TOWHEPAMU_DATE && is_there && tell_date(list, place))
        return;
    tell_list_refusal(list, refusal, place);
}

#include "words.h"
#include "files.h"
#include "list_words.h"
#include <inttypes.h>

/* ---- 3: ranges ---- */

/* The same number of the level before; it must be below. */
static bool tell_rise(const number_list *list, size_t index, number_name name) {
    if ((name.field != SPEED && name.field != POWER) || name.of < 2 ||
        list->numbers[index].value > list->numbers[index - 2].value)
        return false;
    tell_number(list, index,
                "; it must be above %" PRIu32 ", the %s: levels stand from slow to fast; "
                "leave out one that is no faster, or faster without drawing more",
                list->numbers[index - 2].value, name_at(list, index - 2).text);
    return true;
}

/* The value of a number that stands before. */
static uint32_t value_before(const number_list *list, size_t index, site_field field, size_t of) {
    while (index-- > 0) {
        number_name name = name_of(list, index);
        if (name.field == (int)field && name.of == of)
            return list->numbers[index].value;
    }
    return 0;
}

/* Numbers whose range another number ends: deadlines and their count. */
static bool tell_deadlines(const number_list *list, size_t index, number_name name) {
    if (name.field == DEADLINES_COUNT) {
        uint32_t tasks = value_before(list, index, TASKS_COUNT, 0);
        tell_number(list, index,
                    "; it must be 0%s%s, the count of tasks: compare that with the tasks, too",
                    tasks == 0 ? "" : " or ", tasks == 0 ? "" : grouped(tasks).text);
    } else if (name.field == DEADLINE)
        tell_number(list, index, "; it must be 1 to %s, the period of that task",
                    grouped(value_before(list, index, PERIOD, name.of)).text);
    return name.field == DEADLINES_COUNT || name.field == DEADLINE;
}

/* A penalty, which may be one number outside its range. */
static bool tell_penalty(const number_list *list, size_t index, number_name name) {
    const field_words *words = words_of(list, PENALTY);
    if (name.field == PENALTY)
        tell_number(list, index,
                    "; it must be %s to %s, or 4294967295 for a task that may not be refused",
                    grouped(words->least).text, grouped(words->most).text);
    return name.field == PENALTY;
}

/* Whether a number's range is more than the form says of it; it is then told. */
static bool tell_site_range(const number_list *list, size_t index) {
    number_name name = name_of(list, index);
    return tell_rise(list, index, name) || tell_deadlines(list, index, name) ||
           tell_penalty(list, index, name);
}

/* ---- 4: the span ---- */

static uint64_t common_divisor(uint64_t a, uint64_t b) {
    return b == 0 ? a : common_divisor(b, a % b);
}

static void tell_span(const number_list *list, size_t index) {
    uint64_t span = 1;
    size_t others = 0;
    for (size_t i = 0; i <= index; i++)
        if (name_of(list, i).field == PERIOD) {
            uint64_t period = list->numbers[i].value;
            span = span / common_divisor(span, period) * period;
            others += i < index;
        }
    tell_number(list, index,
                ": with the period%s before it the span would be %s ticks, above %s; "
                "choose periods with a smaller common multiple",
                others == 1 ? "" : "s", grouped(span).text, grouped(TOWHEPAMU_MOST_SPAN).text);
}

void tell_site_refusal(const parsed_site *site, uint64_t refusal, uint64_t place) {
    const number_list *list = &site->list;
    bool is_there = place < list->count;
    if (refusal == TOWHEPAMU_RANGE && is_there && tell_site_range(list, place))
        return;
    if (refusal == TOWHEPAMU_SPAN && is_there)
        tell_span(list, place);
    else if (refusal == TOWHEPAMU_NO_PLAN)
        tell_what_does_not_fit(site);
    else
        tell_list_refusal(list, refusal, place);
}

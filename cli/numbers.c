#include "numbers.h"
#include "files.h"

/* ---- Reading ---- */

static bool is_digit(uint8_t byte) {
    return '0' <= byte && byte <= '9';
}

void take_numbers(number_list *list) {
    size_t at = 0, end = list->text_len;
    if (end > TOWHEPAMU_MOST_TEXT_BYTES)
        end = TOWHEPAMU_MOST_TEXT_BYTES;
    list->count = 0;
    while (at < end &&
           (is_digit(list->text[at]) || list->text[at] == ' ' || list->text[at] == '\n')) {
        placed_number *number = &list->numbers[list->count];
        number->offset = at;
        uint64_t value = 0;
        for (; at < end && is_digit(list->text[at]); at++)
            value = value > UINT32_MAX ? value : 10 * value + (list->text[at] - '0');
        number->digits = at - number->offset;
        number->value = (uint32_t)value;
        if (value > UINT32_MAX)
            return;
        if (number->digits > 0)
            list->count++;
        else
            at++;
    }
}

void read_numbers(const char *name, const file_form *form, number_list *list) {
    list->form = form;
    list->file = name;
    list->text_len = read_file(name, list->text, sizeof list->text);
    take_numbers(list);
}

/* ---- Which number each one is ---- */

const field_words *words_of(const number_list *list, int field) {
    static const field_words left_over = {"number left over", NULL, 0, UINT32_MAX};
    return field == LEFT_OVER ? &left_over : &list->form->fields[field];
}

bool opens_section(const number_list *list, int field) {
    for (size_t s = 0; s < list->form->section_count; s++)
        if (list->form->sections[s].count == field)
            return true;
    return false;
}

/* How many numbers follow the count of a section. */
static uint64_t section_length(const section *of, uint32_t count) {
    return of->once ? count : (uint64_t)count * (uint64_t)(of->last - of->first + 1);
}

number_name name_of(const number_list *list, size_t index) {
    uint64_t at = 0;
    for (size_t s = 0; s < list->form->section_count; s++) {
        const section *in = &list->form->sections[s];
        if (index == at)
            return (number_name){in->count, 0};
        uint64_t length = section_length(in, list->numbers[at].value), within = index - at - 1;
        size_t fields_of_one = (size_t)(in->last - in->first) + 1;
        if (within < length && in->once)
            return (number_name){within < fields_of_one ? in->first + (int)within : LEFT_OVER, 0};
        if (within < length)
            return (number_name){in->first + (int)(within % fields_of_one),
                                 within / fields_of_one + 1};
        at += 1 + length;
    }
    return (number_name){LEFT_OVER, 0};
}

size_t count_before(const number_list *list, size_t index) {
    uint64_t at = 0, before = 0;
    for (size_t s = 0; s < list->form->section_count && at < index; s++) {
        before = at;
        at += 1 + section_length(&list->form->sections[s], list->numbers[at].value);
    }
    return before;
}

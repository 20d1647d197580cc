#include "list_words.h"
#include "files.h"
#include <inttypes.h>
#include <stdarg.h>
#include <stdio.h>

name_words name_in_words(const number_list *list, number_name name) {
    name_words out;
    const field_words *words = words_of(list, name.field);
    if (words->of == NULL)
        snprintf(out.text, sizeof out.text, "%s", words->words);
    else
        snprintf(out.text, sizeof out.text, "%s of %s %zu", words->words, words->of, name.of);
    return out;
}

name_words name_at(const number_list *list, size_t index) {
    return name_in_words(list, name_of(list, index));
}

void tell_number(const number_list *list, size_t index, const char *format, ...) {
    char wrong[256];
    va_list given;
    va_start(given, format);
    vsnprintf(wrong, sizeof wrong, format, given);
    va_end(given);
    tell_at(list->file, list->text, list->numbers[index].offset, "%s is %" PRIu32 "%s",
            name_at(list, index).text, list->numbers[index].value, wrong);
}

/* ---- 1: the text ---- */

static void tell_text(const number_list *list, size_t at) {
    const uint8_t *text = list->text;
    if (at >= TOWHEPAMU_MOST_TEXT_BYTES)
        tell_at(list->file, text, at, "the file has more than %s bytes; shorten it",
                grouped(TOWHEPAMU_MOST_TEXT_BYTES).text);
    else if (text[at] >= '0' && text[at] <= '9') {
        size_t len = list->numbers[list->count].digits;
        tell_at(list->file, text, at, "%s is %.*s%s; no number may be above 4294967295",
                name_at(list, list->count).text, len < 24 ? (int)len : 24, (const char *)text + at,
                len < 24 ? "" : "..");
    } else
        tell_at(list->file, text, at,
                "%s; %s has only digits, spaces and line feeds: remove it, or put a space",
                byte_in_words(text + at, list->text_len - at).text, list->form->what);
}

/* ---- 2: missing or left over ---- */

static void tell_missing(const number_list *list) {
    name_words name = name_at(list, list->count);
    if (list->count == 0) {
        tell_at(list->file, list->text, 0,
                "there is no number: the %s is missing, and all that follows it", name.text);
        return;
    }
    const placed_number *last = &list->numbers[list->count - 1];
    name_words after = name_at(list, list->count - 1);
    size_t before = count_before(list, list->count);
    if (opens_section(list, name_of(list, list->count).field))
        tell_at(list->file, list->text, last->offset + last->digits,
                "the list ends after the %s, %" PRIu32 "; the %s is missing, and what follows it",
                after.text, last->value, name.text);
    else
        tell_at(list->file, list->text, last->offset + last->digits,
                "the list ends after the %s, %" PRIu32
                "; the %s is missing: compare the %s, %" PRIu32 ", with what follows it",
                after.text, last->value, name.text, name_at(list, before).text,
                list->numbers[before].value);
}

static void tell_left_over(const number_list *list, size_t index) {
    const placed_number *first = &list->numbers[index];
    size_t before = count_before(list, index), more = list->count - index - 1;
    char others[96] = " is";
    if (more > 0)
        snprintf(others, sizeof others, " and %s after it are", amount_of(more, "number").text);
    tell_at(list->file, list->text, first->offset,
            "%" PRIu32 "%s left over after the %s: remove %s, or compare the %s, %" PRIu32
            ", with what follows it",
            first->value, others, name_at(list, index - 1).text, more == 0 ? "it" : "them",
            name_at(list, before).text, list->numbers[before].value);
}

/* ---- 3: ranges ---- */

static void tell_range(const number_list *list, size_t index) {
    const field_words *words = words_of(list, name_of(list, index).field);
    tell_number(list, index, "; it must be %s to %s", grouped(words->least).text,
                grouped(words->most).text);
}

void tell_list_refusal(const number_list *list, uint64_t refusal, uint64_t place) {
    if (refusal == TOWHEPAMU_TEXT && place < list->text_len)
        tell_text(list, place);
    else if (refusal == TOWHEPAMU_WORDS && place == list->count)
        tell_missing(list);
    else if (refusal == TOWHEPAMU_WORDS && place < list->count)
        tell_left_over(list, place);
    else if (refusal == TOWHEPAMU_RANGE && place < list->count)
        tell_range(list, place);
    else
        fprintf(stderr, "%s: refused %" PRIu64 " %" PRIu64 "\n", file_words(list->file), refusal,
                place);
}

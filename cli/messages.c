/* The words of messages: numbers, amounts, places and bytes. */
#include "files.h"
#include <inttypes.h>
#include <stdarg.h>
#include <stdio.h>
#include <stdlib.h>
#include <string.h>

digits grouped(uint64_t number) {
    digits out;
    char plain[24];
    int len = snprintf(plain, sizeof plain, "%" PRIu64, number);
    size_t at = 0;
    for (int i = 0; i < len; i++) {
        if (i > 0 && (len - i) % 3 == 0)
            out.text[at++] = ',';
        out.text[at++] = plain[i];
    }
    out.text[at] = 0;
    return out;
}

uint32_t word_of(const char *number) {
    uint64_t word = 0;
    for (; *number != 0 && word <= UINT32_MAX; number++)
        word = 10 * word + (uint64_t)(*number - '0');
    return word < UINT32_MAX ? (uint32_t)word : UINT32_MAX;
}

amount amount_of(uint64_t number, const char *thing) {
    amount out;
    snprintf(out.text, sizeof out.text, "%s %s%s", grouped(number).text, thing,
             number == 1 ? "" : "s");
    return out;
}

void give_up(const char *format, ...) {
    va_list given;
    va_start(given, format);
    fputs("towhepamu: ", stderr);
    vfprintf(stderr, format, given);
    fputc('\n', stderr);
    va_end(given);
    exit(UNUSABLE);
}

void tell_at(const char *file, const uint8_t *text, size_t offset, const char *format, ...) {
    size_t line = 1, column = 1;
    for (size_t i = 0; i < offset; i++) {
        column = text[i] == '\n' ? 1 : column + 1;
        line += text[i] == '\n';
    }
    va_list given;
    va_start(given, format);
    fprintf(stderr, "%s:%zu:%zu: ", file_words(file), line, column);
    vfprintf(stderr, format, given);
    fputc('\n', stderr);
    va_end(given);
}

static bool begins_with(const uint8_t *text, size_t len, const char *bytes) {
    return len >= strlen(bytes) && memcmp(text, bytes, strlen(bytes)) == 0;
}

byte_words byte_in_words(const uint8_t *text, size_t len) {
    static const struct {
        const char *bytes, *words;
    } known[] = {
        {"\t", "a tab"},
        {"\r", "a carriage return"},
        {"\xEF\xBB\xBF", "a byte order mark"},
        {"\xFF\xFE", "a byte order mark (UTF-16)"},
        {"\xFE\xFF", "a byte order mark (UTF-16)"},
        {"\xC2\xA0", "a no-break space"},
        {"\xE2\x88\x92", "a minus sign (not ASCII)"},
        {",", "a comma"},
        {".", "a full stop"},
        {"-", "a minus"},
        {"+", "a plus"},
        {"#", "a number sign"},
        {"\"", "a quotation mark"},
        {";", "a semicolon"},
        {"_", "an underscore"},
        {"'", "an apostrophe"},
    };
    byte_words out;
    for (size_t i = 0; i < sizeof known / sizeof known[0]; i++)
        if (begins_with(text, len, known[i].bytes)) {
            snprintf(out.text, sizeof out.text, "%s", known[i].words);
            return out;
        }
    bool letter = (*text >= 'a' && *text <= 'z') || (*text >= 'A' && *text <= 'Z');
    if (letter)
        snprintf(out.text, sizeof out.text, "the letter '%c'", *text);
    else if (*text > ' ' && *text < 127)
        snprintf(out.text, sizeof out.text, "the character '%c'", *text);
    else
        snprintf(out.text, sizeof out.text, "the byte %d", *text);
    return out;
}

/*
 * A file of numbers: its text, its numbers with where they stand, and, by the form of the file,
 * which number each one is.
 *
 * A form lists what a file says: its sections with their numbers, and each number's name and range.
 */
#ifndef NUMBERS_H
#define NUMBERS_H

#include "towhepamu.h"
#include <stdbool.h>

/* Which number a number is: a field of the form, or none. */
enum { LEFT_OVER = -1 };

typedef struct {
    int field;
    size_t of; /* the level, task or entry that it belongs to, from 1; 0 for none */
} number_name;

typedef struct {
    const char *words;    /* what the number is called */
    const char *of;       /* "level", "task" or "entry" where each has one, else NULL */
    uint32_t least, most; /* its range */
} field_words;

typedef struct {
    int count;       /* the number that opens the section */
    int first, last; /* what follows the count, once or for each level, task or entry */
    bool once;       /* the count is that of the numbers themselves */
} section;

typedef struct {
    const char *what;          /* "a site file" */
    const field_words *fields; /* by field */
    const section *sections;
    size_t section_count;
} file_form;

typedef struct {
    uint32_t value;
    size_t offset, digits; /* where it stands in the text */
} placed_number;

enum { MOST_PLACED_NUMBERS = TOWHEPAMU_MOST_TEXT_BYTES / 2 + 1 };

typedef struct {
    const file_form *form;
    const char *file;
    uint8_t text[TOWHEPAMU_MOST_TEXT_BYTES + 1]; /* one byte more than can be right */
    size_t text_len;
    size_t count;
    placed_number numbers[MOST_PLACED_NUMBERS];
} number_list;

/* Reads a file of that form, and takes its numbers. */
void read_numbers(const char *name, const file_form *form, number_list *list);

/* Takes the numbers of the text, up to its first byte that belongs to none. */
void take_numbers(number_list *list);

/* Which number the one of that index, from 0, is. Those before it must be there. */
number_name name_of(const number_list *list, size_t index);

const field_words *words_of(const number_list *list, int field);

/* Whether that number is the count of a section. */
bool opens_section(const number_list *list, int field);

/* The index of the count that opens the section in which, or after which, a number stands. */
size_t count_before(const number_list *list, size_t index);

#endif

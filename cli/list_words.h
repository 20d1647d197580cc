/* Why a file of numbers is refused, in words on standard error: its file, line and column, which
   number it is, what is wrong with it and what can be done. */
#ifndef LIST_WORDS_H
#define LIST_WORDS_H

#include "numbers.h"

/* A number's name in words: "power of level 3". */
typedef struct {
    char text[64];
} name_words;

name_words name_in_words(const number_list *list, number_name name);
name_words name_at(const number_list *list, size_t index);

/* Tells what is wrong with the number of that index; its name and its value come first. */
void tell_number(const number_list *list, size_t index, const char *format, ...)
    __attribute__((format(printf, 3, 4)));

/* Tells of the refusals that every form has: 1, 2, and 3 for a number outside the form's range. Of
   any other only the number and the place. */
void tell_list_refusal(const number_list *list, uint64_t refusal, uint64_t place);

#endif

/* Refusals of a site in words, on standard error. */
#ifndef WORDS_H
#define WORDS_H

#include "site.h"

/* Tells why a site is refused. For refusal 5 the site must be filled in. */
void tell_site_refusal(const parsed_site *site, uint64_t refusal, uint64_t place);

/* Of a site that is filled in and has no plan: which tasks do not fit together, and by how much. */
void tell_what_does_not_fit(const parsed_site *site);

/* A list in words: "task 2", "tasks 1, 2 and 5"; one bit a task, the lowest for task 1. */
typedef struct {
    char text[80];
} task_words;

task_words tasks_in_words(uint32_t tasks);

#endif

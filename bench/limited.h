/* Planning in a process of its own, which is stopped after a while. */
#ifndef LIMITED_H
#define LIMITED_H

#include "timed.h"

/* The time is the processor's, in seconds; it is infinite where planning was stopped. */
typedef struct {
    double seconds;
    towhepamu_planned answer;
    uint8_t plan[MOST_TASKS];
} limited_plan;

/* A call, and where that takes under 100 ms the least of so many. */
limited_plan plan_limited(plan_entry *plan, const uint8_t *text, size_t text_len,
                          size_t repetitions, unsigned limit_seconds);

/* The whole process of a command with the text on its standard input, in seconds of the
   processor. */
double run_limited(char *const *command, const uint8_t *text, size_t text_len,
                   unsigned limit_seconds);

#endif

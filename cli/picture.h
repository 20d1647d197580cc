/* What both pictures, the SVG and that for a terminal, say of tasks and idle ticks; and the latter.
 */
#ifndef PICTURE_H
#define PICTURE_H

#include "answer.h"

/* "task 1: core 1, level 3, 4 ticks a job, period 10, deadline 4, 2 jobs", without a line's end;
   the deadline only where it is early. */
void print_task_line(const planned_site *answer, size_t task);

/* "An idle tick draws 50; core 3 is off.", without a line's end; for a site with idle power. */
void print_idle_line(const planned_site *answer);

/* "Each job begins by setting the clock: 2 ticks.", in the same way; for a site with start ticks.
 */
void print_start_line(const planned_site *answer);

void print_text_picture(const planned_site *answer);

#endif

/* picture --text SITE: the slot table for a terminal, in lines of a fixed width. */
#include "files.h"
#include "picture.h"
#include <inttypes.h>
#include <stdio.h>

enum { LINE = 60, BETWEEN_NUMBERS = 10 };

void print_task_line(const planned_site *answer, size_t task) {
    const parsed_site *site = &answer->site;
    printf("task %zu: ", task + 1);
    if (answer->plan[task] == 0)
        printf("refused, penalty %s a job", grouped(site->task[task].penalty).text);
    else
        printf("core %zu, level %zu, %s a job", core_of(answer, task), level_of(answer, task),
               amount_of(ticks_of(answer, task), "tick").text);
    printf(", period %s", grouped(site->task[task].period).text);
    if (site_is_early(site, task))
        printf(", deadline %s", grouped(site->task[task].deadline).text);
    printf(", %s", amount_of(site_jobs(site, task), "job").text);
}

void print_idle_line(const planned_site *answer) {
    size_t cores = answer->site.cores, off = 0, told = 0;
    for (size_t c = 1; c <= cores; c++)
        off += !is_awake(answer, c);
    printf("An idle tick draws %s", grouped(answer->site.idle_power).text);
    for (size_t c = 1; c <= cores; c++)
        if (!is_awake(answer, c)) {
            told++;
            printf("%s%zu",
                   told == 1    ? off == 1 ? "; core " : "; cores "
                   : told < off ? ", "
                                : " and ",
                   c);
        }
    fputs(off == 0 ? "." : off == 1 ? " is off." : " are off.", stdout);
}

void print_start_line(const planned_site *answer) {
    printf("Each job begins by setting the clock: %s.",
           amount_of(answer->site.start_ticks, "tick").text);
}

/* A task's number as one character. */
static char character_of(uint8_t task) {
    return ".123456789abc"[task];
}

/* What stands for a tick in the line of a task's jobs. */
static char job_character(const site_task *task, size_t tick) {
    size_t within = tick % task->period;
    if (within >= task->deadline)
        return ' ';
    if (task->deadline == 1)
        return '|';
    return within == 0 ? '[' : within == task->deadline - 1 ? ']' : '-';
}

static void print_axis(size_t first, size_t end) {
    fputs("tick    ", stdout);
    for (size_t t = first; t < end; t += BETWEEN_NUMBERS)
        printf("%-*zu", t + BETWEEN_NUMBERS < end ? BETWEEN_NUMBERS : 1, t);
    puts("");
}

/* The jobs of a task, to the last tick in which there is one. */
static void print_jobs(const site_task *task, size_t first, size_t end) {
    while (end > first && job_character(task, end - 1) == ' ')
        end--;
    for (size_t t = first; t < end; t++)
        putchar(job_character(task, t));
    puts("");
}

static void print_lane(const planned_site *answer, size_t core, size_t first, size_t end) {
    printf("core %zu  ", core);
    for (size_t t = first; t < end; t++)
        putchar(character_of(row_of(answer, core - 1)[t]));
    puts("");
    for (size_t i = 0; i < answer->site.tasks; i++) {
        if (core_of(answer, i) != core)
            continue;
        printf("     %c  ", character_of((uint8_t)(i + 1)));
        print_jobs(&answer->site.task[i], first, end);
    }
}

void print_text_picture(const planned_site *answer) {
    size_t span = answer->site.span;
    printf("%s: span %s, energy %s, penalty %s, cost %s\n", file_words(answer->site.list.file),
           amount_of(span, "tick").text, grouped(answer->price.energy).text,
           grouped(answer->price.penalty).text, grouped(answer->price.cost).text);
    for (size_t first = 0; first < span; first += LINE) {
        size_t end = first + LINE < span ? first + LINE : span;
        puts("");
        print_axis(first, end);
        for (size_t c = 1; c <= answer->site.cores; c++)
            print_lane(answer, c, first, end);
    }
    printf("\n. idle; [ a job's release, ] its last tick before it is due, | both in one tick%s\n",
           site_has_early(&answer->site) ? ", blank after it" : "");
    if (answer->site.idle_power > 0) {
        print_idle_line(answer);
        puts("");
    }
    if (answer->site.start_ticks > 0) {
        print_start_line(answer);
        puts("");
    }
    for (size_t i = 0; i < answer->site.tasks; i++) {
        printf("%c ", character_of((uint8_t)(i + 1)));
        print_task_line(answer, i);
        puts("");
    }
}

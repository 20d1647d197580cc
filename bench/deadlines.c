/*
 * Times planning on random sites with deadlines, beside the same sites with every deadline at its
 * period's end, and beside an older state of itself where bench/deadlines was given one.
 *
 *   deadlines [SITES [REPETITIONS]]
 *
 * The families with deadlines take turns, without idle power and with a high one. A time is that of
 * the archive's call in a process of its own, the least of the repetitions where it is under 100
 * ms; a call is stopped after 20 s. Ends with 1 where the two states answer differently.
 */
#include "instances.h"
#include "limited.h"
#include <math.h>
#include <stdio.h>
#include <stdlib.h>
#include <string.h>

enum { MOST_SITES = 4000, LIMIT_SECONDS = 20 };

/* ---- Sites ---- */

enum { IDLES_TIMED = 2 };
static const enum idle idles[IDLES_TIMED] = {NO_IDLE, HIGH_IDLE};

static size_t family_of(size_t site) {
    return site % TIMED_FAMILIES;
}

static size_t idle_of(size_t site) {
    return site / TIMED_FAMILIES % IDLES_TIMED;
}

static size_t number_of(size_t site) {
    return site / (TIMED_FAMILIES * IDLES_TIMED);
}

static size_t write_drawn(size_t site, uint8_t *text) {
    return write_instance(FIRST_TIMED_FAMILY + family_of(site), number_of(site),
                          idles[idle_of(site)], text);
}

/* The same site with every deadline at its period's end. */
static size_t write_without_deadlines(size_t site, uint8_t *text) {
    reference_instance in;
    reference_read_text(text, write_drawn(site, text), &in);
    for (size_t i = 0; i < in.tasks; i++)
        in.task[i].deadline = in.task[i].period;
    return write_site(&in, text);
}

/* ---- Times, in milliseconds ---- */

enum column { OLDER, NEWER, WITHOUT_DEADLINES, COLUMNS };

#ifdef WITH_BEFORE
plan_entry before_towhepamu_plan;
static plan_entry *const older = before_towhepamu_plan;
#else
static plan_entry *const older = NULL;
#endif

static double times_of[COLUMNS][MOST_SITES];

static double note(enum column column, size_t site, const limited_plan *planned) {
    return times_of[column][site] = 1000 * planned->seconds;
}

/* Whether the two states, where neither was stopped, have the same plan. */
static bool time_site(size_t site, size_t repetitions) {
    uint8_t text[TOWHEPAMU_MOST_TEXT_BYTES];
    size_t len = write_without_deadlines(site, text);
    limited_plan newer, known;
    newer = plan_limited(towhepamu_plan, text, len, repetitions, LIMIT_SECONDS);
    note(WITHOUT_DEADLINES, site, &newer);
    len = write_drawn(site, text);
    newer = plan_limited(towhepamu_plan, text, len, repetitions, LIMIT_SECONDS);
    bool ended = isfinite(note(NEWER, site, &newer));
    if (older == NULL)
        return true;
    known = plan_limited(older, text, len, repetitions, LIMIT_SECONDS);
    ended = isfinite(note(OLDER, site, &known)) && ended;
    return !ended || (memcmp(&newer.answer, &known.answer, sizeof newer.answer) == 0 &&
                      memcmp(newer.plan, known.plan, sizeof newer.plan) == 0);
}

/* ---- The table ---- */

static const size_t parts[] = {50, 90, 99, 100};
enum { PARTS = sizeof parts / sizeof parts[0] };

static int by_size(const void *a, const void *b) {
    double x = *(const double *)a, y = *(const double *)b;
    return (x > y) - (x < y);
}

/* The time within which so many of a hundred are planned, of times in their order. */
static void print_part(const double *times, size_t count, size_t part) {
    double time = count == 0 ? NAN : times[(count * part + 99) / 100 - 1];
    if (isnan(time))
        printf(" - |");
    else if (isinf(time))
        printf(" > %d s |", LIMIT_SECONDS);
    else
        printf(" %.*f |", time < 100 ? 1 : 0, time);
}

/* The sites of a family with an idle power; TIMED_FAMILIES stands for all of them. */
static bool is_in_row(size_t site, size_t family, size_t idle) {
    return family == TIMED_FAMILIES || (family_of(site) == family && idle_of(site) == idle);
}

static void print_row(size_t sites, size_t family, size_t idle) {
    static double times[MOST_SITES];
    for (enum column c = older == NULL ? NEWER : OLDER; c < COLUMNS; c++) {
        size_t count = 0;
        for (size_t site = 0; site < sites; site++)
            if (is_in_row(site, family, idle))
                times[count++] = times_of[c][site];
        qsort(times, count, sizeof times[0], by_size);
        for (size_t p = 0; p < (c == WITHOUT_DEADLINES ? 1 : PARTS); p++)
            print_part(times, count, parts[p]);
    }
    printf("\n");
}

static void print_table(size_t sites) {
    size_t columns = 2 + (older == NULL ? 1 : 2) * PARTS + 1;
    printf("| Sites | Idle power |");
    if (older != NULL)
        printf(" before: median | 90 | 99 | worst |");
    printf(" now: median | 90 | 99 | worst | without deadlines: median |\n|");
    for (size_t c = 0; c < columns; c++)
        printf("---|");
    printf("\n");
    for (size_t family = 0; family < TIMED_FAMILIES; family++)
        for (size_t idle = 0; idle < IDLES_TIMED; idle++) {
            printf("| %s | %s |", family_name(FIRST_TIMED_FAMILY + family), idle_name(idles[idle]));
            print_row(sites, family, idle);
        }
    printf("| all %zu | |", sites);
    print_row(sites, TIMED_FAMILIES, 0);
}

static void print_worst(size_t sites) {
    size_t worst = 0;
    for (size_t site = 1; site < sites; site++)
        if (times_of[NEWER][site] > times_of[NEWER][worst])
            worst = site;
    printf("\nThe worst now is site %zu of %s, idle power %s.\n", number_of(worst),
           family_name(FIRST_TIMED_FAMILY + family_of(worst)), idle_name(idles[idle_of(worst)]));
}

int main(int argc, char **argv) {
    size_t sites = argc > 1 ? strtoul(argv[1], NULL, 10) : 300;
    size_t repetitions = argc > 2 ? strtoul(argv[2], NULL, 10) : 3;
    if (sites < 1 || sites > MOST_SITES || repetitions < 1) {
        fprintf(stderr, "deadlines [SITES, 1 to %d [REPETITIONS]]\n", MOST_SITES);
        return 2;
    }
    bool same = true;
    for (size_t site = 0; site < sites; site++)
        if (!time_site(site, repetitions)) {
            fprintf(stderr, "site %zu: DIFFERENT ANSWERS\n", site);
            same = false;
        }
    printf("Milliseconds of processor time, the least of %zu where it is under 100 ms; 90 and 99 "
           "of a hundred sites.\n\n",
           repetitions);
    print_table(sites);
    print_worst(sites);
    return same ? 0 : 1;
}

/*
 * Times the proved code beside the plain C, beside an older state of itself where bench/run was
 * given one, and with idle power beside the same sites without it, in the same run.
 *
 *   bench [REPETITIONS]
 *
 * Planning and checking are the archive's calls, checking also of two bad tables; reading is
 * planning that is refused for an empty table; tabling is called through an entry made for this
 * program. A time is the median of the repetitions for one site, and of these the median over the
 * sites of a family, with the most of them in brackets. Ratios are taken in each repetition, and
 * then in the same way. Ends with 1 where two implementations answer differently.
 */
#define _POSIX_C_SOURCE 200809L
#include "report.h"
#include <math.h>
#include <stdio.h>
#include <stdlib.h>
#include <string.h>
#include <time.h>

enum { MOST_REPETITIONS = 101 };

/* ---- Sites ---- */

/* The plan's own table; one in which each core runs the lowest of its tasks all the time; and the
   own one without the last slot of the last task that is kept. */
enum given { OWN, TOO_MANY, LAST_SHORT, TABLES };

/* One site, and the plain C's answer to it. */
typedef struct {
    uint8_t text[TOWHEPAMU_MOST_TEXT_BYTES];
    uint8_t plan[MOST_TASKS], tables[TABLES][TOWHEPAMU_MOST_TABLE_BYTES];
    uint32_t words[MOST_WORDS], choices[MOST_TASKS];
    size_t text_len, word_count, tasks, slots;
    towhepamu_planned answer;
} timed_site;

/* The site at hand, without idle power and with. They all have a plan, or none has. */
static timed_site sites[IDLES];
static uint8_t spare_plan[MOST_TASKS], spare_table[TOWHEPAMU_MOST_TABLE_BYTES];

static bool is_planned(void) {
    return sites[NO_IDLE].answer.refusal == TOWHEPAMU_ACCEPTED;
}

static void draw_bad_tables(const reference_instance *in, timed_site *site) {
    size_t last = 0, slot = site->slots;
    for (size_t i = in->tasks; i-- > 0;)
        if (site->plan[i] != 0) {
            size_t row = reference_core_of(in, site->plan[i]) * in->span;
            memset(site->tables[TOO_MANY] + row, (int)i + 1, in->span);
            last = last > 0 ? last : i + 1;
        }
    memcpy(site->tables[LAST_SHORT], site->tables[OWN], slot);
    while (slot > 0 && site->tables[OWN][slot - 1] != last)
        slot--;
    if (slot > 0)
        site->tables[LAST_SHORT][slot - 1] = 0;
}

static void set_site(size_t family, size_t number, enum idle idle) {
    timed_site *site = &sites[idle];
    reference_instance in;
    memset(site, 0, sizeof *site);
    site->text_len = write_instance(family, number, idle, site->text);
    reference_words(site->text, site->text_len, site->words, MOST_WORDS, &site->word_count);
    if (reference_read(site->words, site->word_count, &in).refusal != TOWHEPAMU_ACCEPTED) {
        fprintf(stderr, "bench: %s is no site\n", family_name(family));
        exit(2);
    }
    site->answer = reference_plan(site->text, site->text_len, site->plan, MOST_TASKS,
                                  site->tables[OWN], sizeof site->tables[OWN]);
    site->tasks = in.tasks;
    site->slots = in.cores * in.span;
    for (size_t i = 0; i < in.tasks; i++)
        site->choices[i] = site->plan[i];
    draw_bad_tables(&in, site);
}

static void plan_by(const implementation *by, const timed_site *site, size_t table_len) {
    by->plan(site->text, site->text_len, spare_plan, MOST_TASKS, spare_table, table_len);
}

static void tabulate_by(const implementation *by, const timed_site *site) {
    by->tabulate(site->words, site->word_count, site->choices, site->tasks, spare_table,
                 sizeof spare_table);
}

static towhepamu_checked check_by(const implementation *by, const timed_site *site,
                                  enum given table) {
    return by->check(site->text, site->text_len, site->plan, site->tasks, site->tables[table],
                     site->slots);
}

static bool checks_so(const implementation *by, const timed_site *site) {
    bool same = check_by(by, site, OWN).refusal == TOWHEPAMU_ACCEPTED;
    for (enum given table = TOO_MANY; table < TABLES; table++) {
        towhepamu_checked answer = check_by(by, site, table);
        towhepamu_checked expected = check_by(&implementations[PLAIN], site, table);
        same = same && answer.refusal == expected.refusal && answer.place == expected.place;
    }
    return same;
}

/* Planning, tabling and checking have the plain C's answer. */
static bool answers_so(const implementation *by, const timed_site *site) {
    memset(spare_plan, 0, sizeof spare_plan);
    memset(spare_table, 0, sizeof spare_table);
    towhepamu_planned answer = by->plan(site->text, site->text_len, spare_plan, MOST_TASKS,
                                        spare_table, sizeof spare_table);
    if (memcmp(&answer, &site->answer, sizeof answer) != 0 ||
        memcmp(spare_plan, site->plan, sizeof spare_plan) != 0 ||
        memcmp(spare_table, site->tables[OWN], sizeof spare_table) != 0)
        return false;
    if (!is_planned())
        return true;
    memset(spare_table, 0, sizeof spare_table);
    if (by->tabulate != NULL) {
        tabulate_by(by, site);
        if (memcmp(spare_table, site->tables[OWN], sizeof spare_table) != 0)
            return false;
    }
    return checks_so(by, site);
}

/* Whether there is an older state, and it reads the site. */
static bool is_known_before(void) {
    plan_entry *plan = implementations[BEFORE].plan;
    const timed_site *site = &sites[NO_IDLE];
    return plan != NULL &&
           plan(site->text, site->text_len, spare_plan, MOST_TASKS, spare_table, 0).refusal >
               TOWHEPAMU_RANGE;
}

/* An older state is asked for sites without idle power only. */
static bool all_answer_so(void) {
    bool same = true;
    for (size_t by = 0; by < IMPLEMENTATIONS; by++)
        for (enum idle idle = 0; idle < (by == BEFORE ? LOW_IDLE : IDLES); idle++)
            if (by != BEFORE || is_known_before())
                same = answers_so(&implementations[by], &sites[idle]) && same;
    return same;
}

/* ---- Times, in microseconds of the processor: other programs on the machine do not count ---- */

/* Before is timed for planning and checking; without a plan there is nothing to table or check. */
static bool is_timed(enum operation o, size_t by) {
    if (by == BEFORE && (o == READING || o == TABLING || !is_known_before()))
        return has_idle_power(o);
    return is_planned() || o < TABLING;
}

static void make_call(enum operation o, size_t column) {
    bool without = has_idle_power(o) && column == BEFORE;
    const implementation *by = &implementations[without ? NOW : column];
    const timed_site *site = &sites[NO_IDLE];
    if (has_idle_power(o) && !without)
        site = &sites[o == PLANNING_LOW ? LOW_IDLE : HIGH_IDLE];
    switch (o) {
    case READING:
        plan_by(by, site, 0);
        break;
    case TABLING:
        tabulate_by(by, site);
        break;
    case CHECKING:
    case CHECKING_TOO_MANY:
    case CHECKING_LAST_SHORT:
        check_by(by, site, (enum given)(o - CHECKING));
        break;
    default:
        plan_by(by, site, sizeof spare_table);
    }
}

static double now(void) {
    struct timespec t;
    clock_gettime(CLOCK_PROCESS_CPUTIME_ID, &t);
    return (double)t.tv_sec * 1e6 + (double)t.tv_nsec / 1e3;
}

/* The time of a call that is made `times` times; no number where it is not timed. */
static double time_of(enum operation o, size_t by, size_t times) {
    if (!is_timed(o, by))
        return NAN;
    double start = now();
    for (size_t n = 0; n < times; n++)
        make_call(o, by);
    return (now() - start) / (double)times;
}

/* The medians for the site that is set; the implementations take turns. */
static void time_operation(enum operation o, size_t repetitions, double medians[COLUMNS]) {
    static double times[COLUMNS][MOST_REPETITIONS];
    size_t calls[IMPLEMENTATIONS];
    for (size_t by = 0; by < IMPLEMENTATIONS; by++) {
        double once = time_of(o, by, 1);
        calls[by] = once < 1000 ? (size_t)(1000 / (once + 0.1)) + 1 : 1;
    }
    for (size_t r = 0; r < repetitions; r++) {
        for (size_t by = 0; by < IMPLEMENTATIONS; by++)
            times[by][r] = time_of(o, by, calls[by]);
        times[TO_BEFORE][r] = times[NOW][r] / times[BEFORE][r];
        times[TO_PLAIN][r] = times[NOW][r] / times[PLAIN][r];
    }
    for (size_t c = 0; c < COLUMNS; c++)
        medians[c] = median(times[c], repetitions);
}

/* False where the implementations differ. */
static bool time_family(size_t family, size_t repetitions) {
    double medians[COLUMNS];
    bool same = true;
    for (size_t n = 0; n < SITES_A_FAMILY; n++) {
        for (enum idle idle = 0; idle < IDLES; idle++)
            set_site(family, n, idle);
        same = all_answer_so() && same;
        for (enum operation o = 0; o < OPERATIONS; o++) {
            time_operation(o, repetitions, medians);
            for (size_t c = 0; c < COLUMNS; c++)
                times_of[family][o][c][n] = medians[c];
        }
    }
    fprintf(stderr, "%s: %s\n", family_name(family), same ? "timed" : "DIFFERENT ANSWERS");
    return same;
}

int main(int argc, char **argv) {
    size_t repetitions = argc > 1 ? strtoul(argv[1], NULL, 10) : 5;
    if (repetitions < 1 || repetitions > MOST_REPETITIONS) {
        fprintf(stderr, "bench [REPETITIONS, 1 to %d]\n", MOST_REPETITIONS);
        return 2;
    }
    bool same = true;
    for (size_t family = 0; family < FAMILIES; family++)
        same = time_family(family, repetitions) && same;
    printf("Microseconds of processor time; medians of %zu repetitions, then of %d sites, with the "
           "most of the sites in brackets.\n",
           repetitions, SITES_A_FAMILY);
    print_table(PLANNING, PLANNING);
    print_table(PLANNING_LOW, PLANNING_LOW);
    print_table(PLANNING_HIGH, PLANNING_HIGH);
    print_table(READING, TABLING);
    for (enum operation o = CHECKING; o < OPERATIONS; o++)
        print_table(o, o);
    return same ? 0 : 1;
}

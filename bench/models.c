/*
 * Writes the sites of the benchmark, as site files and as models for integer solvers.
 *
 *   models FOLDER [none] [low] [high]
 *
 * with the idle powers that are named, none where none is: FOLDER/p-f-n.site, FOLDER/p-f-n.lp
 * (CPLEX format) and FOLDER/p-f-n.opb (pseudo-Boolean) for site n of family f, both from 0, with
 * idle power p; and a line for each family on standard output: p-f, how many sites, name.
 *
 * The model: x_i_c_l is 1 where task i runs on core c at level l, r_i where it is refused; exactly
 * one of a task's is 1; on each core, by each tick at which some job is due, no more is due than
 * has passed. Where all deadlines are the periods the span's end, by which all jobs are due, is
 * enough. Cores are equal, so task i is offered the first i cores alone: every plan can be
 * renumbered so, at the same cost.
 *
 * With idle power a_c is 1 where core c is awake. It costs the idle energy of the whole span, and a
 * task that runs costs its level's power less the idle power in each of its ticks. By each tick at
 * most as much is due on a core as has passed where it is awake, and 0 where it is off; that a task
 * runs on an awake core only is said of each task besides, which leaves solvers less to try.
 */
#include "instances.h"
#include "reference.h"
#include <inttypes.h>
#include <stdio.h>
#include <stdlib.h>
#include <string.h>

static uint8_t text[TOWHEPAMU_MOST_TEXT_BYTES];
static size_t text_len;
static reference_instance in;

static size_t cores_offered(size_t task) {
    return task + 1 < in.cores ? task + 1 : in.cores;
}

/* How many cores are offered to some task. */
static size_t cores_used(void) {
    return in.cores < in.tasks ? in.cores : in.tasks;
}

static uint64_t load_of(size_t task, size_t level) {
    return reference_jobs(&in, task) * reference_ticks(&in, task, level);
}

/* A level at which a job takes longer than it may is not offered. */
static bool is_offered(size_t task, size_t level) {
    return reference_ticks(&in, task, level) <= in.task[task].deadline;
}

static bool has_level(size_t task) {
    size_t level = 0;
    while (level < in.levels && !is_offered(task, level))
        level++;
    return level < in.levels;
}

/* A sum needs a term, so that of a must that fits no core has refusing it, 0 times. */
static bool has_refusal(size_t task) {
    return in.task[task].penalty != MUST || !has_level(task);
}

/* The ticks by which what is due is limited, in their order; the span's end is the last. */
static size_t list_ticks(uint32_t ticks[MOST_SPAN]) {
    size_t count = 0;
    bool early = reference_has_early(&in);
    for (uint32_t t = 1; t <= in.span; t++) {
        bool is_due = t == in.span;
        for (size_t i = 0; early && i < in.tasks; i++)
            is_due = is_due || t % in.task[i].period == in.task[i].deadline % in.task[i].period;
        if (is_due)
            ticks[count++] = t;
    }
    return count;
}

/* Whether anything can be due on a core by a tick. */
static bool is_limited(size_t core, uint32_t tick) {
    for (size_t i = 0; i < in.tasks; i++)
        if (core < cores_offered(i) && has_level(i) && reference_jobs_due(&in, i, tick) > 0)
            return true;
    return false;
}

/* What a task at a level that fits adds to the cost of an awake core. */
static int64_t cost_of(size_t task, size_t level) {
    int64_t power = (int64_t)in.level[level].power - (int64_t)in.idle_power;
    return (int64_t)(in.energy_weight * load_of(task, level)) * power;
}

static int64_t penalty_of(size_t task) {
    return (int64_t)(in.penalty_weight * reference_jobs(&in, task) * in.task[task].penalty);
}

static int64_t awake_cost(void) {
    return (int64_t)in.energy_weight * in.idle_power * in.span;
}

/* How a format writes a term and a variable: in LP by name, in OPB by a number from 1. */
typedef struct {
    FILE *file;
    bool by_number;
} model;

static void print_choice(model m, int64_t factor, size_t task, size_t core, size_t level) {
    if (m.by_number)
        fprintf(m.file, " %+" PRId64 " x%zu", factor,
                (task * MOST_CORES + core) * MOST_LEVELS + level + 1);
    else
        fprintf(m.file, " %+" PRId64 " x_%zu_%zu_%zu\n", factor, task, core, level);
}

static void print_refusal(model m, int64_t factor, size_t task) {
    if (m.by_number)
        fprintf(m.file, " %+" PRId64 " x%zu", factor,
                (size_t)MOST_TASKS * MOST_CORES * MOST_LEVELS + task + 1);
    else
        fprintf(m.file, " %+" PRId64 " r_%zu\n", factor, task);
}

static void print_awake(model m, int64_t factor, size_t core) {
    if (m.by_number)
        fprintf(m.file, " %+" PRId64 " x%zu", factor,
                (size_t)MOST_TASKS * MOST_CORES * MOST_LEVELS + MOST_TASKS + core + 1);
    else
        fprintf(m.file, " %+" PRId64 " a_%zu\n", factor, core);
}

/* Each choice of a task that fits a core by itself, and refusing it where that is allowed. */
static void print_task(model m, size_t task, bool priced) {
    for (size_t c = 0; c < cores_offered(task); c++)
        for (size_t l = 0; l < in.levels; l++)
            if (is_offered(task, l))
                print_choice(m, priced ? cost_of(task, l) : 1, task, c, l);
    bool must = in.task[task].penalty == MUST;
    if (has_refusal(task))
        print_refusal(m, must ? 0 : priced ? penalty_of(task) : 1, task);
}

static void print_cost(model m) {
    for (size_t i = 0; i < in.tasks; i++)
        print_task(m, i, true);
    for (size_t c = 0; in.idle_power > 0 && c < cores_used(); c++)
        print_awake(m, awake_cost(), c);
}

/* A sum that is at most `most`. OPB has no "at most", so there all terms and `most` are negated. */
static int64_t sign_of(model m) {
    return m.by_number ? -1 : 1;
}

static void print_at_most(model m, uint32_t most) {
    if (m.by_number)
        fprintf(m.file, " >= %" PRId64 " ;\n", -(int64_t)most);
    else
        fprintf(m.file, " <= %" PRIu32 "\n", most);
}

/* What is due on a core by a tick. */
static void print_core(model m, size_t core, uint32_t tick) {
    for (size_t i = 0; i < in.tasks; i++) {
        uint64_t jobs = reference_jobs_due(&in, i, tick);
        for (size_t l = 0; l < in.levels; l++)
            if (jobs > 0 && core < cores_offered(i) && is_offered(i, l))
                print_choice(m, sign_of(m) * (int64_t)(jobs * reference_ticks(&in, i, l)), i, core,
                             l);
    }
    if (in.idle_power > 0)
        print_awake(m, -sign_of(m) * (int64_t)tick, core);
    print_at_most(m, in.idle_power > 0 ? 0 : tick);
}

/* A task runs on that core only where it is awake. */
static void print_runs_awake(model m, size_t task, size_t core) {
    for (size_t l = 0; l < in.levels; l++)
        if (is_offered(task, l))
            print_choice(m, sign_of(m), task, core, l);
    print_awake(m, -sign_of(m), core);
    print_at_most(m, 0);
}

static void print_lp(FILE *file) {
    model m = {file, false};
    uint32_t ticks[MOST_SPAN];
    size_t count = list_ticks(ticks);
    fprintf(file, "Minimize\n cost:");
    print_cost(m);
    fprintf(file, "Subject To\n");
    for (size_t i = 0; i < in.tasks; i++) {
        fprintf(file, " task_%zu:", i);
        print_task(m, i, false);
        fprintf(file, " = 1\n");
    }
    for (size_t c = 0; c < cores_used(); c++)
        for (size_t n = 0; n < count; n++)
            if (is_limited(c, ticks[n])) {
                fprintf(file, " core_%zu_%" PRIu32 ":", c, ticks[n]);
                print_core(m, c, ticks[n]);
            }
    for (size_t i = 0; in.idle_power > 0 && i < in.tasks; i++)
        for (size_t c = 0; c < cores_offered(i); c++) {
            fprintf(file, " runs_%zu_%zu:", i, c);
            print_runs_awake(m, i, c);
        }
    fprintf(file, "Binaries\n");
    for (size_t i = 0; i < in.tasks; i++) {
        for (size_t c = 0; c < cores_offered(i); c++)
            for (size_t l = 0; l < in.levels; l++)
                if (is_offered(i, l))
                    fprintf(file, " x_%zu_%zu_%zu\n", i, c, l);
        if (has_refusal(i))
            fprintf(file, " r_%zu\n", i);
    }
    for (size_t c = 0; in.idle_power > 0 && c < cores_used(); c++)
        fprintf(file, " a_%zu\n", c);
    fprintf(file, "End\n");
}

static void print_opb(FILE *file) {
    model m = {file, true};
    bool idle = in.idle_power > 0;
    size_t variables = MOST_TASKS * MOST_CORES * MOST_LEVELS + MOST_TASKS + (idle ? MOST_CORES : 0);
    uint32_t ticks[MOST_SPAN];
    size_t count = list_ticks(ticks), constraints = in.tasks;
    for (size_t c = 0; c < cores_used(); c++)
        for (size_t n = 0; n < count; n++)
            constraints += is_limited(c, ticks[n]);
    for (size_t i = 0; idle && i < in.tasks; i++)
        constraints += cores_offered(i);
    fprintf(file, "* #variable= %zu #constraint= %zu\nmin:", variables, constraints);
    print_cost(m);
    fprintf(file, " ;\n");
    for (size_t i = 0; i < in.tasks; i++) {
        print_task(m, i, false);
        fprintf(file, " = 1 ;\n");
    }
    for (size_t c = 0; c < cores_used(); c++)
        for (size_t n = 0; n < count; n++)
            if (is_limited(c, ticks[n]))
                print_core(m, c, ticks[n]);
    for (size_t i = 0; idle && i < in.tasks; i++)
        for (size_t c = 0; c < cores_offered(i); c++)
            print_runs_awake(m, i, c);
}

static void print_site(FILE *file) {
    fwrite(text, 1, text_len, file);
}

static void write_file(const char *folder, enum idle idle, size_t family, size_t number,
                       const char *ending, void (*print)(FILE *)) {
    char name[4096];
    snprintf(name, sizeof name, "%s/%s-%zu-%zu.%s", folder, idle_name(idle), family, number,
             ending);
    FILE *file = fopen(name, "w");
    if (file == NULL) {
        perror(name);
        exit(2);
    }
    print(file);
    fclose(file);
}

static void write_families(const char *folder, enum idle idle) {
    for (size_t family = 0; family < FAMILIES; family++) {
        for (size_t number = 0; number < SITES_A_FAMILY; number++) {
            text_len = write_instance(family, number, idle, text);
            reference_read_text(text, text_len, &in);
            write_file(folder, idle, family, number, "site", print_site);
            write_file(folder, idle, family, number, "lp", print_lp);
            write_file(folder, idle, family, number, "opb", print_opb);
        }
        printf("%s-%zu %d %s", idle_name(idle), family, SITES_A_FAMILY, family_name(family));
        if (idle != NO_IDLE)
            printf(", %s idle power", idle_name(idle));
        puts("");
    }
}

int main(int argc, char **argv) {
    if (argc < 2)
        return 2;
    if (argc == 2)
        write_families(argv[1], NO_IDLE);
    for (int i = 2; i < argc; i++) {
        enum idle idle = NO_IDLE;
        while (idle < IDLES && strcmp(argv[i], idle_name(idle)) != 0)
            idle++;
        if (idle == IDLES)
            return 2;
        write_families(argv[1], idle);
    }
    return 0;
}

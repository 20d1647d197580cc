/* sums SITE: ticks, energy, penalty, cost and rows, laid out to be added up by hand. */
#include "answer.h"
#include "commands.h"
#include "files.h"
#include <inttypes.h>
#include <stdio.h>

enum { TICKS_IN_A_LINE = 20 };

static void print_sum(const char *word, uint64_t sum) {
    printf("%62s\n  %-46s%14" PRIu64 "\n", "--------------", word, sum);
}

/* Ticks are right where one tick fewer after the start ticks would not do. */
static void print_ticks(const planned_site *answer) {
    const parsed_site *site = &answer->site;
    uint32_t start = site->start_ticks;
    printf("ticks of a job: cycles / speed, rounded up%s\n", start == 0 ? "" : ", + start ticks");
    printf("  task     cycles   speed %s  ticks\n", start == 0 ? "" : " rounded up    start  ");
    for (size_t i = 0; i < site->tasks; i++) {
        if (answer->plan[i] == 0)
            continue;
        uint64_t ticks = ticks_of(answer, i), after = ticks - start;
        uint32_t cycles = site->task[i].cycles, speed = site->level[level_of(answer, i) - 1].speed;
        printf("  %4zu  %9" PRIu32 " / %5" PRIu32, i + 1, cycles, speed);
        if (start > 0)
            printf("  %10" PRIu64 " + %6" PRIu32 " =", after, start);
        printf(" %s%6" PRIu64 "    %" PRIu64 " x %" PRIu32 " = %" PRIu64 " are too few, %" PRIu64
               " x %" PRIu32 " = %" PRIu64 " do\n",
               start == 0 ? " " : "", ticks, after - 1, speed, (after - 1) * speed, after, speed,
               after * speed);
    }
}

static void print_due_ticks(const parsed_site *site) {
    puts("\ndue ticks: of job j, from 0, j x period + deadline");
    puts("  task     period   deadline");
    for (size_t i = 0; i < site->tasks; i++)
        printf("  %4zu  j x %5" PRIu32 " + %5" PRIu32 "\n", i + 1, site->task[i].period,
               site->task[i].deadline);
}

static uint64_t energy_of(const planned_site *answer, size_t task) {
    return site_jobs(&answer->site, task) * ticks_of(answer, task) *
           answer->site.level[level_of(answer, task) - 1].power;
}

static uint64_t print_energy(const planned_site *answer) {
    const parsed_site *site = &answer->site;
    uint64_t sum = 0;
    puts("\nenergy of the kept tasks: jobs x ticks x power");
    printf("%6s%6s%7s%8s%9s%9s%17s\n", "task", "core", "level", "jobs", "ticks", "power", "energy");
    for (size_t i = 0; i < site->tasks; i++) {
        if (answer->plan[i] == 0)
            continue;
        sum += energy_of(answer, i);
        printf("  %4zu  %4zu  %5zu  %6" PRIu64 " x %6" PRIu64 " x %6" PRIu32 " = %14" PRIu64 "\n",
               i + 1, core_of(answer, i), level_of(answer, i), site_jobs(site, i),
               ticks_of(answer, i), site->level[level_of(answer, i) - 1].power,
               energy_of(answer, i));
    }
    print_sum(site->idle_power == 0 ? "all energy" : "busy energy", sum);
    return sum;
}

/* ---- Idle power ---- */

/* What a task has due by a tick. */
static uint64_t due_of(const planned_site *answer, size_t task, uint64_t tick) {
    return site_jobs_due(&answer->site, task, tick) * ticks_of(answer, task);
}

static uint64_t due_by(const planned_site *answer, size_t core, uint64_t tick) {
    uint64_t due = 0;
    for (size_t i = 0; i < answer->site.tasks; i++)
        if (core_of(answer, i) == core)
            due += due_of(answer, i, tick);
    return due;
}

/* By its end all jobs of the span are due. */
static uint64_t load_of(const planned_site *answer, size_t core) {
    return due_by(answer, core, answer->site.span);
}

/* What a core draws in the ticks that its load leaves of the span. */
static uint64_t idle_energy_of(const planned_site *answer, size_t core) {
    return is_awake(answer, core)
               ? (answer->site.span - load_of(answer, core)) * answer->site.idle_power
               : 0;
}

/* All energy, where there is idle power. */
static uint64_t print_idle_energy(const planned_site *answer, uint64_t busy) {
    const parsed_site *site = &answer->site;
    uint64_t sum = 0;
    puts("\nenergy of the idle ticks, span - load, of each core that keeps a task: idle ticks x "
         "idle "
         "power");
    printf("%6s%8s%9s%8s%15s%17s\n", "core", "span", "load", "idle", "idle power", "energy");
    for (size_t c = 1; c <= site->cores; c++) {
        uint64_t load = load_of(answer, c);
        if (is_awake(answer, c))
            printf("%6zu%8zu - %6" PRIu64 " = %5" PRIu64 " x %12" PRIu32 " = %14" PRIu64 "\n", c,
                   site->span, load, site->span - load, site->idle_power,
                   idle_energy_of(answer, c));
        else
            printf("%6zu     off: it keeps no task%30d\n", c, 0);
        sum += idle_energy_of(answer, c);
    }
    print_sum("idle energy", sum);
    printf("\nenergy: busy + idle\n  %-46s%14" PRIu64 "\n  %-46s%14" PRIu64 "\n", "busy energy",
           busy, "idle energy", sum);
    print_sum("all energy", busy + sum);
    return busy + sum;
}

/* ---- Penalty, cores and cost ---- */

static uint64_t print_penalty(const planned_site *answer) {
    const parsed_site *site = &answer->site;
    uint64_t sum = 0;
    puts("\npenalty of the refused tasks: jobs x penalty");
    printf("%6s%21s%18s%17s\n", "task", "jobs", "of a job", "penalty");
    for (size_t i = 0; i < site->tasks; i++) {
        if (answer->plan[i] != 0)
            continue;
        uint64_t jobs = site_jobs(site, i), penalty = jobs * site->task[i].penalty;
        sum += penalty;
        printf("%6zu%21" PRIu64 " x %15" PRIu32 " = %14" PRIu64 "\n", i + 1, jobs,
               site->task[i].penalty, penalty);
    }
    print_sum("all penalty", sum);
    return sum;
}

/* What a task of a core adds to a sum: jobs due by a tick x ticks, or energy. */
typedef enum { TICKS_DUE, ENERGY } summand;

/* "8 + 10 = 18": a core's sum over its tasks, with its idle energy at the end; nothing for none. */
static uint64_t print_core_sum(const planned_site *answer, size_t core, const char *word,
                               summand of, uint64_t tick) {
    uint64_t sum = 0;
    const char *between = "";
    printf("          %-7s", word);
    for (size_t i = 0; i < answer->site.tasks; i++) {
        if (core_of(answer, i) != core)
            continue;
        uint64_t one = of == ENERGY ? energy_of(answer, i) : due_of(answer, i, tick);
        sum += one;
        printf("%s%" PRIu64, between, one);
        between = " + ";
    }
    if (of == ENERGY && *between != 0 && answer->site.idle_power > 0) {
        printf(" + %" PRIu64, idle_energy_of(answer, core));
        sum += idle_energy_of(answer, core);
    }
    if (*between != 0)
        fputs(" = ", stdout);
    printf("%" PRIu64, sum);
    return sum;
}

/* What is due by the tick at which least is to spare; false where that is more than has passed. */
static bool print_tightest(const planned_site *answer, size_t core) {
    size_t span = answer->site.span, tightest = span;
    for (size_t t = span; t-- > 1;)
        if ((int64_t)t - (int64_t)due_by(answer, core, t) <=
            (int64_t)tightest - (int64_t)due_by(answer, core, tightest))
            tightest = t;
    uint64_t due = print_core_sum(answer, core, "due", TICKS_DUE, tightest);
    printf(" by tick %zu, by which least is to spare\n", tightest);
    return due <= tightest;
}

/* Each core's load and energy; false where the row has another number of busy slots, or too much is
   due by some tick. */
static bool print_cores(const planned_site *answer, uint64_t *energy) {
    size_t span = answer->site.span;
    bool right = true;
    *energy = 0;
    printf("\ncores: the load is the sum of jobs x ticks of its tasks%s\n",
           answer->site.idle_power == 0 ? "" : ", the energy theirs and that of its idle ticks");
    for (size_t c = 1; c <= answer->site.cores; c++) {
        size_t busy = 0;
        for (size_t t = 0; t < span; t++)
            busy += row_of(answer, c - 1)[t] != 0;
        printf("  core %zu\n", c);
        uint64_t load = print_core_sum(answer, c, "load", TICKS_DUE, span);
        if (answer->site.idle_power == 0 || is_awake(answer, c))
            printf(" of span %zu, %zu idle\n", span, span - busy);
        else
            printf(" of span %zu, off\n", span);
        right = right && load == busy;
        if (site_has_early(&answer->site) && is_awake(answer, c))
            right = print_tightest(answer, c) && right;
        *energy += print_core_sum(answer, c, "energy", ENERGY, 0);
        puts("");
    }
    return right;
}

static uint64_t print_cost(const parsed_site *site, uint64_t energy, uint64_t penalty) {
    uint64_t of_energy = site->energy_weight * energy, of_penalty = site->penalty_weight * penalty;
    puts("\ncost: weight x energy + weight x penalty");
    printf("  energy %18" PRIu32 " x %15" PRIu64 " = %14" PRIu64 "\n", site->energy_weight, energy,
           of_energy);
    printf("  penalty%18" PRIu32 " x %15" PRIu64 " = %14" PRIu64 "\n", site->penalty_weight,
           penalty, of_penalty);
    print_sum("cost", of_energy + of_penalty);
    return of_energy + of_penalty;
}

static void print_rows(const planned_site *answer) {
    for (size_t c = 0; c < answer->site.cores; c++) {
        printf("\ncore %zu, tick by tick; 0 is idle\n", c + 1);
        for (size_t t = 0; t < answer->site.span; t++) {
            if (t % TICKS_IN_A_LINE == 0) {
                size_t last = t + TICKS_IN_A_LINE - 1;
                last = last < answer->site.span ? last : answer->site.span - 1;
                printf("  %4zu to %4zu:", t, last);
            }
            bool ends = (t + 1) % TICKS_IN_A_LINE == 0 || t + 1 == answer->site.span;
            printf(" %2d%s", row_of(answer, c)[t], ends ? "\n" : "");
        }
    }
}

int run_sums(const arguments *given) {
    static planned_site answer;
    towhepamu_checked why;
    if (!plan_site(given->file[0], &answer, &why))
        return REFUSED;
    const parsed_site *site = &answer.site;
    printf("%s: %s, %s, %s, span %zu", file_words(site->list.file),
           amount_of(site->cores, "core").text, amount_of(site->levels, "level").text,
           amount_of(site->tasks, "task").text, site->span);
    if (site->idle_power > 0)
        printf(", idle power %" PRIu32, site->idle_power);
    if (site->start_ticks > 0)
        printf(", start ticks %" PRIu32, site->start_ticks);
    puts("\n");
    print_ticks(&answer);
    if (site_has_early(site))
        print_due_ticks(site);
    uint64_t energy = print_energy(&answer), of_cores;
    if (site->idle_power > 0)
        energy = print_idle_energy(&answer, energy);
    uint64_t penalty = print_penalty(&answer);
    bool loads = print_cores(&answer, &of_cores);
    uint64_t cost = print_cost(site, energy, penalty);
    print_rows(&answer);
    if (loads && of_cores == energy && energy == answer.price.energy &&
        penalty == answer.price.penalty && cost == answer.price.cost)
        return WELL;
    fprintf(stderr,
            "towhepamu: the sums are not the answer's: energy %" PRIu64 ", penalty %" PRIu64
            ", cost %" PRIu64 "\n",
            answer.price.energy, answer.price.penalty, answer.price.cost);
    return UNUSABLE;
}

/*
 * Why a site has no plan: a set of tasks that may not be refused and do not fit together, of which
 * none can be spared; and by which tick how much too much is due.
 */
#include "files.h"
#include "words.h"
#include <inttypes.h>
#include <stdio.h>
#include <string.h>

task_words tasks_in_words(uint32_t tasks) {
    task_words out;
    size_t len = 0, left = 0;
    for (uint32_t rest = tasks; rest != 0; rest &= rest - 1)
        left++;
    len += (size_t)snprintf(out.text, sizeof out.text, "task%s", left == 1 ? "" : "s");
    const char *between = " ";
    for (uint32_t i = 0; i < TOWHEPAMU_MOST_TASKS; i++)
        if (tasks >> i & 1) {
            len += (size_t)snprintf(out.text + len, sizeof out.text - len, "%s%" PRIu32, between,
                                    i + 1);
            between = --left == 1 ? " and " : ", ";
        }
    return out;
}

/* Whether the site has no plan once the tasks outside `must` may be refused for a penalty of 1. */
static bool is_without_plan(const parsed_site *given, uint32_t must) {
    static parsed_site altered;
    static uint8_t plan[TOWHEPAMU_MOST_TASKS], table[TOWHEPAMU_MOST_TABLE_BYTES];
    altered = *given;
    for (size_t i = 0; i < given->tasks; i++)
        if (!(must >> i & 1))
            altered.task[i].penalty = 1;
    site_rewrite(&altered);
    return towhepamu_plan(altered.list.text, altered.list.text_len, plan, sizeof plan, table,
                          sizeof table)
               .refusal == TOWHEPAMU_NO_PLAN;
}

/* Tasks are spared one after another where the rest still do not fit. */
static uint32_t find_unfit_tasks(const parsed_site *site) {
    uint32_t must = 0;
    for (size_t i = 0; i < site->tasks; i++)
        if (site->task[i].penalty == SITE_MUST)
            must |= UINT32_C(1) << i;
    for (size_t i = 0; i < site->tasks; i++) {
        uint32_t spared = must & ~(UINT32_C(1) << i);
        if (spared != must && is_without_plan(site, spared))
            must = spared;
    }
    return must;
}

/* ---- By how much ---- */

enum { MOST_SETS = 1 << TOWHEPAMU_MOST_TASKS };

/* At the fastest level. What a part of the tasks, as bits, has too much on one core: of all ticks
   of the span the most that more is due by it than has passed, and that tick. */
typedef struct {
    int64_t ticks;
    size_t by;
} excess;

static excess excess_of(const parsed_site *site, uint32_t tasks, int64_t cores) {
    int64_t due_at[TOWHEPAMU_MOST_SPAN + 1] = {0}, due = 0;
    excess most = {INT64_MIN, 0};
    for (size_t i = 0; i < site->tasks; i++)
        for (size_t t = site->task[i].deadline; tasks >> i & 1 && t <= site->span;
             t += site->task[i].period)
            due_at[t] += (int64_t)site_ticks(site, i, site->levels - 1);
    for (size_t t = 1; t <= site->span; t++) {
        due += due_at[t];
        if (due - cores * (int64_t)t > most.ticks)
            most = (excess){due - cores * (int64_t)t, t};
    }
    return most;
}

static excess larger(excess a, excess b) {
    return a.ticks >= b.ticks ? a : b;
}

/* However the tasks are divided among the cores, one of them has at least that much too much. */
static excess least_excess(const parsed_site *site, uint32_t tasks) {
    static excess on_one[MOST_SETS], least[MOST_SETS];
    for (uint32_t part = tasks;; part = (part - 1) & tasks) {
        least[part] = on_one[part] = excess_of(site, part, 1);
        if (part == 0)
            break;
    }
    for (size_t core = 1; core < site->cores; core++)
        for (uint32_t set = MOST_SETS; set-- > 0;) /* smaller sets are without this core still */
            for (uint32_t part = set; (set & ~tasks) == 0 && part != 0; part = (part - 1) & set) {
                excess most = larger(on_one[part], least[set ^ part]);
                if (most.ticks < least[set].ticks)
                    least[set] = most;
            }
    return least[tasks];
}

/* ---- In words ---- */

/* How much room there is until a tick. The end of the span, by which every job is due, needs no
   tick's name. */
static void tell_room(const parsed_site *site, uint64_t total, excess least) {
    uint64_t room = site->cores * least.by, more = (uint64_t)least.ticks;
    bool whole = least.by == site->span;
    fprintf(stderr, "  together %s; %s ", amount_of(total, "tick").text,
            amount_of(site->cores, "core").text);
    if (whole)
        fprintf(stderr, "in a span of %s ", grouped(site->span).text);
    fprintf(stderr, "%s %s%s, ", site->cores == 1 ? "has" : "have", grouped(room).text,
            whole ? "" : " by then");
    if (total > room)
        fprintf(stderr, "%s too few\n", grouped(total - room).text);
    else if (whole)
        fprintf(stderr, "but however they are divided, a core has at least %s, %s above the span\n",
                amount_of(site->span + more, "tick").text, grouped(more).text);
    else
        fprintf(stderr,
                "but however they are divided, a core has by some tick at least %s too few\n",
                amount_of(more, "tick").text);
    fprintf(stderr,
            "  let one of them be refused for a penalty, or give the node cores, a faster level or "
            "longer periods%s\n",
            site_has_early(site) ? " or deadlines" : "");
}

static void tell_one(const parsed_site *site, size_t task, size_t level) {
    uint64_t ticks = site_ticks(site, task, level), deadline = site->task[task].deadline;
    const char *room = site_is_early(site, task) ? "deadline" : "period";
    char start[48] = "";
    if (site->start_ticks > 0)
        snprintf(start, sizeof start, ", %s of them to start", grouped(site->start_ticks).text);
    fprintf(stderr,
            "%s: no plan: task %zu may not be refused and does not fit: at the fastest level, %zu, "
            "a job takes %s%s, %s above its %s, %s\n"
            "  let it be refused for a penalty, or give the node a faster level or the task a "
            "longer %s\n",
            file_words(site->list.file), task + 1, level + 1, amount_of(ticks, "tick").text, start,
            grouped(ticks - deadline).text, room, grouped(deadline).text, room);
}

static void tell_several(const parsed_site *site, uint32_t tasks, size_t level) {
    excess least = excess_of(site, tasks, (int64_t)site->cores);
    uint64_t total = 0;
    if (least.ticks <= 0) /* for all cores together there is room */
        least = least_excess(site, tasks);
    fprintf(stderr,
            "%s: no plan: %s may not be refused and do not fit together; at the fastest level, %zu",
            file_words(site->list.file), tasks_in_words(tasks).text, level + 1);
    if (least.by < site->span)
        fprintf(stderr, ", due by tick %zu", least.by);
    fputs(":\n", stderr);
    for (size_t i = 0; i < site->tasks; i++)
        if (tasks >> i & 1) {
            uint64_t jobs = site_jobs_due(site, i, least.by), ticks = site_ticks(site, i, level);
            fprintf(stderr, "  task %zu: %s x %s = %s\n", i + 1, amount_of(jobs, "job").text,
                    amount_of(ticks, "tick").text, grouped(jobs * ticks).text);
            total += jobs * ticks;
        }
    tell_room(site, total, least);
}

void tell_what_does_not_fit(const parsed_site *site) {
    uint32_t tasks = find_unfit_tasks(site);
    size_t level = site->levels - 1;
    for (size_t i = 0; i < site->tasks; i++)
        if (tasks == UINT32_C(1) << i) {
            tell_one(site, i, level);
            return;
        }
    tell_several(site, tasks, level);
}

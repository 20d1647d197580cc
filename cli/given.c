#include "given.h"
#include "files.h"
#include <inttypes.h>
#include <stdio.h>

static size_t smaller(size_t a, size_t b) {
    return a < b ? a : b;
}

/* ---- What was given ---- */

/* The choices of a listing, or the first numbers of a list, `most` of them at most. */
static void take_plan(subject *of, const node_file *from, size_t most) {
    of->plan_from = from;
    of->choices = from->is_listing ? from->tasks : smaller(from->count, most);
    for (size_t i = 0; i < smaller(of->choices, sizeof of->plan); i++)
        of->plan[i] =
            from->is_listing ? node_choice(from, of->site, i) : node_byte(from->numbers[i]);
}

/* The slots of a listing, or the numbers of a list after the first few. */
static void take_table(subject *of, const node_file *from, size_t after) {
    of->table_from = from;
    of->slots = from->count - smaller(from->count, after);
    for (size_t i = 0; i < smaller(of->slots, sizeof of->table); i++) {
        of->slot[i] = from->numbers[after + i];
        of->table[i] = node_byte(of->slot[i]);
    }
}

static bool tell_nothing_given(const node_file *from) {
    if (from->is_refused)
        fprintf(stderr, "%s: a listing without a plan: refused %" PRIu64 " %" PRIu64 "\n",
                file_words(from->file), from->refusal, from->place);
    return from->is_refused;
}

/* A listing's rows must have the span's length each, or slots would stand in another row. */
static bool tell_rows(const parsed_site *site, const node_file *from) {
    for (size_t c = 0; c < from->cores; c++) {
        size_t slots = from->row[c + 1] - from->row[c];
        if (slots != site->span) {
            fprintf(stderr, "%s: core %zu has %s, the span is %s\n", file_words(from->file), c + 1,
                    amount_of(slots, "slot").text, grouped(site->span).text);
            return true;
        }
    }
    return false;
}

/* ---- Refusals in words ---- */

static void tell_choice(const subject *of, size_t task) {
    const parsed_site *site = of->site;
    const char *file = file_words(of->plan_from->file);
    if (of->choices != site->tasks)
        fprintf(stderr, "%s: the plan has %s, the site has %s\n", file,
                amount_of(of->choices, "choice").text, amount_of(site->tasks, "task").text);
    else if (of->plan[task] == 0)
        fprintf(stderr, "%s: task %zu is refused, but it may not be refused\n", file, task + 1);
    else if (of->plan_from->is_listing)
        fprintf(stderr,
                "%s: task %zu is on core %" PRIu64 " at level %" PRIu64
                "; the site has %s and %s\n",
                file, task + 1, of->plan_from->task[task].core, of->plan_from->task[task].level,
                amount_of(site->cores, "core").text, amount_of(site->levels, "level").text);
    else
        fprintf(stderr, "%s: the choice of task %zu is %" PRIu32 "; %s x %s end at %" PRIu32 "\n",
                file, task + 1, of->plan_from->numbers[task], amount_of(site->cores, "core").text,
                amount_of(site->levels, "level").text, site->cores * site->levels);
}

static void tell_slot(const subject *of, size_t index) {
    const parsed_site *site = of->site;
    const char *file = file_words(of->table_from->file);
    if (of->slots != site->cores * site->span) {
        fprintf(stderr, "%s: the table has %s; %s x %s make %s\n", file,
                amount_of(of->slots, "slot").text, amount_of(site->cores, "core").text,
                amount_of(site->span, "tick").text, grouped(site->cores * site->span).text);
        return;
    }
    uint32_t task = of->slot[index];
    fprintf(stderr, "%s: core %zu, tick %zu: task %" PRIu32, file, index / site->span + 1,
            index % site->span, task);
    if (task == 0 || task > site->tasks)
        fprintf(stderr, "; the site has %s\n", amount_of(site->tasks, "task").text);
    else if (of->plan[task - 1] == 0)
        fputs(" runs, but the plan refuses it\n", stderr);
    else
        fprintf(stderr, " runs, but the plan keeps it on core %" PRIu32 "\n",
                (of->plan[task - 1] - 1u) / site->levels + 1);
}

static uint64_t count_slots(const uint8_t *row, size_t task, size_t from, size_t end) {
    uint64_t slots = 0;
    for (size_t t = from; t < end; t++)
        slots += row[t] == task + 1;
    return slots;
}

/* The first job of a task whose slots are not its ticks, or one of whose is late. */
static void tell_job(const subject *of, size_t task) {
    const parsed_site *site = of->site;
    size_t choice = of->plan[task] - 1u, period = site->task[task].period, release = 0, due = 0;
    size_t level = choice % site->levels;
    uint64_t ticks = site_ticks(site, task, level), slots = ticks, late = 0;
    const uint8_t *row = of->table + choice / site->levels * site->span;
    for (; release < site->span; release += period) {
        due = release + site->task[task].deadline;
        slots = count_slots(row, task, release, due);
        late = count_slots(row, task, due, release + period);
        if (slots != ticks || late > 0)
            break;
    }
    fprintf(stderr,
            "%s: task %zu, job %zu, released at tick %zu and due at tick %zu, has %s on core %zu",
            file_words(of->table_from->file), task + 1, release / period + 1, release, due,
            amount_of(slots, "slot").text, choice / site->levels + 1);
    if (late > 0)
        fprintf(stderr, " and %s after it is due", grouped(late).text);
    fprintf(stderr, "; at level %zu it takes %s\n", level + 1, amount_of(ticks, "tick").text);
}

void tell_given_refusal(const subject *of, towhepamu_checked why) {
    if (why.refusal == TOWHEPAMU_CHOICES)
        tell_choice(of, why.place);
    else if (why.refusal == TOWHEPAMU_SLOTS)
        tell_slot(of, why.place);
    else if (why.refusal == TOWHEPAMU_JOB && why.place >= 1 && why.place <= of->site->tasks)
        tell_job(of, why.place - 1);
}

int take_given_plan(const char *name, const parsed_site *site, subject *of) {
    static node_file file;
    if (!node_read(name, &file))
        return UNUSABLE;
    if (tell_nothing_given(&file))
        return REFUSED;
    bool dump = file.count == site->tasks + site->cores * site->span;
    of->site = site;
    take_plan(of, &file, dump ? site->tasks : SIZE_MAX);
    of->plan_len = smaller(of->choices, sizeof of->plan);
    return WELL;
}

int take_given(const arguments *given, const parsed_site *site, subject *of) {
    static node_file first, second;
    const node_file *plan = &first, *table = given->files == 3 ? &second : &first;
    if (!node_read(given->file[1], &first) ||
        (given->files == 3 && !node_read(given->file[2], &second)))
        return UNUSABLE;
    if (tell_nothing_given(plan) || tell_nothing_given(table) || tell_rows(site, table))
        return REFUSED;
    bool dump = plan == table && !plan->is_listing;
    of->site = site;
    take_plan(of, plan, dump ? site->tasks : SIZE_MAX);
    take_table(of, table, dump ? site->tasks : 0);
    of->plan_len = smaller(of->choices, sizeof of->plan);
    of->table_len = smaller(of->slots, sizeof of->table);
    return WELL;
}

/* compare SITE FILE: whether a node runs the plan of its site. */
#include "answer.h"
#include "commands.h"
#include "files.h"
#include "node.h"
#include <inttypes.h>
#include <stdio.h>

static size_t larger(size_t a, size_t b) {
    return a > b ? a : b;
}

static size_t smaller(size_t a, size_t b) {
    return a < b ? a : b;
}

/* ---- A dump as a listing ---- */

/* Fills in the lines that a listing of these numbers would have. Ticks, which a dump does not tell,
   are those of the site. */
static void lay_out(node_file *node, const parsed_site *site) {
    node->tasks = smaller(node->count, site->tasks);
    for (size_t i = 0; i < node->tasks; i++) {
        uint32_t choice = node->numbers[i];
        node_task *task = &node->task[i];
        if (choice == 0)
            continue;
        task->core = (choice - 1) / site->levels + 1;
        task->level = (choice - 1) % site->levels + 1;
        task->ticks = site_ticks(site, i, task->level - 1);
    }
    size_t left = node->count - node->tasks;
    node->row[0] = node->tasks;
    for (; node->cores < site->cores && (left > 0 || node->cores == 0); node->cores++) {
        bool last = node->cores + 1 == site->cores;
        size_t slots = last ? left : smaller(left, site->span);
        node->row[node->cores + 1] = node->row[node->cores] + slots;
        left -= slots;
    }
}

/* ---- Lines ---- */

static bool compare_heads(const node_file *node, const planned_site *answer) {
    const towhepamu_planned *price = &answer->price;
    bool span = node->span == answer->site.span;
    bool cost = node->energy == price->energy && node->penalty == price->penalty &&
                node->cost == price->cost;
    if (!span)
        printf("span: the node has %" PRIu64 ", the plan %zu\n", node->span, answer->site.span);
    if (!cost)
        printf("cost: the node has %" PRIu64 " %" PRIu64 " %" PRIu64 ", the plan %" PRIu64
               " %" PRIu64 " %" PRIu64 "\n",
               node->energy, node->penalty, node->cost, price->energy, price->penalty, price->cost);
    return span && cost;
}

/* ---- Tasks ---- */

static node_task planned_task(const planned_site *answer, size_t task) {
    if (answer->plan[task] == 0)
        return (node_task){0, 0, 0};
    return (node_task){core_of(answer, task), level_of(answer, task), ticks_of(answer, task)};
}

static void print_task(const char *who, const node_task *task, bool with_ticks) {
    if (task == NULL)
        printf(" %s does not have it", who);
    else if (task->core == 0)
        printf(" %s refuses it", who);
    else
        printf(" %s runs it on core %" PRIu64 " at level %" PRIu64, who, task->core, task->level);
    if (task != NULL && task->core != 0 && with_ticks)
        printf(" in %s", amount_of(task->ticks, "tick").text);
}

/* How many tasks differ; the first of them is told. */
static size_t compare_tasks(const node_file *node, const planned_site *answer) {
    size_t differing = 0;
    for (size_t i = 0; i < larger(node->tasks, answer->site.tasks); i++) {
        bool given = i < node->tasks, known = i < answer->site.tasks;
        node_task planned = {0, 0, 0};
        if (known)
            planned = planned_task(answer, i);
        const node_task *runs = &node->task[i];
        bool place = runs->core == planned.core && runs->level == planned.level;
        if (given && known && place && runs->ticks == planned.ticks)
            continue;
        if (differing++ > 0)
            continue;
        printf("task %zu:", i + 1);
        print_task("the node", given ? runs : NULL, place);
        fputs(",", stdout);
        print_task("the plan", known ? &planned : NULL, place);
        fputs("\n", stdout);
    }
    return differing;
}

/* ---- Slots ---- */

enum { ENDED = -1 };

static int64_t node_slot(const node_file *node, size_t core, size_t tick) {
    if (core >= node->cores || tick >= node->row[core + 1] - node->row[core])
        return ENDED;
    size_t index = node->row[core] + tick;
    return index < NODE_MOST_NUMBERS ? (int64_t)node->numbers[index] : (int64_t)UINT32_MAX;
}

static int64_t planned_slot(const planned_site *answer, size_t core, size_t tick) {
    if (core >= answer->site.cores || tick >= answer->site.span)
        return ENDED;
    return row_of(answer, core)[tick];
}

static void print_slot(const char *who, int64_t slot) {
    if (slot == ENDED)
        printf(" %s has no such slot", who);
    else if (slot == 0)
        printf(" %s is idle", who);
    else
        printf(" %s runs task %" PRId64, who, slot);
}

/* How many slots differ; the first of them is told. */
static size_t compare_slots(const node_file *node, const planned_site *answer) {
    size_t differing = 0;
    for (size_t c = 0; c < larger(node->cores, answer->site.cores); c++) {
        size_t row = c < node->cores ? node->row[c + 1] - node->row[c] : 0;
        for (size_t t = 0; t < larger(row, answer->site.span); t++) {
            int64_t given = node_slot(node, c, t), planned = planned_slot(answer, c, t);
            if (given == planned || differing++ > 0)
                continue;
            printf("core %zu, tick %zu:", c + 1, t);
            print_slot("the node", given);
            fputs(",", stdout);
            print_slot("the plan", planned);
            fputs("\n", stdout);
        }
    }
    return differing;
}

int run_compare(const arguments *given) {
    static planned_site answer;
    static node_file node;
    towhepamu_checked why;
    if (!plan_site(given->file[0], &answer, &why))
        return REFUSED;
    if (!node_read(given->file[1], &node))
        return UNUSABLE;
    if (node.is_refused) {
        printf("the node: refused %" PRIu64 " %" PRIu64 ", the site has a plan\n", node.refusal,
               node.place);
        return DIFFERS;
    }
    if (!node.is_listing)
        lay_out(&node, &answer.site);
    bool heads = !node.is_listing || compare_heads(&node, &answer);
    size_t tasks = compare_tasks(&node, &answer), slots = compare_slots(&node, &answer);
    if (heads && tasks == 0 && slots == 0) {
        puts("same");
        return WELL;
    }
    printf("differs: %s, %s\n", amount_of(tasks, "task").text, amount_of(slots, "slot").text);
    return DIFFERS;
}

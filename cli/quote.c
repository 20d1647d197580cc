/* quote SITE TASK LOW HIGH ..: between which costs a site stays while penalties are not settled. */
#include "answer.h"
#include "commands.h"
#include "files.h"
#include "list_words.h"
#include "words.h"
#include <inttypes.h>
#include <stdio.h>

/* A penalty that is not settled: of which task, from 0, and between what. */
typedef struct {
    size_t task;
    uint32_t low, high;
} open_penalty;

typedef struct {
    size_t count;
    open_penalty open[TOWHEPAMU_MOST_TASKS];
    uint64_t low_cost, high_cost; /* with all penalties low, and with all high */
} quote;

/* ---- What is asked ---- */

static size_t take_task(const parsed_site *site, const quote *before, const char *word) {
    uint32_t number = word_of(word);
    if (number == 0 || number > site->tasks)
        give_up("there is no task %s; the site has %s", word, amount_of(site->tasks, "task").text);
    size_t task = number - 1;
    if (site->task[task].penalty == SITE_MUST)
        give_up("task %" PRIu32 " may not be refused: it has no penalty to quote", number);
    for (size_t i = 0; i < before->count; i++)
        if (before->open[i].task == task)
            give_up("task %" PRIu32 " is named twice", number);
    return task;
}

static uint32_t take_penalty(const parsed_site *site, size_t task, const char *word) {
    const field_words *words = words_of(&site->list, PENALTY);
    uint32_t penalty = word_of(word);
    if (penalty < words->least || penalty > words->most)
        give_up("%s is %s; it must be %s to %s",
                name_in_words(&site->list, (number_name){PENALTY, task + 1}).text, word,
                grouped(words->least).text, grouped(words->most).text);
    return penalty;
}

static void take_open_penalty(const parsed_site *site, const char *const words[], quote *of) {
    open_penalty *open = &of->open[of->count];
    open->task = take_task(site, of, words[0]);
    open->low = take_penalty(site, open->task, words[1]);
    open->high = take_penalty(site, open->task, words[2]);
    if (open->low > open->high)
        give_up("the low penalty of task %zu, %s, is above the high one, %s", open->task + 1,
                words[1], words[2]);
    of->count++;
}

/* ---- What it costs ---- */

/* A plan that refuses the task costs that much more with the high penalty than with the low one,
   and one that keeps it the same; so the least cost of all plans moves by no more. */
static uint64_t most_moved_by(const parsed_site *site, const open_penalty *open) {
    return site->penalty_weight * site_jobs(site, open->task) * (open->high - open->low);
}

static uint64_t most_moved(const parsed_site *site, const quote *of) {
    uint64_t sum = 0;
    for (size_t i = 0; i < of->count; i++)
        sum += most_moved_by(site, &of->open[i]);
    return sum;
}

/* Plans the site with all penalties low, or with all high. */
static towhepamu_planned plan_with(planned_site *answer, const quote *of, bool high) {
    for (size_t i = 0; i < of->count; i++) {
        const open_penalty *open = &of->open[i];
        answer->site.task[open->task].penalty = high ? open->high : open->low;
    }
    site_rewrite(&answer->site);
    plan_read_site(answer);
    return answer->price;
}

/* Both costs; false, and told, where there is no plan. Which plans there are does not depend on
   these penalties, and the costs differ by no more than they can move: a library that answers
   otherwise errs. */
static bool plan_both(planned_site *answer, quote *of) {
    const parsed_site *site = &answer->site;
    towhepamu_planned low = plan_with(answer, of, false), high = plan_with(answer, of, true);
    if (low.refusal != high.refusal)
        give_up("%s: the library has a plan with the lowest or with the highest penalties only",
                file_words(site->list.file));
    if (low.refusal != TOWHEPAMU_ACCEPTED) {
        tell_site_refusal(site, low.refusal, low.place);
        return false;
    }
    if (high.cost < low.cost || high.cost - low.cost > most_moved(site, of))
        give_up("%s: the penalties cannot move the cost from %s to %s, as the library answers",
                file_words(site->list.file), grouped(low.cost).text, grouped(high.cost).text);
    of->low_cost = low.cost;
    of->high_cost = high.cost;
    return true;
}

/* ---- In words ---- */

static void print_open_penalty(const parsed_site *site, const open_penalty *open) {
    printf("The penalty of task %zu is %s", open->task + 1, grouped(open->low).text);
    if (open->low == open->high) {
        puts(" a job. It does not move the cost.");
        return;
    }
    printf(" to %s a job. It moves the cost by at most %s: ", grouped(open->high).text,
           grouped(most_moved_by(site, open)).text);
    printf("penalty weight %s x %s x (%s - %s).\n", grouped(site->penalty_weight).text,
           amount_of(site_jobs(site, open->task), "job").text, grouped(open->high).text,
           grouped(open->low).text);
}

static void print_quote(const parsed_site *site, const quote *of) {
    digits low = grouped(of->low_cost), high = grouped(of->high_cost);
    printf("%s: what the node costs in a span of %s, before its penalties are settled\n\n",
           file_words(site->list.file), amount_of(site->span, "tick").text);
    for (size_t i = 0; i < of->count; i++)
        print_open_penalty(site, &of->open[i]);
    if (of->count > 1)
        printf("Together they move the cost by at most %s.\n", grouped(most_moved(site, of)).text);
    printf("\nWith the lowest penalties the cost is %s.\n", low.text);
    printf("With the highest penalties the cost is %s.\n", high.text);
    if (of->low_cost == of->high_cost)
        printf("With any penalties between, the cost is %s, too.\n", low.text);
    else
        printf("With any penalties between, the cost is at least %s and at most %s.\n", low.text,
               high.text);
}

int run_quote(const arguments *given) {
    static planned_site answer;
    quote of = {0};
    towhepamu_checked why;
    if (!read_site(given->file[0], &answer.site, &why))
        return REFUSED;
    for (size_t i = 0; i < given->numbers; i += NUMBERS_OF_A_TASK)
        take_open_penalty(&answer.site, given->number + i, &of);
    if (!plan_both(&answer, &of))
        return REFUSED;
    print_quote(&answer.site, &of);
    return WELL;
}

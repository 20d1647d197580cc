#include "answer.h"
#include "files.h"
#include "words.h"
#include <inttypes.h>

static bool refuse(const parsed_site *site, uint64_t refusal, uint64_t place,
                   towhepamu_checked *why) {
    tell_site_refusal(site, refusal, place);
    *why = (towhepamu_checked){refusal, place};
    return false;
}

bool read_site(const char *name, parsed_site *site, towhepamu_checked *why) {
    read_numbers(name, &site_form, &site->list);
    towhepamu_site read = towhepamu_read(site->list.text, site->list.text_len);
    if (read.refusal != TOWHEPAMU_ACCEPTED)
        return refuse(site, read.refusal, read.place, why);
    site_fill_in(site, read.span);
    if (site->cores != read.cores || site->levels != read.levels || site->tasks != read.tasks)
        give_up("%s: this program and the library read it differently", file_words(name));
    return true;
}

void plan_read_site(planned_site *answer) {
    const parsed_site *site = &answer->site;
    answer->price = towhepamu_plan(site->list.text, site->list.text_len, answer->plan,
                                   sizeof answer->plan, answer->table, sizeof answer->table);
    if (answer->price.refusal != TOWHEPAMU_ACCEPTED)
        return;
    towhepamu_checked check = towhepamu_check(site->list.text, site->list.text_len, answer->plan,
                                              site->tasks, answer->table, site->cores * site->span);
    if (check.refusal != TOWHEPAMU_ACCEPTED)
        give_up("%s: the library's own plan does not pass its check: refused %" PRIu64 " %" PRIu64,
                file_words(site->list.file), check.refusal, check.place);
}

bool plan_site(const char *name, planned_site *answer, towhepamu_checked *why) {
    const towhepamu_planned *price = &answer->price;
    if (!read_site(name, &answer->site, why))
        return false;
    plan_read_site(answer);
    return price->refusal == TOWHEPAMU_ACCEPTED ||
           refuse(&answer->site, price->refusal, price->place, why);
}

size_t core_of(const planned_site *answer, size_t task) {
    return answer->plan[task] == 0 ? 0 : (answer->plan[task] - 1u) / answer->site.levels + 1;
}

size_t level_of(const planned_site *answer, size_t task) {
    return answer->plan[task] == 0 ? 0 : (answer->plan[task] - 1u) % answer->site.levels + 1;
}

bool is_awake(const planned_site *answer, size_t core) {
    for (size_t i = 0; i < answer->site.tasks; i++)
        if (core_of(answer, i) == core)
            return true;
    return false;
}

uint64_t ticks_of(const planned_site *answer, size_t task) {
    return site_ticks(&answer->site, task, level_of(answer, task) - 1);
}

const uint8_t *row_of(const planned_site *answer, size_t core) {
    return answer->table + core * answer->site.span;
}

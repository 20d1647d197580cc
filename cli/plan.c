/* plan SITE: the listing. */
#include "answer.h"
#include "commands.h"
#include "files.h"
#include <inttypes.h>
#include <stdio.h>

int run_plan(const arguments *given) {
    static planned_site answer;
    static uint8_t listing[TOWHEPAMU_MOST_LISTING_BYTES];
    const parsed_site *site = &answer.site;
    towhepamu_checked why;
    if (!plan_site(given->file[0], &answer, &why)) {
        printf("refused %" PRIu64 " %" PRIu64 "\n", why.refusal, why.place);
        return REFUSED;
    }
    towhepamu_listed listed =
        towhepamu_list(site->list.text, site->list.text_len, listing, sizeof listing);
    if (listed.refusal != TOWHEPAMU_ACCEPTED || listed.length > sizeof listing)
        give_up("%s has a plan, but no listing: refused %" PRIu64 " %" PRIu64,
                file_words(given->file[0]), listed.refusal, listed.place);
    if (given->plan != NULL)
        write_numbers(given->plan, answer.plan, site->tasks, site->tasks);
    if (given->table != NULL)
        write_numbers(given->table, answer.table, site->cores * site->span, site->span);
    fwrite(listing, 1, listed.length, stdout);
    return WELL;
}

/* check and slots, SITE PLAN TABLE or SITE FILE: whether a given plan and table serve every job;
   and whether the table's slots name the right tasks. */
#include "answer.h"
#include "commands.h"
#include "files.h"
#include "given.h"
#include <inttypes.h>
#include <stdio.h>

typedef towhepamu_checked check_call(const uint8_t *text, size_t text_len, const uint8_t *plan,
                                     size_t plan_len, const uint8_t *table, size_t table_len);

static int check_by(check_call *call, const char *pass, const arguments *given) {
    static parsed_site site;
    static subject of;
    towhepamu_checked check;
    if (!read_site(given->file[0], &site, &check)) {
        printf("refused %" PRIu64 " %" PRIu64 "\n", check.refusal, check.place);
        return REFUSED;
    }
    int taken = take_given(given, &site, &of);
    if (taken != WELL)
        return taken;
    check = call(site.list.text, site.list.text_len, of.plan, of.plan_len, of.table, of.table_len);
    if (check.refusal == TOWHEPAMU_ACCEPTED) {
        puts(pass);
        return WELL;
    }
    printf("refused %" PRIu64 " %" PRIu64 "\n", check.refusal, check.place);
    tell_given_refusal(&of, check);
    return REFUSED;
}

int run_check(const arguments *given) {
    return check_by(towhepamu_check, "plan and table pass", given);
}

int run_slots(const arguments *given) {
    return check_by(towhepamu_check_slots, "plan and slots pass", given);
}

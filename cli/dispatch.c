/* dispatch SITE: what the dispatcher of a core answers, tick by tick. */
#include "answer.h"
#include "commands.h"
#include "files.h"
#include "given.h"
#include <inttypes.h>
#include <stdio.h>
#include <string.h>

enum { MOST_CALLS = 16 * TOWHEPAMU_MOST_SPAN };

/* ---- What is dispatched ---- */

/* The calls that report an early end. */
typedef struct {
    bool at[MOST_CALLS];
    size_t calls; /* how many there are up to the last that does */
} reports;

static int take_reports(const char *name, reports *of) {
    static node_file file;
    if (name == NULL)
        return WELL;
    if (!node_read(name, &file))
        return UNUSABLE;
    if (file.is_listing)
        give_up("%s: a listing; the numbers of calls are needed", file_words(name));
    for (size_t i = 0; i < file.count; i++) {
        if (i >= NODE_MOST_NUMBERS || file.numbers[i] >= MOST_CALLS)
            give_up("%s: only calls below %s can report", file_words(name),
                    grouped(MOST_CALLS).text);
        of->at[file.numbers[i]] = true;
        if (of->calls <= file.numbers[i])
            of->calls = (size_t)file.numbers[i] + 1;
    }
    return WELL;
}

/* The site's own plan, or the given one. */
static int take_plan(const arguments *given, planned_site *answer, subject *of) {
    towhepamu_checked why;
    if (given->files > 1)
        return read_site(given->file[0], &answer->site, &why)
                   ? take_given_plan(given->file[1], &answer->site, of)
                   : REFUSED;
    if (!plan_site(given->file[0], answer, &why))
        return REFUSED;
    of->site = &answer->site;
    of->plan_len = answer->site.tasks;
    memcpy(of->plan, answer->plan, of->plan_len);
    return WELL;
}

static int tell_refusal(const arguments *given, const subject *of, towhepamu_checked why) {
    if (why.refusal == TOWHEPAMU_STATE)
        fprintf(stderr, "towhepamu: there is no core %s; the site has %s\n", given->core,
                amount_of(of->site->cores, "core").text);
    else if (why.refusal == TOWHEPAMU_OVERLOAD)
        fprintf(stderr,
                "%s: core %" PRIu64
                " does not fit: more is due by some tick than it can have run\n",
                file_words(given->file[1]), why.place);
    else
        tell_given_refusal(of, why);
    return REFUSED;
}

/* ---- Calls ---- */

/* One call, over the prepared core and through the text; gives up where these differ. */
static towhepamu_dispatched dispatch(const subject *of, uint32_t core, towhepamu_node *node,
                                     bool ended) {
    towhepamu_state state = node->state;
    towhepamu_dispatched answer = towhepamu_tick(node, ended);
    towhepamu_dispatched other = towhepamu_dispatch(of->site->list.text, of->site->list.text_len,
                                                    of->plan, of->plan_len, core, &state, ended);
    if (memcmp(&answer, &other, sizeof answer) != 0 ||
        memcmp(&state, &node->state, sizeof state) != 0)
        give_up("the library's tick and its call differ");
    return answer;
}

static int print_spans(const subject *of, uint32_t core, towhepamu_node *node,
                       const reports *ends) {
    size_t span = of->site->span;
    for (size_t n = 0; n == 0 || n < ends->calls; n += span) {
        printf("core %" PRIu32, core);
        for (size_t t = n; t < n + span; t++) {
            towhepamu_dispatched answer = dispatch(of, core, node, t < ends->calls && ends->at[t]);
            if (answer.refusal != TOWHEPAMU_ACCEPTED) {
                putchar('\n');
                fprintf(stderr,
                        "towhepamu: call %zu reports an early end, but no task ran in the tick "
                        "before\n",
                        t);
                return REFUSED;
            }
            printf(" %" PRIu64, answer.task);
        }
        putchar('\n');
    }
    return WELL;
}

int run_dispatch(const arguments *given) {
    static planned_site answer;
    static subject of;
    static reports ends;
    static towhepamu_node node;
    uint32_t core = word_of(given->core);
    int taken = take_plan(given, &answer, &of);
    if (taken == WELL)
        taken = take_reports(given->ended, &ends);
    if (taken != WELL)
        return taken;
    towhepamu_checked why = towhepamu_prepare(answer.site.list.text, answer.site.list.text_len,
                                              of.plan, of.plan_len, core, &node);
    return why.refusal == TOWHEPAMU_ACCEPTED ? print_spans(&of, core, &node, &ends)
                                             : tell_refusal(given, &of, why);
}

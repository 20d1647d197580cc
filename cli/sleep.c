/* sleep SITE: the gaps of each core, in which it sleeps, its least idle energy and its sleeps. */
#include "answer.h"
#include "commands.h"
#include "files.h"
#include "given.h"
#include <inttypes.h>
#include <stdio.h>
#include <string.h>

typedef struct {
    uint32_t energy, time; /* of switching a core off and on again */
    uint64_t energies[TOWHEPAMU_MOST_CORES];
    uint32_t sleeps[TOWHEPAMU_MOST_CORES];
} reckoning;

static void tell_switching(const arguments *given, uint64_t place) {
    fprintf(
        stderr, "towhepamu: switching %s is %s; it must be 0 to %s\n",
        place == 0 ? "energy" : "time", place == 0 ? given->energy : given->time,
        grouped(place == 0 ? TOWHEPAMU_MOST_SWITCHING_ENERGY : TOWHEPAMU_MOST_SWITCHING_TIME).text);
}

/* ---- Gaps ---- */

/* One gap; returns what the core draws in it. */
static uint64_t print_gap(const planned_site *answer, const reckoning *of, size_t first,
                          size_t size, uint32_t *sleeps) {
    const parsed_site *site = &answer->site;
    uint64_t awake = (uint64_t)site->idle_power * size;
    bool asleep = size >= of->time && awake > of->energy;
    uint64_t drawn = asleep ? of->energy : awake;
    printf("  %4zu to %4zu%7zu x %6" PRIu32 " = %10" PRIu64 "  %-6s%11" PRIu64 "\n", first,
           (first + size - 1) % site->span, size, site->idle_power, awake,
           asleep ? "sleeps" : "awake", drawn);
    *sleeps += asleep;
    return drawn;
}

/* The gaps of an awake core, numbered from 0: from its first busy slot to that slot's next showing,
   so that a gap across the end is one. Returns whether they come to what the library answers. */
static bool print_gaps(const planned_site *answer, const reckoning *of, size_t core) {
    const uint8_t *row = row_of(answer, core);
    size_t span = answer->site.span, busy = 0, idle = 0;
    uint64_t energy = 0;
    uint32_t sleeps = 0;
    while (busy < span && row[busy] == 0)
        busy++;
    printf("%14s%7s%9s%13s%19s\n", "ticks", "idle", "power", "awake", "energy");
    for (size_t t = busy + 1; t <= busy + span; t++) {
        bool ends = row[t % span] != 0;
        if (ends && idle > 0)
            energy += print_gap(answer, of, (t - idle) % span, idle, &sleeps);
        idle = ends ? 0 : idle + 1;
    }
    char words[96];
    snprintf(words, sizeof words, "least idle energy, %s", amount_of(sleeps, "sleep").text);
    printf("%62s\n  %-46s%14" PRIu64 "\n", "--------------", words, energy);
    return energy == of->energies[core] && sleeps == of->sleeps[core];
}

static bool print_cores(const planned_site *answer, const reckoning *of) {
    const parsed_site *site = &answer->site;
    bool right = true;
    printf("%s: %s, span %zu, idle power %" PRIu32 ", switching energy %" PRIu32
           ", switching time %" PRIu32 "\n\n",
           file_words(site->list.file), amount_of(site->cores, "core").text, site->span,
           site->idle_power, of->energy, of->time);
    puts("gaps: idle ticks x idle power awake; asleep the switching energy, where a gap has at "
         "least\n"
         "the switching time and would draw more awake; from a later tick to an earlier one: "
         "across\n"
         "the end of the span");
    for (size_t c = 0; c < site->cores; c++) {
        printf("\ncore %zu\n", c + 1);
        if (is_awake(answer, c + 1)) {
            right = print_gaps(answer, of, c) && right;
        } else {
            printf("  %-46s%14d\n", "off: it keeps no task", 0);
            right = right && of->energies[c] == 0 && of->sleeps[c] == 0;
        }
    }
    return right;
}

/* ---- The call ---- */

/* The site's own plan and table, or the given ones, as what is reckoned for. */
static int take_subject(const arguments *given, planned_site *answer, subject *of) {
    const parsed_site *site = &answer->site;
    towhepamu_checked why;
    if (given->files > 1)
        return read_site(given->file[0], &answer->site, &why) ? take_given(given, site, of)
                                                              : REFUSED;
    if (!plan_site(given->file[0], answer, &why))
        return REFUSED;
    of->site = site;
    of->plan_len = site->tasks;
    of->table_len = site->cores * site->span;
    memcpy(of->plan, answer->plan, of->plan_len);
    memcpy(of->table, answer->table, of->table_len);
    return WELL;
}

static int tell_refusal(const arguments *given, const subject *of, towhepamu_checked why) {
    if (why.refusal == TOWHEPAMU_SWITCHING)
        tell_switching(given, why.place);
    else if (given->files == 1)
        give_up("%s: the library refuses its own plan: refused %" PRIu64 " %" PRIu64,
                file_words(given->file[0]), why.refusal, why.place);
    else
        tell_given_refusal(of, why);
    return REFUSED;
}

int run_sleep(const arguments *given) {
    static planned_site answer;
    static subject of;
    reckoning got = {word_of(given->energy), word_of(given->time), {0}, {0}};
    int taken = take_subject(given, &answer, &of);
    if (taken != WELL)
        return taken;
    towhepamu_checked why =
        towhepamu_sleep(answer.site.list.text, answer.site.list.text_len, of.plan, of.plan_len,
                        of.table, of.table_len, got.energy, got.time, got.energies,
                        TOWHEPAMU_MOST_CORES, got.sleeps, TOWHEPAMU_MOST_CORES);
    if (why.refusal != TOWHEPAMU_ACCEPTED)
        return tell_refusal(given, &of, why);
    memcpy(answer.plan, of.plan, of.plan_len);
    memcpy(answer.table, of.table, of.table_len);
    if (print_cores(&answer, &got))
        return WELL;
    fputs("towhepamu: the gaps do not come to what the library answers\n", stderr);
    return UNUSABLE;
}

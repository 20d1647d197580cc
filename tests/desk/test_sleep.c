/*
 * Sleeping in the archive against the reference, on sites, plans and tables drawn from a fixed
 * seed: rows by earliest due tick, rows in another order that pass the check, and damaged ones. The
 * same answers, the same entries in the lent lists, and not a byte touched around them.
 */
#define _DEFAULT_SOURCE
#include "drawings.h"
#include "generate.h"
#include "known_sleeps.h"
#include "lent.h"
#include <inttypes.h>

enum { SITES = 6000, LARGE_SITES = 40, MOST_REPORTED = 10, REFUSALS = 12 };

/* The text that is lent, the instance where it reads, and the buffers beside it. */
static lent text, plan, table, energies, sleeps;
static bool reads;
static reference_instance in;

/* The sizes of buffers that are lent beside a text that is refused. */
static const reference_instance unread = {
    1, 1, 2, 5, 0, 2, 3, 60, {{1, 1}, {2, 2}}, {{60, 1, 1, 60}, {1, 1, 1, 1}, {2, 1, 1, 2}}};

static size_t compared, differ, slept_through, across_the_end, equal_energies, seen[REFUSALS];

/* ---- One comparison ---- */

static void report(const char *what, towhepamu_checked answer, towhepamu_checked expected,
                   uint32_t energy, uint32_t time) {
    if (++differ > MOST_REPORTED)
        return;
    printf("desk: sleep: %s; switching energy %" PRIu32 ", time %" PRIu32 ", text:\n%.*s\n"
           "  archive: refusal %" PRIu64 " place %" PRIu64 "\n"
           "  reference: refusal %" PRIu64 " place %" PRIu64 "\n",
           what, energy, time, (int)text.len, (const char *)text.bytes, answer.refusal,
           answer.place, expected.refusal, expected.place);
}

static size_t draw_tail(generator *g) {
    return one_in(g, 2) ? 0 : GUARD;
}

/* What the tables that were accepted have between them, so that a run that had none is told. */
static void note_gaps(const drawing *given, uint32_t energy, uint32_t time) {
    reference_gap gaps[MOST_GAPS];
    for (size_t c = 0; c < in.cores; c++) {
        size_t count = reference_gaps(given->table + c * in.span, in.span, gaps);
        for (size_t i = 0; i < count; i++) {
            uint64_t awake = (uint64_t)in.idle_power * gaps[i].size;
            slept_through += gaps[i].size >= time && awake > energy;
            across_the_end += gaps[i].first + gaps[i].size > in.span;
            equal_energies += awake > 0 && awake == energy;
        }
    }
}

/* Beyond what the reference wrote, every byte of both lists must be as it was lent. */
static void compare(generator *g, const drawing *given, uint32_t energy, uint32_t time,
                    size_t energies_len, size_t sleeps_len) {
    uint64_t least[MOST_CORES];
    uint32_t times[MOST_CORES];
    lend_copy(&plan, given->plan, given->plan_len, draw_tail(g));
    lend_copy(&table, given->table, given->table_len, draw_tail(g));
    lend(&energies, energies_len * sizeof least[0], draw_tail(g));
    lend(&sleeps, sleeps_len * sizeof times[0], draw_tail(g));
    towhepamu_checked expected =
        reference_sleep(text.bytes, text.len, plan.bytes, plan.len, table.bytes, table.len, energy,
                        time, least, energies_len, times, sleeps_len);
    towhepamu_checked answer =
        towhepamu_sleep(text.bytes, text.len, plan.bytes, plan.len, table.bytes, table.len, energy,
                        time, (uint64_t *)(void *)energies.bytes, energies_len,
                        (uint32_t *)(void *)sleeps.bytes, sleeps_len);
    size_t written = expected.refusal == TOWHEPAMU_ACCEPTED ? in.cores : 0;
    compared++;
    seen[expected.refusal]++;
    if (written > 0)
        note_gaps(given, energy, time);
    if (answer.refusal != expected.refusal || answer.place != expected.place)
        report("answers otherwise", answer, expected, energy, time);
    else if (!still_has(&energies, (const uint8_t *)least, written * sizeof least[0]))
        report("leaves other energies", answer, expected, energy, time);
    else if (!still_has(&sleeps, (const uint8_t *)times, written * sizeof times[0]))
        report("leaves other sleeps", answer, expected, energy, time);
    else if (!still_has(&plan, given->plan, given->plan_len) ||
             !still_has(&table, given->table, given->table_len))
        report("writes to plan or table", answer, expected, energy, time);
}

/* ---- Switching words ---- */

/* The size of a gap of the drawing, if it has one. */
static size_t draw_gap(generator *g, const drawing *given) {
    reference_gap gaps[MOST_GAPS];
    size_t core = draw(g, in.cores);
    size_t count = reference_gaps(given->table + core * in.span, in.span, gaps);
    return count == 0 ? 0 : gaps[draw(g, count)].size;
}

/* Mostly about what a gap draws awake, and about a gap's size. */
static uint32_t draw_energy(generator *g, const drawing *given) {
    uint64_t awake = in.idle_power * draw_gap(g, given), most = TOWHEPAMU_MOST_SWITCHING_ENERGY;
    switch (draw(g, 8)) {
    case 0:
        return (uint32_t)draw(g, most + 1);
    case 1:
        return (uint32_t)draw_between(g, most - 1, most + (one_in(g, 4) ? 1 : 0));
    case 2:
        return one_in(g, 4) ? UINT32_MAX : 0;
    default:
        awake += draw(g, 3); /* one less, the same, one more */
        return (uint32_t)(awake == 0 ? 0 : awake - 1 < most ? awake - 1 : most);
    }
}

static uint32_t draw_time(generator *g, const drawing *given) {
    switch (draw(g, 6)) {
    case 0:
        return (uint32_t)draw_between(g, TOWHEPAMU_MOST_SWITCHING_TIME - 1,
                                      TOWHEPAMU_MOST_SWITCHING_TIME + (one_in(g, 4) ? 1 : 0));
    case 1:
        return one_in(g, 8) ? UINT32_MAX : 0;
    default:
        return (uint32_t)(draw_gap(g, given) + draw(g, 2));
    }
}

static void compare_drawing(generator *g, const drawing *given, const drawing *sound) {
    for (size_t n = 0; n < 3; n++)
        compare(g, given, draw_energy(g, sound), draw_time(g, sound), in.cores + draw(g, 3),
                in.cores + draw(g, 3));
    size_t few = draw(g, in.cores);
    bool first = one_in(g, 2);
    compare(g, given, draw_energy(g, sound), draw_time(g, sound), first ? few : in.cores,
            first && one_in(g, 2) ? in.cores : few);
}

/* ---- Rows in another order ---- */

/* Whether a task, or 0, may run at one tick of its row in place of another: in the same window. */
static bool may_move(uint8_t task, size_t from, size_t to) {
    if (task == 0)
        return true;
    const reference_task *of = &in.task[task - 1];
    return from / of->period == to / of->period && to % of->period < of->deadline;
}

/* Exchanges slots of a core that may be exchanged; or, `late`, only to bring idle ones forward. */
static void shuffle(generator *g, drawing *given, bool late) {
    for (size_t n = 4 * in.cores * in.span; n > 0; n--) {
        size_t row = draw(g, in.cores) * in.span, a = draw(g, in.span), b = draw(g, in.span);
        uint8_t at_a = given->table[row + a], at_b = given->table[row + b];
        if (may_move(at_a, a, b) && may_move(at_b, b, a) && (!late || (a < b && at_b == 0)))
            swap_slots(given, row + a, row + b);
    }
}

/* ---- One text ---- */

static void compare_text(generator *g, const uint8_t *bytes, size_t len) {
    static drawing sound, other;
    lend_copy(&text, bytes, len, draw_tail(g));
    reads = reference_read_text(text.bytes, text.len, &in).refusal == TOWHEPAMU_ACCEPTED;
    if (!reads)
        in = unread;
    draw_drawing(g, &in, &sound);
    if (reads && one_in(g, 2))
        reference_plan(text.bytes, text.len, sound.plan, in.tasks, sound.table, sound.table_len);
    compare_drawing(g, &sound, &sound);
    bool passes =
        reads &&
        reference_check_table(&in, sound.plan, in.tasks, sound.table, sound.table_len).refusal ==
            TOWHEPAMU_ACCEPTED;
    for (size_t n = 0; passes && n < 2; n++) {
        shuffle(g, &sound, n == 1);
        compare_drawing(g, &sound, &sound);
    }
    other = sound;
    for (size_t times = draw_between(g, 1, 2); times > 0; times--)
        damage_drawing(g, &in, &other);
    compare_drawing(g, &other, &sound);
    if (!still_has(&text, bytes, len) && ++differ <= MOST_REPORTED)
        puts("desk: sleep: the text is written to");
}

static void compare_known(generator *g, const known_sleep *known) {
    static drawing given;
    lend_copy(&text, (const uint8_t *)known->text, strlen(known->text), draw_tail(g));
    reference_read_text(text.bytes, text.len, &in);
    given.plan_len = strlen(known->choices);
    given.table_len = strlen(known->table);
    for (size_t i = 0; i < given.plan_len; i++)
        given.plan[i] = (uint8_t)(known->choices[i] - '0');
    for (size_t s = 0; s < given.table_len; s++)
        given.table[s] = (uint8_t)(known->table[s] - '0');
    compare(g, &given, known->energy, known->time, MOST_CORES, MOST_CORES);
}

static void compare_site(generator *g, site_limits limits) {
    static uint32_t words[MOST_DRAWN_WORDS];
    static uint8_t bytes[MOST_DRAWN_TEXT];
    size_t count = draw_site(g, limits, words);
    uint64_t harm = draw(g, 16); /* to the words, to the text, mostly none */
    if (harm == 0)
        damage_words(g, words, &count);
    size_t len = write_text(g, words, count, one_in(g, 2), bytes);
    if (harm == 1)
        damage_text(g, bytes, &len);
    compare_text(g, bytes, len);
}

int main(void) {
    static const size_t possible[] = {0, 1, 2, 3, 4, 6, 7, 9, 10, 11};
    generator g = {20040229};
    lent *all[] = {&text, &plan, &table, &energies, &sleeps};
    for (size_t i = 0; i < sizeof all / sizeof all[0]; i++)
        *all[i] = make_room();
    for (size_t k = 0; k < KNOWN_SLEEPS; k++)
        compare_known(&g, &known_sleeps[k]);
    for (size_t n = 0; n < SITES; n++)
        compare_site(&g, one_in(&g, 4) ? (site_limits){4, 8, 3, 8, 512}
                                       : (site_limits){4, 8, 0, 5, 60});
    for (size_t n = 0; n < LARGE_SITES; n++)
        compare_site(&g, (site_limits){4, 8, 8, 12, 4096});
    bool whole = slept_through > 0 && across_the_end > 0 && equal_energies > 0;
    printf("desk: sleep:");
    for (size_t i = 0; i < sizeof possible / sizeof possible[0]; i++) {
        printf("%s %zu: %zu", i == 0 ? " refusal" : ",", possible[i], seen[possible[i]]);
        whole = whole && seen[possible[i]] > 0;
    }
    printf(
        "\ndesk: sleep: gaps slept through %zu, across the end %zu, of the switching energy %zu; "
        "%zu compared, %zu differ\n",
        slept_through, across_the_end, equal_energies, compared, differ);
    return differ > 0 || !whole;
}

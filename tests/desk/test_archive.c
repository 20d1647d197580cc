/*
 * The archive against the reference, on sites and texts drawn from a fixed seed: the same answers,
 * the same bytes in the lent buffers, and not a byte touched around them.
 */
#define _DEFAULT_SOURCE
#include "drawings.h"
#include "generate.h"
#include "known.h"
#include "lent.h"
#include <inttypes.h>

enum { SITES = 14000, LARGE_SITES = 24, MOST_REPORTED = 10, REFUSALS = 11 };

/* The text that is lent, the instance where it reads, and the buffers beside it. */
static lent text, plan, table, out;
static bool reads;
static reference_instance in;

/* The sizes of buffers that are lent beside a text that is refused. */
static const reference_instance unread = {
    1, 1, 2, 0, 0, 2, 3, 60, {{1, 1}, {2, 2}}, {{60, 1, 1, 60}, {1, 1, 1, 1}, {2, 1, 1, 2}}};

static size_t compared, differ, with_idle_power, with_start_ticks, with_deadlines;
static size_t was_read[REFUSALS], planned[REFUSALS], listed[REFUSALS];
static size_t checked[REFUSALS], slots_checked[REFUSALS];

/* ---- One comparison ---- */

static bool report(const char *what) {
    if (++differ > MOST_REPORTED)
        return false;
    printf("desk: %s; plan of %zu bytes, table of %zu, text of %zu:\n", what, plan.len, table.len,
           text.len);
    fwrite(text.bytes, 1, text.len, stdout);
    printf("\n");
    return true;
}

static void print_answer(const char *whose, towhepamu_planned answer) {
    printf("%s: refusal %" PRIu64 " place %" PRIu64 " energy %" PRIu64 " penalty %" PRIu64
           " cost %" PRIu64 "\n",
           whose, answer.refusal, answer.place, answer.energy, answer.penalty, answer.cost);
}

static bool same_answers(const char *what, towhepamu_planned answer, towhepamu_planned expected) {
    if (answer.refusal == expected.refusal && answer.place == expected.place &&
        answer.energy == expected.energy && answer.penalty == expected.penalty &&
        answer.cost == expected.cost)
        return true;
    if (report(what)) {
        print_answer("  archive", answer);
        print_answer("  reference", expected);
    }
    return false;
}

static size_t draw_tail(generator *g) {
    return one_in(g, 2) ? 0 : GUARD;
}

/* Plans the lent text, and says whether it has a plan. Beyond what the reference wrote, every byte
   must be as it was lent. */
static bool compare_plan(generator *g, size_t plan_len, size_t table_len) {
    static uint8_t choices[MOST_GIVEN], slots[MOST_GIVEN];
    lend(&plan, plan_len, draw_tail(g));
    lend(&table, table_len, draw_tail(g));
    towhepamu_planned expected =
        reference_plan(text.bytes, text.len, choices, plan_len, slots, table_len);
    towhepamu_planned answer =
        towhepamu_plan(text.bytes, text.len, plan.bytes, plan_len, table.bytes, table_len);
    bool accepted = expected.refusal == TOWHEPAMU_ACCEPTED;
    compared++;
    planned[expected.refusal]++;
    with_idle_power += accepted && in.idle_power > 0;
    with_start_ticks += accepted && in.start_ticks > 0 && expected.energy > 0;
    with_deadlines += accepted && reference_has_early(&in);
    if (!same_answers("planning answers otherwise", answer, expected))
        return accepted;
    if (!still_has(&plan, choices, accepted ? in.tasks : 0))
        report("planning leaves another plan buffer");
    else if (!still_has(&table, slots, accepted ? in.cores * in.span : 0))
        report("planning leaves another table buffer");
    return accepted;
}

/* Reads the lent text. */
static void compare_reading(void) {
    towhepamu_site expected = reference_site(text.bytes, text.len);
    towhepamu_site answer = towhepamu_read(text.bytes, text.len);
    compared++;
    was_read[expected.refusal]++;
    if (memcmp(&answer, &expected, sizeof answer) != 0 && report("reading answers otherwise"))
        printf("  archive: refusal %" PRIu64 " place %" PRIu64 " tasks %" PRIu64 " levels %" PRIu64
               " cores %" PRIu64 " span %" PRIu64 "\n",
               answer.refusal, answer.place, answer.tasks, answer.levels, answer.cores,
               answer.span);
}

/* Lists the lent text. Beyond the listing, every byte must be as it was lent. */
static void compare_listing(generator *g, size_t out_len) {
    static uint8_t bytes[TOWHEPAMU_MOST_LISTING_BYTES + SLACK];
    lend(&out, out_len, draw_tail(g));
    towhepamu_listed expected = reference_list(text.bytes, text.len, bytes, out_len);
    towhepamu_listed answer = towhepamu_list(text.bytes, text.len, out.bytes, out_len);
    compared++;
    listed[expected.refusal]++;
    if (memcmp(&answer, &expected, sizeof answer) != 0) {
        if (report("listing answers otherwise"))
            printf("  archive: refusal %" PRIu64 " place %" PRIu64 " length %" PRIu64 "\n",
                   answer.refusal, answer.place, answer.length);
    } else if (!still_has(&out, bytes, expected.length))
        report("listing leaves another buffer");
}

typedef towhepamu_checked check_call(const uint8_t *text, size_t text_len, const uint8_t *plan,
                                     size_t plan_len, const uint8_t *table, size_t table_len);

/* Checks a drawing for the lent text by one of the two checks. */
static void compare_check_by(generator *g, const drawing *given, check_call *of_archive,
                             check_call *of_reference, size_t *seen) {
    lend_copy(&plan, given->plan, given->plan_len, draw_tail(g));
    lend_copy(&table, given->table, given->table_len, draw_tail(g));
    towhepamu_checked expected =
        of_reference(text.bytes, text.len, plan.bytes, plan.len, table.bytes, table.len);
    towhepamu_checked answer =
        of_archive(text.bytes, text.len, plan.bytes, plan.len, table.bytes, table.len);
    compared++;
    seen[expected.refusal]++;
    if (!same_answers("checking answers otherwise",
                      (towhepamu_planned){answer.refusal, answer.place, 0, 0, 0},
                      (towhepamu_planned){expected.refusal, expected.place, 0, 0, 0}))
        return;
    if (!still_has(&plan, given->plan, given->plan_len) ||
        !still_has(&table, given->table, given->table_len))
        report("checking writes");
}

static void compare_check(generator *g, const drawing *given) {
    compare_check_by(g, given, towhepamu_check, reference_check, checked);
    compare_check_by(g, given, towhepamu_check_slots, reference_check_slots, slots_checked);
}

/* ---- One text ---- */

static void read_text(void) {
    reads = reference_read_text(text.bytes, text.len, &in).refusal == TOWHEPAMU_ACCEPTED;
    if (!reads)
        in = unread;
}

static void compare_checks(generator *g, bool accepted) {
    static drawing given, damaged;
    draw_drawing(g, &in, &given);
    compare_check(g, &given);
    if (accepted) {
        reference_plan(text.bytes, text.len, given.plan, in.tasks, given.table, given.table_len);
        compare_check(g, &given);
    }
    for (size_t n = reads ? 5 : 1; n > 0; n--) {
        damaged = given;
        for (size_t times = draw_between(g, 1, 2); times > 0; times--)
            damage_drawing(g, &in, &damaged);
        compare_check(g, &damaged);
    }
}

static void compare_text(generator *g, const uint8_t *bytes, size_t len) {
    lend_copy(&text, bytes, len, draw_tail(g));
    read_text();
    size_t tasks = in.tasks, slots = in.cores * in.span, slack = one_in(g, 2) ? 0 : SLACK;
    bool accepted = compare_plan(g, tasks + slack, slots + slack);
    size_t few = tasks > 0 ? draw(g, tasks) : 0;
    compare_plan(g, few, one_in(g, 2) ? slots : draw(g, slots));
    compare_plan(g, tasks, draw(g, slots));
    compare_plan(g, 0, 0);
    compare_checks(g, accepted);
    compare_reading();
    if (one_in(g, 3)) /* not always, since such a buffer takes long to compare */
        compare_listing(g, TOWHEPAMU_MOST_LISTING_BYTES + slack);
    else
        compare_listing(g, one_in(g, 8) ? TOWHEPAMU_MOST_LISTING_BYTES - 1 : draw(g, 2000));
    if (!still_has(&text, bytes, len))
        report("the text is written to");
}

/* ---- All texts ---- */

static void compare_site(generator *g, site_limits limits) {
    static uint32_t words[MOST_DRAWN_WORDS];
    static uint8_t bytes[MOST_DRAWN_TEXT];
    size_t count = draw_site(g, limits, words);
    uint64_t harm = draw(g, 3); /* none, to the words, to the text */
    for (size_t n = draw_between(g, 1, 2); harm == 1 && n > 0; n--)
        damage_words(g, words, &count);
    size_t len = write_text(g, words, count, one_in(g, 2), bytes);
    for (size_t n = draw_between(g, 1, 2); harm == 2 && n > 0; n--)
        damage_text(g, bytes, &len);
    compare_text(g, bytes, len);
}

static bool print_seen(const char *call, const size_t *seen, const size_t *possible) {
    bool all = true;
    printf("desk: %s: accepted %zu", call, seen[0]);
    for (size_t i = 0; possible[i] != 0; i++) {
        printf(", refused %zu: %zu", possible[i], seen[possible[i]]);
        all = all && seen[possible[i]] > 0;
    }
    printf("\n");
    return all && seen[0] > 0;
}

int main(void) {
    generator g = {20000101};
    text = make_room();
    plan = make_room();
    table = make_room();
    out = make_room();
    for (size_t k = 0; k < KNOWN_CASES; k++)
        compare_text(&g, (const uint8_t *)known_cases[k].text, strlen(known_cases[k].text));
    for (size_t n = 0; n < SITES; n++)
        compare_site(&g, one_in(&g, 30)  ? (site_limits){4, 8, 9, 12, 120}
                         : one_in(&g, 6) ? (site_limits){4, 8, 5, 8, 512}
                                         : (site_limits){4, 8, 0, 5, 180});
    for (size_t n = 0; n < LARGE_SITES; n++)
        compare_site(&g, (site_limits){4, 8, 12, 12, 4096});

    bool all_read = print_seen("reading", was_read, (size_t[]){1, 2, 3, 4, 0});
    bool all_planned = print_seen("planning", planned, (size_t[]){1, 2, 3, 4, 5, 6, 0});
    bool all_checked = print_seen("checking", checked, (size_t[]){1, 2, 3, 4, 7, 9, 10, 0});
    bool all_slots = print_seen("checking slots", slots_checked, (size_t[]){1, 2, 3, 4, 7, 9, 0});
    bool all_listed = print_seen("listing", listed, (size_t[]){1, 2, 3, 4, 5, 6, 0});
    printf("desk: %zu compared, %zu plans with idle power, %zu that run tasks with start ticks and "
           "%zu with early deadlines among them, %zu differ\n",
           compared, with_idle_power, with_start_ticks, with_deadlines, differ);
    return differ > 0 || with_idle_power == 0 || with_start_ticks == 0 || with_deadlines == 0 ||
           !all_read || !all_planned || !all_checked || !all_slots || !all_listed;
}

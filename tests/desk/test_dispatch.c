/*
 * Dispatching in the archive against the reference, on sites, plans, states and reports drawn from
 * a fixed seed: calls over several spans from a fresh start, and calls in any state, each also as a
 * tick over the core prepared. The same answers, the same next states, and not a byte touched
 * around them.
 */
#define _DEFAULT_SOURCE
#include "generate.h"
#include "known_calls.h"
#include "lent.h"
#include "states.h"
#include <inttypes.h>

enum { SITES = 4000, LARGE_SITES = 6, SPANS = 3, STATES = 12, MOST_REPORTED = 10, REFUSALS = 14 };

/* The text that is lent, the instance where it reads, and the buffers beside it. */
static lent text, plan, lent_state, lent_node;
static bool reads;
static reference_instance in;

/* What plans and states are drawn for beside a text that is refused. */
static const reference_instance unread = {
    1, 1, 2, 5, 0, 2, 3, 60, {{1, 1}, {2, 2}}, {{60, 1, 1, 60}, {1, 1, 1, 1}, {2, 1, 1, 2}}};

static size_t compared, differ, early_ends, start_ticks, spans, odd_states, damaged, seen[REFUSALS];

/* ---- One call ---- */

static size_t draw_tail(generator *g) {
    return one_in(g, 2) ? 0 : GUARD;
}

static void report(const char *what, uint32_t core, const towhepamu_state *state, bool ended,
                   towhepamu_dispatched answer, towhepamu_dispatched expected) {
    if (++differ > MOST_REPORTED)
        return;
    printf("desk: dispatch: %s; core %" PRIu32 ", tick %" PRIu32 ", last %" PRIu32
           ", report %d, text:\n%.*s\n"
           "  archive: refusal %" PRIu64 " place %" PRIu64 " task %" PRIu64 "\n"
           "  reference: refusal %" PRIu64 " place %" PRIu64 " task %" PRIu64 "\n",
           what, core, state->tick, state->last, ended, (int)text.len, (const char *)text.bytes,
           answer.refusal, answer.place, answer.task, expected.refusal, expected.place,
           expected.task);
}

/* Compares one call in a state, which becomes the next one; returns what the reference answers. */
static towhepamu_dispatched compare(generator *g, const drawing *given, uint32_t core,
                                    towhepamu_state *state, bool ended) {
    towhepamu_state before = *state;
    lend_copy(&plan, given->plan, given->plan_len, draw_tail(g));
    lend_copy(&lent_state, (const uint8_t *)state, sizeof *state, draw_tail(g));
    towhepamu_dispatched expected =
        reference_dispatch(text.bytes, text.len, plan.bytes, plan.len, core, state, ended);
    towhepamu_dispatched answer =
        towhepamu_dispatch(text.bytes, text.len, plan.bytes, plan.len, core,
                           (towhepamu_state *)(void *)lent_state.bytes, ended);
    compared++;
    seen[expected.refusal]++;
    if (memcmp(&answer, &expected, sizeof answer) != 0)
        report("answers otherwise", core, &before, ended, answer, expected);
    else if (!still_has(&lent_state, (const uint8_t *)state, sizeof *state))
        report("leaves another state", core, &before, ended, answer, expected);
    else if (!still_has(&plan, given->plan, given->plan_len))
        report("writes to the plan", core, &before, ended, answer, expected);
    return expected;
}

/* ---- The core prepared ---- */

static bool same_core(const towhepamu_core *a, const towhepamu_core *b) {
    bool same = a->span == b->span && a->tasks == b->tasks;
    for (size_t j = 0; same && j < a->tasks; j++)
        same = a->numbers[j] == b->numbers[j] && a->periods[j] == b->periods[j] &&
               a->windows[j] == b->windows[j] && a->ticks[j] == b->ticks[j];
    return same;
}

/* Prepares a core in the archive and compares it; returns whether it was accepted. */
static bool prepare(generator *g, const drawing *given, uint32_t core, towhepamu_node *node) {
    towhepamu_node expected_node, before;
    memset(&before, 7, sizeof before);
    lend_copy(&plan, given->plan, given->plan_len, draw_tail(g));
    lend_copy(&lent_node, (const uint8_t *)&before, sizeof before, draw_tail(g));
    towhepamu_checked expected =
        reference_prepare(text.bytes, text.len, plan.bytes, plan.len, core, &expected_node);
    towhepamu_checked answer = towhepamu_prepare(text.bytes, text.len, plan.bytes, plan.len, core,
                                                 (towhepamu_node *)(void *)lent_node.bytes);
    bool accepted = expected.refusal == TOWHEPAMU_ACCEPTED, same;
    memcpy(node, lent_node.bytes, sizeof *node);
    if (accepted)
        same = same_core(&node->core, &expected_node.core) &&
               memcmp(&node->state, &expected_node.state, sizeof node->state) == 0;
    else
        same = memcmp(node, &before, sizeof before) == 0;
    compared++;
    if (answer.refusal != expected.refusal || answer.place != expected.place || !same ||
        !still_has(&lent_node, (const uint8_t *)node, sizeof *node) ||
        !still_has(&plan, given->plan, given->plan_len))
        report("prepares otherwise", core, &node->state, false,
               (towhepamu_dispatched){answer.refusal, answer.place, 0},
               (towhepamu_dispatched){expected.refusal, expected.place, 0});
    return accepted;
}

/* A tick over a prepared node must answer as the call does, and leave all but the state. */
static void compare_tick(generator *g, towhepamu_node *node, bool ended,
                         const towhepamu_state *next, towhepamu_dispatched expected) {
    towhepamu_node after = *node;
    after.state = *next;
    lend_copy(&lent_node, (const uint8_t *)node, sizeof *node, draw_tail(g));
    towhepamu_dispatched answer = towhepamu_tick((towhepamu_node *)(void *)lent_node.bytes, ended);
    compared++;
    if (memcmp(&answer, &expected, sizeof answer) != 0 ||
        !still_has(&lent_node, (const uint8_t *)&after, sizeof after))
        report("ticks otherwise", 0, &node->state, ended, answer, expected);
    *node = after;
}

static void compare_damaged(generator *g, const towhepamu_node *sound) {
    static const towhepamu_dispatched refusal = {TOWHEPAMU_STATE, 0, 0};
    towhepamu_node node = *sound;
    damage_core(g, &node.core);
    damaged++;
    compare_tick(g, &node, one_in(g, 2), &node.state, refusal);
}

/* ---- Calls one after another ---- */

/* One in `many` calls reports an early end, also where none ran before; none where it is 0. */
static void compare_calls(generator *g, const drawing *given, uint32_t core, size_t calls,
                          uint64_t many) {
    towhepamu_state state = {0};
    towhepamu_node node;
    if (!prepare(g, given, core, &node))
        return;
    compare_damaged(g, &node);
    for (size_t n = 0; n < calls; n++) {
        bool ended = many > 0 && one_in(g, many);
        towhepamu_dispatched answer = compare(g, given, core, &state, ended);
        compare_tick(g, &node, ended, &state, answer);
        early_ends += ended && answer.refusal == TOWHEPAMU_ACCEPTED;
        start_ticks += in.start_ticks > 0 && answer.task != 0;
        spans += n > 0 && answer.refusal == TOWHEPAMU_ACCEPTED && state.tick == 0;
    }
}

/* ---- Any state ---- */

static void compare_states(generator *g, const drawing *given) {
    for (size_t n = 0; n < STATES; n++) {
        uint32_t core = (uint32_t)draw(g, in.cores + (one_in(g, 4) ? 2 : 0));
        towhepamu_state state = draw_state(g, &in, given, core < in.cores ? core : 0),
                        before = state;
        bool ended = one_in(g, 3);
        towhepamu_dispatched answer = compare(g, given, core + 1, &state, ended);
        odd_states += answer.refusal == TOWHEPAMU_ACCEPTED;
        towhepamu_node node;
        if (prepare(g, given, core + 1, &node)) {
            node.state = before;
            compare_tick(g, &node, ended, &state, answer);
        }
    }
    towhepamu_state fresh = {0};
    compare(g, given, one_in(g, 2) ? 0 : UINT32_MAX, &fresh, false);
}

/* ---- One text ---- */

static void compare_text(generator *g, const uint8_t *bytes, size_t len, size_t most_calls) {
    static drawing given, other;
    lend_copy(&text, bytes, len, draw_tail(g));
    reads = reference_read_text(text.bytes, text.len, &in).refusal == TOWHEPAMU_ACCEPTED;
    if (!reads)
        in = unread;
    draw_drawing(g, &in, &given);
    if (reads && one_in(g, 2))
        reference_best(&in, given.plan);
    compare_states(g, &given);
    size_t calls = SPANS * in.span < most_calls ? SPANS * in.span : most_calls;
    if (reference_test_plan(&in, given.plan, in.tasks).refusal == TOWHEPAMU_ACCEPTED)
        for (uint32_t core = 1; core <= in.cores; core++)
            compare_calls(g, &given, core, calls, one_in(g, 6) ? 0 : draw_between(g, 2, 8));
    other = given;
    damage_drawing(g, &in, &other);
    compare_states(g, &other);
    if (!still_has(&text, bytes, len) && ++differ <= MOST_REPORTED)
        puts("desk: dispatch: the text is written to");
}

static void compare_known(generator *g, const known_calls *known) {
    static drawing given;
    towhepamu_state state = {0};
    lend_copy(&text, (const uint8_t *)known->text, strlen(known->text), draw_tail(g));
    given.plan_len = strlen(known->choices);
    for (size_t i = 0; i < given.plan_len; i++)
        given.plan[i] = (uint8_t)(known->choices[i] - '0');
    for (size_t n = 0; known->reports[n] != 0; n++)
        compare(g, &given, known->core, &state, known->reports[n] == '1');
}

static void compare_site(generator *g, site_limits limits, size_t most_calls) {
    static uint32_t words[MOST_DRAWN_WORDS];
    static uint8_t bytes[MOST_DRAWN_TEXT];
    size_t count = draw_site(g, limits, words);
    uint64_t harm = draw(g, 16); /* to the words, to the text, mostly none */
    if (harm == 0)
        damage_words(g, words, &count);
    size_t len = write_text(g, words, count, one_in(g, 2), bytes);
    if (harm == 1)
        damage_text(g, bytes, &len);
    compare_text(g, bytes, len, most_calls);
}

int main(void) {
    static const size_t possible[] = {0, 1, 2, 3, 4, 7, 8, 12, 13};
    generator g = {20240402};
    lent *all[] = {&text, &plan, &lent_state, &lent_node};
    for (size_t i = 0; i < sizeof all / sizeof all[0]; i++)
        *all[i] = make_room();
    for (size_t k = 0; k < KNOWN_SEQUENCES; k++)
        compare_known(&g, &known_sequences[k]);
    for (size_t n = 0; n < SITES; n++)
        compare_site(&g, (site_limits){4, 8, 0, 8, 60}, SPANS * 60);
    for (size_t n = 0; n < LARGE_SITES; n++)
        compare_site(&g, (site_limits){4, 8, 8, 12, 4096}, SPANS * 4096);
    bool whole = early_ends > 0 && start_ticks > 0 && spans > 0 && odd_states > 0 && damaged > 0;
    printf("desk: dispatch:");
    for (size_t i = 0; i < sizeof possible / sizeof possible[0]; i++) {
        printf("%s %zu: %zu", i == 0 ? " refusal" : ",", possible[i], seen[possible[i]]);
        whole = whole && seen[possible[i]] > 0;
    }
    printf("\ndesk: dispatch: early ends %zu, ticks of jobs with start ticks %zu, whole spans %zu, "
           "accepted states %zu, damaged cores %zu; %zu compared, %zu differ\n",
           early_ends, start_ticks, spans, odd_states, damaged, compared, differ);
    return differ > 0 || !whole;
}

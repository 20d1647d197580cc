/*
 * The reference's dispatcher by itself: known calls, and on drawn plans that without reports it
 * answers the rows again and again, and that with any reports every job had by its due tick run its
 * ticks or been reported ended, never ran more and never outside its window.
 */
#include "drawings.h"
#include "expect.h"
#include "known_calls.h"

enum { SITES = 3000, SPANS = 3, MOST_CALLS = SPANS * 200 };

/* ---- Known calls ---- */

static void test_known(const known_calls *known) {
    uint8_t plan[MOST_TASKS];
    towhepamu_state state = {0};
    size_t len = strlen(known->text), tasks = strlen(known->choices);
    for (size_t i = 0; i < tasks; i++)
        plan[i] = (uint8_t)(known->choices[i] - '0');
    for (size_t n = 0; known->reports[n] != 0; n++) {
        towhepamu_state before = state;
        towhepamu_dispatched answer =
            reference_dispatch((const uint8_t *)known->text, len, plan, tasks, known->core, &state,
                               known->reports[n] == '1');
        if (known->tasks[n] == '-')
            expect(answer.refusal == 13 && answer.place == 0 && answer.task == 0 &&
                       memcmp(&before, &state, sizeof state) == 0,
                   "refusal 13", known->name);
        else
            expect(answer.refusal == 0 && answer.task == (uint64_t)(known->tasks[n] - '0'),
                   "a task", known->name);
    }
}

/* ---- Drawn plans ---- */

static uint8_t text[MOST_DRAWN_TEXT];
static size_t text_len;
static reference_instance in;
static drawing given;

static uint8_t answers[MOST_CALLS];
static bool reports[MOST_CALLS];

/* Calls over several spans from a fresh start; where `many` is not 0, one in so many reports that
   13 does not refuse. */
static void dispatch_spans(generator *g, size_t core, uint64_t many) {
    towhepamu_state state = {0};
    for (size_t n = 0; n < SPANS * in.span; n++) {
        reports[n] = many > 0 && state.last != 0 && one_in(g, many);
        towhepamu_dispatched answer = reference_dispatch(text, text_len, given.plan, in.tasks,
                                                         (uint32_t)core + 1, &state, reports[n]);
        expect(answer.refusal == 0, "accepted", "a drawn plan");
        answers[n] = (uint8_t)answer.task;
    }
}

static void test_row(size_t core) {
    for (size_t n = 0; n < SPANS * in.span; n++)
        expect(answers[n] == given.table[core * in.span + n % in.span], "the row", "a drawn plan");
}

static void test_job(size_t task, size_t release, uint64_t ticks) {
    size_t due = release + in.task[task].deadline;
    uint64_t run = 0;
    bool ended = false, late = false;
    for (size_t t = release; t < release + in.task[task].period; t++) {
        bool runs = answers[t] == task + 1;
        run += runs;
        late = late || (runs && t >= due);
        ended = ended || (runs && t + 1 < due && reports[t + 1]);
    }
    expect(!late && run <= ticks && (run == ticks || ended), "a job", "a drawn plan");
}

static void test_jobs(size_t core) {
    for (size_t i = 0; i < in.tasks; i++) {
        bool kept = reference_runs_on(&in, given.plan, i, core);
        uint64_t ticks = kept ? reference_ticks(&in, i, reference_level_of(&in, given.plan[i])) : 0;
        for (size_t release = 0; release < SPANS * in.span; release += in.task[i].period)
            test_job(i, release, ticks);
    }
}

/* Returns whether a plan was dispatched. */
static bool test_plan(generator *g) {
    uint32_t words[MOST_INSTANCE_WORDS];
    size_t count = draw_site(g, (site_limits){4, 6, 0, 8, MOST_CALLS / SPANS}, words);
    expect(reference_read(words, count, &in).refusal == TOWHEPAMU_ACCEPTED, "reads", "a site");
    text_len = write_text(g, words, count, false, text);
    draw_drawing(g, &in, &given);
    if (one_in(g, 2))
        reference_best(&in, given.plan);
    if (reference_tabulate(&in, given.plan, in.tasks, given.table, given.table_len).refusal != 0)
        return false;
    for (size_t c = 0; c < in.cores; c++) {
        dispatch_spans(g, c, 0);
        test_row(c);
        test_jobs(c);
        dispatch_spans(g, c, draw_between(g, 1, 8));
        test_jobs(c);
    }
    return true;
}

int main(void) {
    generator g = {20240401};
    size_t dispatched = 0;
    for (size_t k = 0; k < KNOWN_SEQUENCES; k++)
        test_known(&known_sequences[k]);
    for (size_t n = 0; n < SITES; n++)
        dispatched += test_plan(&g);
    printf("reference: dispatch: %zu plans, %zu tests, %zu fail\n", dispatched, tests, failures);
    return failures > 0 || dispatched == 0;
}

/* A dispatcher on the node, document 02 (f). */
#include "answers.h"

/* The ticks of a job of each task that a core, from 0, keeps; none of the others. */
static void take_ticks(const reference_instance *in, const uint8_t *plan, size_t core,
                       uint64_t ticks[MOST_TASKS]) {
    for (size_t i = 0; i < MOST_TASKS; i++) {
        bool kept = i < in->tasks && reference_runs_on(in, plan, i, core);
        ticks[i] = kept ? reference_ticks(in, i, reference_level_of(in, plan[i])) : 0;
    }
}

/* Refusals 12, of the state, and 13. */
static towhepamu_checked test_state(const reference_instance *in, const uint64_t ticks[MOST_TASKS],
                                    const towhepamu_state *state, bool ended) {
    if (state->tick >= in->span)
        return refused(TOWHEPAMU_STATE, 0);
    for (size_t i = 0; i < MOST_TASKS; i++)
        if (state->left[i] > ticks[i])
            return refused(TOWHEPAMU_STATE, 0);
    if (state->last > MOST_TASKS || (state->last != 0 && ticks[state->last - 1] == 0))
        return refused(TOWHEPAMU_STATE, 0);
    return ended && state->last == 0 ? refused(TOWHEPAMU_EARLY_END, 0) : accepted;
}

/* The due tick of the job of a task that was released last. */
static uint32_t due_at(const reference_instance *in, size_t task, uint32_t tick) {
    return tick - tick % in->task[task].period + in->task[task].deadline;
}

static void dispatch_tick(const reference_instance *in, const uint64_t ticks[MOST_TASKS],
                          towhepamu_state *state, bool ended) {
    if (ended)
        state->left[state->last - 1] = 0;
    for (size_t i = 0; i < in->tasks; i++)
        if (state->tick % in->task[i].period == 0)
            state->left[i] = (uint32_t)ticks[i];
    size_t runs = in->tasks;
    for (size_t i = in->tasks; i-- > 0;)
        if (state->left[i] > 0 &&
            (runs == in->tasks || due_at(in, i, state->tick) <= due_at(in, runs, state->tick)))
            runs = i;
    state->last = 0;
    if (runs < in->tasks) {
        state->left[runs]--;
        state->last = (uint32_t)runs + 1;
    }
    state->tick = (state->tick + 1) % in->span;
}

/* The tests of a plan and a core of it: refusals 1, 2, 3, 4, 7, 8 and 12 of the core. */
static towhepamu_checked take_core(const uint8_t *text, size_t text_len, const uint8_t *plan,
                                   size_t plan_len, uint32_t core, reference_instance *in,
                                   uint64_t ticks[MOST_TASKS]) {
    towhepamu_checked test = reference_read_text(text, text_len, in);
    if (passes(test))
        test = reference_test_plan(in, plan, plan_len);
    if (passes(test) && (core < 1 || core > in->cores))
        test = refused(TOWHEPAMU_STATE, 0);
    if (passes(test))
        take_ticks(in, plan, core - 1, ticks);
    return test;
}

towhepamu_dispatched reference_dispatch(const uint8_t *text, size_t text_len, const uint8_t *plan,
                                        size_t plan_len, uint32_t core, towhepamu_state *state,
                                        bool ended) {
    reference_instance in;
    uint64_t ticks[MOST_TASKS];
    towhepamu_checked test = take_core(text, text_len, plan, plan_len, core, &in, ticks);
    if (passes(test))
        test = test_state(&in, ticks, state, ended);
    if (!passes(test))
        return (towhepamu_dispatched){test.refusal, test.place, 0};
    dispatch_tick(&in, ticks, state, ended);
    return (towhepamu_dispatched){TOWHEPAMU_ACCEPTED, 0, state->last};
}

towhepamu_checked reference_prepare(const uint8_t *text, size_t text_len, const uint8_t *plan,
                                    size_t plan_len, uint32_t core, towhepamu_node *node) {
    reference_instance in;
    uint64_t ticks[MOST_TASKS];
    towhepamu_checked test = take_core(text, text_len, plan, plan_len, core, &in, ticks);
    if (!passes(test))
        return test;
    *node = (towhepamu_node){{.span = in.span}, {0}};
    for (size_t i = 0; i < in.tasks; i++)
        if (ticks[i] > 0) {
            size_t at = node->core.tasks++;
            node->core.numbers[at] = (uint8_t)(i + 1);
            node->core.periods[at] = in.task[i].period;
            node->core.windows[at] = in.task[i].deadline;
            node->core.ticks[at] = (uint32_t)ticks[i];
        }
    return test;
}

/*
 * A library that errs, for the program's own tests of what it is answered: linked so that these
 * calls stand before the archive's (-Wl,--wrap). WRONG in the environment says in what they err.
 */
#include "towhepamu.h"
#include <stdbool.h>
#include <stdlib.h>
#include <string.h>

towhepamu_site __real_towhepamu_read(const uint8_t *text, size_t text_len);
towhepamu_planned __real_towhepamu_plan(const uint8_t *text, size_t text_len, uint8_t *plan,
                                        size_t plan_len, uint8_t *table, size_t table_len);
towhepamu_listed __real_towhepamu_list(const uint8_t *text, size_t text_len, uint8_t *out,
                                       size_t out_len);
towhepamu_checked __real_towhepamu_sleep(const uint8_t *text, size_t text_len, const uint8_t *plan,
                                         size_t plan_len, const uint8_t *table, size_t table_len,
                                         uint32_t switching_energy, uint32_t switching_time,
                                         uint64_t *energies, size_t energies_len, uint32_t *sleeps,
                                         size_t sleeps_len);
towhepamu_dispatched __real_towhepamu_tick(towhepamu_node *node, bool ended);
towhepamu_ruled __real_towhepamu_calendar(const uint8_t *text, size_t text_len, uint32_t year,
                                          uint32_t month, uint32_t day, uint32_t minute);
towhepamu_site __wrap_towhepamu_read(const uint8_t *text, size_t text_len);
towhepamu_planned __wrap_towhepamu_plan(const uint8_t *text, size_t text_len, uint8_t *plan,
                                        size_t plan_len, uint8_t *table, size_t table_len);
towhepamu_listed __wrap_towhepamu_list(const uint8_t *text, size_t text_len, uint8_t *out,
                                       size_t out_len);
towhepamu_checked __wrap_towhepamu_sleep(const uint8_t *text, size_t text_len, const uint8_t *plan,
                                         size_t plan_len, const uint8_t *table, size_t table_len,
                                         uint32_t switching_energy, uint32_t switching_time,
                                         uint64_t *energies, size_t energies_len, uint32_t *sleeps,
                                         size_t sleeps_len);
towhepamu_dispatched __wrap_towhepamu_tick(towhepamu_node *node, bool ended);
towhepamu_ruled __wrap_towhepamu_calendar(const uint8_t *text, size_t text_len, uint32_t year,
                                          uint32_t month, uint32_t day, uint32_t minute);

static bool is_wrong(const char *what) {
    const char *wrong = getenv("WRONG");
    return wrong != NULL && strcmp(wrong, what) == 0;
}

towhepamu_site __wrap_towhepamu_read(const uint8_t *text, size_t text_len) {
    towhepamu_site site = __real_towhepamu_read(text, text_len);
    site.tasks += is_wrong("tasks");
    return site;
}

towhepamu_planned __wrap_towhepamu_plan(const uint8_t *text, size_t text_len, uint8_t *plan,
                                        size_t plan_len, uint8_t *table, size_t table_len) {
    towhepamu_planned answer =
        __real_towhepamu_plan(text, text_len, plan, plan_len, table, table_len);
    answer.energy += is_wrong("energy");
    answer.penalty += is_wrong("penalty");
    answer.cost += is_wrong("cost");
    static uint64_t before = 0; /* how many calls */
    answer.cost += is_wrong("dearer") * before;
    answer.cost -= is_wrong("cheaper") * before;
    if (is_wrong("unplanned") && before > 0)
        answer = (towhepamu_planned){TOWHEPAMU_NO_PLAN, 0, 0, 0, 0};
    before++;
    if (is_wrong("table"))
        table[0] = 0;
    return answer;
}

towhepamu_listed __wrap_towhepamu_list(const uint8_t *text, size_t text_len, uint8_t *out,
                                       size_t out_len) {
    towhepamu_listed listed = __real_towhepamu_list(text, text_len, out, out_len);
    if (is_wrong("listing"))
        listed = (towhepamu_listed){TOWHEPAMU_BUFFER, out_len + 1, 0};
    return listed;
}

towhepamu_checked __wrap_towhepamu_sleep(const uint8_t *text, size_t text_len, const uint8_t *plan,
                                         size_t plan_len, const uint8_t *table, size_t table_len,
                                         uint32_t switching_energy, uint32_t switching_time,
                                         uint64_t *energies, size_t energies_len, uint32_t *sleeps,
                                         size_t sleeps_len) {
    towhepamu_checked answer =
        __real_towhepamu_sleep(text, text_len, plan, plan_len, table, table_len, switching_energy,
                               switching_time, energies, energies_len, sleeps, sleeps_len);
    energies[0] += is_wrong("idle");
    sleeps[0] += is_wrong("sleeps");
    if (is_wrong("refusal"))
        answer = (towhepamu_checked){TOWHEPAMU_JOB, 1};
    return answer;
}

towhepamu_dispatched __wrap_towhepamu_tick(towhepamu_node *node, bool ended) {
    towhepamu_dispatched answer = __real_towhepamu_tick(node, ended);
    answer.task += is_wrong("task");
    node->state.left[0] += is_wrong("left");
    return answer;
}

towhepamu_ruled __wrap_towhepamu_calendar(const uint8_t *text, size_t text_len, uint32_t year,
                                          uint32_t month, uint32_t day, uint32_t minute) {
    towhepamu_ruled answer = __real_towhepamu_calendar(text, text_len, year, month, day, minute);
    answer.plan += is_wrong("closing") && minute == 1080;
    answer.days += is_wrong("days");
    if (is_wrong("accepted"))
        answer.refusal = TOWHEPAMU_ACCEPTED;
    if (is_wrong("question"))
        answer = (towhepamu_ruled){TOWHEPAMU_QUESTION, 0, 0, 0};
    if (is_wrong("date"))
        answer = (towhepamu_ruled){TOWHEPAMU_DATE, 1, 0, 0};
    return answer;
}

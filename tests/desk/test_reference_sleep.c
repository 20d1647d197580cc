/*
 * The reference's sleeping by itself: known tables; on every short row, that no choice of gaps to
 * sleep in draws less, and that among those that draw as little it sleeps least often; and that
 * without sleep the gaps draw what pricing charges for idle ticks.
 */
#include "expect.h"
#include "generate.h"
#include "known_sleeps.h"
#include <string.h>

enum { LONGEST_ROW = 9, SITES = 3000 };

/* ---- Known tables ---- */

static void digits_of(const char *given, uint8_t *numbers) {
    for (size_t i = 0; given[i] != 0; i++)
        numbers[i] = (uint8_t)(given[i] - '0');
}

static void test_known(const known_sleep *known) {
    enum { LENT = MOST_CORES + 1 };
    uint8_t plan[MOST_TASKS], table[100];
    uint64_t energies[LENT] = {7, 7, 7, 7, 7};
    uint32_t sleeps[LENT] = {7, 7, 7, 7, 7};
    const uint8_t *text = (const uint8_t *)known->text;
    size_t len = strlen(known->text), tasks = strlen(known->choices), slots = strlen(known->table);
    digits_of(known->choices, plan);
    digits_of(known->table, table);
    for (size_t few = 0; few < known->cores; few++) {
        towhepamu_checked first =
            reference_sleep(text, len, plan, tasks, table, slots, known->energy, known->time,
                            energies, few, sleeps, LENT);
        towhepamu_checked second =
            reference_sleep(text, len, plan, tasks, table, slots, known->energy, known->time,
                            energies, LENT, sleeps, few);
        expect(first.refusal == 6 && first.place == known->cores, "the energies", known->name);
        expect(second.refusal == 6 && second.place == known->cores, "the sleeps", known->name);
    }
    for (size_t c = 0; c < LENT; c++)
        expect(energies[c] == 7 && sleeps[c] == 7, "as before", known->name);
    towhepamu_checked answer = reference_sleep(text, len, plan, tasks, table, slots, known->energy,
                                               known->time, energies, LENT, sleeps, LENT);
    expect(answer.refusal == known->answer.refusal && answer.place == known->answer.place,
           "the answer", known->name);
    for (size_t c = 0; c < LENT; c++) {
        bool written = c < known->cores;
        expect(energies[c] == (written ? known->energies[c] : 7), "an energy", known->name);
        expect(sleeps[c] == (written ? known->sleeps[c] : 7), "a number of sleeps", known->name);
    }
}

/* ---- Every choice of gaps ---- */

/* The gaps by the definition: for each tick of the row's second showing that is busy, the idle
   slots right before it. */
static size_t gaps_before_busy_slots(const uint8_t *row, size_t span, size_t sizes[LONGEST_ROW]) {
    size_t count = 0;
    for (size_t t = span; t < 2 * span; t++) {
        size_t idle = 0;
        while (idle < span && row[(t - 1 - idle) % span] == 0)
            idle++;
        if (row[t % span] != 0 && idle > 0)
            sizes[count++] = idle;
    }
    return count;
}

static reference_slept best_choice(const size_t *sizes, size_t count, uint32_t idle_power,
                                   uint32_t energy, uint32_t time) {
    reference_slept best = {UINT64_MAX, 0};
    for (size_t choice = 0; choice < (size_t)1 << count; choice++) {
        reference_slept slept = {0, 0};
        bool allowed = true;
        for (size_t i = 0; i < count; i++) {
            bool asleep = choice >> i & 1;
            allowed = allowed && (!asleep || sizes[i] >= time);
            slept.energy += asleep ? energy : idle_power * sizes[i];
            slept.sleeps += asleep;
        }
        if (allowed && (slept.energy < best.energy ||
                        (slept.energy == best.energy && slept.sleeps < best.sleeps)))
            best = slept;
    }
    return best;
}

static void test_row(const uint8_t *row, size_t span) {
    size_t sizes[LONGEST_ROW], all = 0, busy = 0;
    size_t count = gaps_before_busy_slots(row, span, sizes);
    for (size_t i = 0; i < count; i++)
        all += sizes[i];
    for (size_t t = 0; t < span; t++)
        busy += row[t] != 0;
    expect(all == (busy == 0 ? 0 : span - busy), "gaps hold the idle slots", "a row");
    for (uint32_t idle_power = 0; idle_power <= 3; idle_power++)
        for (uint32_t energy = 0; energy <= 3 * LONGEST_ROW; energy++)
            for (uint32_t time = 0; time <= span + 1; time++) {
                reference_slept slept = reference_sleep_row(row, span, idle_power, energy, time);
                reference_slept best = best_choice(sizes, count, idle_power, energy, time);
                expect(slept.energy == best.energy && slept.sleeps == best.sleeps,
                       "no choice does better", "a row");
            }
}

static void test_rows(void) {
    for (size_t span = 1; span <= LONGEST_ROW; span++)
        for (size_t bits = 0; bits < (size_t)1 << span; bits++) {
            uint8_t row[LONGEST_ROW];
            for (size_t t = 0; t < span; t++)
                row[t] = bits >> t & 1;
            test_row(row, span);
        }
}

/* ---- Without sleep ---- */

/* Idle energy of a planned site's cores with no gap slept through, beside what its price has for
   idle ticks: the price less that of the same plan with idle power 0. */
static void test_without_sleep(generator *g) {
    uint32_t words[MOST_INSTANCE_WORDS];
    reference_instance in;
    uint8_t plan[MOST_TASKS], table[TOWHEPAMU_MOST_TABLE_BYTES];
    size_t count = draw_site(g, (site_limits){4, 6, 0, 8, 400}, words);
    expect(reference_read(words, count, &in).refusal == TOWHEPAMU_ACCEPTED, "reads", "a site");
    if (!reference_best(&in, plan))
        return;
    reference_tabulate(&in, plan, in.tasks, table, sizeof table);
    uint64_t idle = 0, all = reference_price(&in, plan, in.tasks).energy;
    for (size_t c = 0; c < in.cores; c++)
        idle += reference_sleep_row(table + c * in.span, in.span, in.idle_power, 0, 4096).energy;
    in.idle_power = 0;
    expect(all - reference_price(&in, plan, in.tasks).energy == idle, "idle energy", "a site");
}

int main(void) {
    generator g = {20240301};
    for (size_t k = 0; k < KNOWN_SLEEPS; k++)
        test_known(&known_sleeps[k]);
    test_rows();
    for (size_t n = 0; n < SITES; n++)
        test_without_sleep(&g);
    printf("reference: sleep: %zu tests, %zu fail\n", tests, failures);
    return failures > 0;
}

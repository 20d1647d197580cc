/*
 * The reference by itself: K1 to K13, examples of idle power and of deadlines, listings, the ends
 * of every range, and given plans.
 */
#include "expect.h"
#include "known.h"
#include <string.h>

static bool same_answer(towhepamu_planned a, towhepamu_planned b) {
    return a.refusal == b.refusal && a.place == b.place && a.energy == b.energy &&
           a.penalty == b.penalty && a.cost == b.cost;
}

/* ---- K1 to K13, and other examples ---- */

typedef towhepamu_planned planner(const uint8_t *, size_t, uint8_t *, size_t, uint8_t *, size_t);

static void test_known(const known_case *known, planner *plan_by) {
    uint8_t plan[MOST_TASKS], table[TOWHEPAMU_MOST_TABLE_BYTES];
    const uint8_t *text = (const uint8_t *)known->text;
    size_t len = strlen(known->text);

    towhepamu_planned answer = plan_by(text, len, plan, known->tasks, table, known->slots);
    expect(same_answer(answer, known->answer), "the answer", known->name);
    if (known->tasks > 0) {
        answer = plan_by(text, len, plan, known->tasks - 1, table, 0);
        expect(answer.refusal == 6 && answer.place == known->tasks, "the tasks", known->name);
    }
    if (known->slots > 0) {
        answer = plan_by(text, len, plan, MOST_TASKS, table, known->slots - 1);
        expect(answer.refusal == 6 && answer.place == known->slots, "the slots", known->name);
    }
    if (known->answer.refusal != TOWHEPAMU_ACCEPTED)
        return;
    for (size_t i = 0; i < known->tasks; i++)
        expect(plan[i] == known->choices[i] - '0', "a choice", known->name);
    for (size_t s = 0; s < known->slots; s++)
        expect(table[s] == known_slot(known, s), "a slot", known->name);
    expect(is(reference_check(text, len, plan, known->tasks, table, known->slots), 0, 0),
           "the check", known->name);
}

/* ---- Listings ---- */

static void test_listing(const known_case *known, towhepamu_listed answer, const char *listing) {
    static uint8_t out[TOWHEPAMU_MOST_LISTING_BYTES];
    const uint8_t *text = (const uint8_t *)known->text;
    size_t len = strlen(known->text);
    towhepamu_site site = reference_site(text, len);
    expect(site.refusal == 0 && site.tasks == known->tasks && site.levels == 5 && site.cores == 1 &&
               site.cores * site.span == known->slots,
           "the site", known->name);
    towhepamu_listed listed = reference_list(text, len, out, sizeof out);
    expect(memcmp(&listed, &answer, sizeof listed) == 0, "the listing's answer", known->name);
    expect(memcmp(out, listing, listed.length) == 0, "the listing", known->name);
    listed = reference_list(text, len, out, sizeof out - 1);
    expect(listed.refusal == 6 && listed.place == sizeof out && listed.length == 0,
           "a buffer's refusal", known->name);
}

/* K1 has a refused task, K2 is the listing that document 01 prints, K8 has no plan. */
static void test_listings(void) {
    static const char k1[] = "span 20\ncost 2040 3000 5040\n"
                             "task 1 core 1 level 2 ticks 6\ntask 2 refused\n"
                             "core 1 1 1 1 1 1 1 0 0 0 0 1 1 1 1 1 1 0 0 0 0\n";
    static const char k2[] = "span 20\ncost 7200 0 7200\n"
                             "task 1 core 1 level 3 ticks 4\ntask 2 core 1 level 3 ticks 10\n"
                             "core 1 1 1 1 1 2 2 2 2 2 2 1 1 1 1 2 2 2 2 0 0\n";
    test_listing(&known_cases[0], (towhepamu_listed){0, 0, sizeof k1 - 1}, k1);
    test_listing(&known_cases[1], (towhepamu_listed){0, 0, sizeof k2 - 1}, k2);
    test_listing(&known_cases[7], (towhepamu_listed){5, 0, 0}, "");
}

/* ---- Reading ---- */

/* Each word at both ends of its range and one beyond; and the list cut off before it, where it may
   end only after the tasks. With fewer than five settings all words after them stand further to the
   front. */
static void test_ranges(uint32_t settings) {
    static const struct {
        uint32_t word, least, most;
    } site[] = {{5, 3, 5},       {1, 1, 1000}, {1, 1, 1000}, {1, 1, 4},         {9, 0, 65535},
                {6, 0, 1000},    {2, 1, 8},    {10, 1, 19},  {10, 1, 19},       {20, 11, 65535},
                {20, 11, 65535}, {1, 0, 12},   {8, 1, 4096}, {5, 1, 100000000}, {7, 1, 1000000},
                {1, 0, 1},       {3, 1, 8}};
    enum { MOST = sizeof site / sizeof site[0], DEADLINES_COUNT = MOST - 2 };
    uint32_t words[MOST];
    reference_instance in;
    size_t left_out = 5 - settings, count = MOST - left_out;
    for (size_t i = 0; i < count; i++)
        words[i] = site[i <= settings ? i : i + left_out].word;
    words[0] = settings;
    for (size_t i = 0; i < count; i++) {
        size_t field = i <= settings ? i : i + left_out;
        uint32_t right = words[i];
        /* A speed or power of level 1 may pass that of level 2, which then does not rise. */
        size_t too_much_at = field == 7 || field == 8 ? i + 2 : i;
        words[i] = site[field].least - 1; /* below 0: 4,294,967,295 */
        expect(is(reference_read(words, count, &in), 3, i), "below its range", "a word");
        words[i] = site[field].least;
        expect(!is(reference_read(words, count, &in), 3, i), "the least", "a word");
        words[i] = site[field].most;
        expect(!is(reference_read(words, count, &in), 3, i), "the most", "a word");
        words[i] = site[field].most + 1;
        expect(is(reference_read(words, count, &in), 3, too_much_at), "above its range", "a word");
        words[i] = right;
        bool may_end = field == DEADLINES_COUNT;
        expect(is(reference_read(words, i, &in), may_end ? 0 : 2, may_end ? 0 : i), "missing",
               "a word");
    }
    expect(is(reference_read(words, count, &in), 0, 0), "reads", "the site");
    expect(in.idle_power == (settings >= 4 ? 9 : 0), "the idle power", "the site");
    expect(in.start_ticks == (settings >= 5 ? 6 : 0), "the start ticks", "the site");
    expect(in.task[0].deadline == 3, "the deadline", "the site");
    reference_read(words, count - 2, &in);
    expect(in.task[0].deadline == 8, "the period as deadline", "the site");
}

static void test_lists(void) {
    reference_instance in;
    static const uint32_t full[] = {3, 1, 1, 1, 2, 65535, 1, 65535, 2, 0};
    expect(is(reference_read(full, 10, &in), 3, 7), "no speed rises above 65,535", "a level");
    static const uint32_t must[] = {3, 1, 1, 1, 1, 1, 1, 1, 1, 1, MUST, 0, 9};
    expect(is(reference_read(must, 11, &in), 0, 0), "it may not be refused", "a task");
    expect(is(reference_read(must, 12, &in), 0, 0), "it has no deadline", "a task");
    expect(is(reference_read(must, 13, &in), 2, 12), "a word is left over", "a list");
    static const uint32_t wide[] = {3, 1, 1, 1, 1, 1, 1, 2, 4095, 0, 1, 2, 1, 1};
    expect(is(reference_read(wide, 14, &in), 3, 9), "words are tested from the front", "a list");
}

static void test_text(void) {
    static const struct {
        const char *text;
        uint64_t refusal, place;
    } texts[] = {{"", 2, 0},
                 {" \n", 2, 0},
                 {"3x", 1, 1},
                 {"3 1\t1", 1, 3},
                 {"4294967296", 1, 0},
                 {"4294967295", 3, 0},
                 {" 04294967296x", 1, 1},
                 {"x4294967296", 1, 0},
                 {"0003 1 1 1", 2, 4},
                 {"3 1 1 1\n1 1 1\n0", 6, 1},
                 {"3 1 1 1 1 1 1 0 7", 3, 8},
                 {"3 1 1 1 1 1 1 0 0 7", 2, 9}};
    uint8_t plan[1], table[1], big[5000];
    for (size_t i = 0; i < sizeof texts / sizeof texts[0]; i++) {
        towhepamu_planned answer = reference_plan((const uint8_t *)texts[i].text,
                                                  strlen(texts[i].text), plan, 0, table, 0);
        expect(answer.refusal == texts[i].refusal && answer.place == texts[i].place, "the refusal",
               texts[i].text);
    }
    uint32_t words[MOST_WORDS];
    size_t count;
    memset(big, ' ', sizeof big);
    expect(is(reference_words(big, 4096, words, 0, &count), 0, 0) && count == 0, "read", "4,096");
    expect(is(reference_words(big, 4097, words, 0, &count), 1, 4096), "refused", "4,097");
    memset(big + 4090, '9', 100);
    expect(is(reference_words(big, 4096, words, 0, &count), 6, 1), "six digits", "4,096");
    expect(is(reference_words(big, 4190, words, 1, &count), 1, 4096), "six digits", "4,190");
    memset(big + 4080, '9', 100);
    expect(is(reference_words(big, 4190, words, 1, &count), 1, 4080), "sixteen digits", "4,190");
}

/* ---- Given plans ---- */

/* Pricing and tabling given plans of K3, whose cores have 20 ticks each; and what idle power 50
   makes of their energy: 8 and 5 idle ticks on two cores, none on a core that is off. */
static void test_given_plans(void) {
    static const struct {
        uint8_t plan[3];
        size_t plan_len;
        uint64_t refusal, place, energy, idle;
    } plans[] = {
        {{2, 7}, 2, 0, 0, 4590, 650}, {{7, 2}, 2, 0, 0, 4590, 650}, {{0, 0}, 2, 0, 0, 0, 0},
        {{2, 0}, 2, 0, 0, 2040, 400}, {{8, 8}, 2, 0, 0, 7200, 100}, {{0, 10}, 2, 0, 0, 9600, 700},
        {{1, 6}, 2, 8, 1, 0, 0},      {{2, 6}, 2, 8, 2, 0, 0},      {{11, 6}, 2, 7, 0, 0, 0},
        {{6, 255}, 2, 7, 1, 0, 0},    {{1, 6}, 1, 7, 1, 0, 0},      {{1, 6, 0}, 3, 7, 2, 0, 0}};
    uint8_t table[40];
    reference_instance in;
    const char *text = known_cases[2].text;
    reference_read_text((const uint8_t *)text, strlen(text), &in);
    for (size_t i = 0; i < sizeof plans / sizeof plans[0]; i++) {
        const uint8_t *plan = plans[i].plan;
        size_t len = plans[i].plan_len;
        in.idle_power = 0;
        towhepamu_planned price = reference_price(&in, plan, len);
        expect(price.refusal == plans[i].refusal && price.place == plans[i].place &&
                   price.energy == plans[i].energy,
               "the price", "a given plan");
        in.idle_power = 50;
        price = reference_price(&in, plan, len);
        expect(price.refusal == plans[i].refusal && price.place == plans[i].place &&
                   price.energy == plans[i].energy + plans[i].idle,
               "the price with idle power", "a given plan");
        expect(is(reference_tabulate(&in, plan, len, table, 40), plans[i].refusal, plans[i].place),
               "the table", "a given plan");
        expect(is(reference_tabulate(&in, plan, len, table, 39), 6, 40), "a short table",
               "a given plan");
    }
}

/* Two tasks of 4 ticks each on one core, due at 4 and at 7: the plan is refused, but not by the
   check, which looks for slots that are missing or too late. */
static void test_given_deadlines(void) {
    static const struct {
        uint8_t table[10];
        uint64_t refusal, place;
    } tables[] = {{{1, 1, 1, 1, 2, 2, 2, 2, 0, 0}, 10, 2}, {{1, 1, 1, 1, 2, 2, 2, 0, 0, 0}, 10, 2},
                  {{1, 1, 1, 2, 2, 2, 2, 1, 0, 0}, 10, 1}, {{1, 1, 1, 1, 2, 2, 2, 0, 2, 0}, 10, 2},
                  {{1, 1, 1, 1, 1, 2, 2, 2, 0, 0}, 10, 1}, {{1, 1, 1, 1, 2, 2, 3, 0, 0, 0}, 9, 6}};
    static const uint8_t plan[] = {1, 1};
    uint8_t table[10];
    reference_instance in;
    const char *text = TWO_FOURS "2 4 7";
    reference_read_text((const uint8_t *)text, strlen(text), &in);
    expect(reference_overdue(&in, plan, 0) == 7, "tick 7", "what is due");
    towhepamu_planned price = reference_price(&in, plan, 2);
    expect(price.refusal == 8 && price.place == 1, "the price", "a plan that is late");
    expect(is(reference_tabulate(&in, plan, 2, table, 10), 8, 1), "the table",
           "a plan that is late");
    for (size_t i = 0; i < sizeof tables / sizeof tables[0]; i++)
        expect(is(reference_check_table(&in, plan, 2, tables[i].table, 10), tables[i].refusal,
                  tables[i].place),
               "the check", "a plan that is late");
}

/* Half-drawn tables of K2: the slots name the right tasks, whatever the jobs have. */
static void test_half_drawn(void) {
    static const uint8_t plan[] = {3, 3}, none[20] = {0}, some[20] = {1, 2, 2, 0, 1},
                         wrong[20] = {1, 2, 3};
    const uint8_t *text = (const uint8_t *)K2;
    size_t len = strlen(K2);
    expect(is(reference_check_slots(text, len, plan, 2, none, 20), 0, 0), "passes",
           "an idle table");
    expect(is(reference_check(text, len, plan, 2, none, 20), 10, 1), "refused", "an idle table");
    expect(is(reference_check_slots(text, len, plan, 2, some, 20), 0, 0), "passes", "a few slots");
    expect(is(reference_check_slots(text, len, plan, 2, wrong, 20), 9, 2), "refused",
           "a wrong slot");
    expect(is(reference_check_slots(text, len, plan, 2, wrong, 19), 9, 19), "refused",
           "a short table");
    expect(is(reference_check_slots(text, len, plan, 1, wrong, 19), 7, 1), "refused",
           "a short plan");
    expect(is(reference_check_slots(text, 3, plan, 2, none, 20), 2, 2), "refused", "a short text");
}

int main(void) {
    for (size_t k = 0; k < KNOWN_CASES; k++) {
        test_known(&known_cases[k], reference_plan);
        test_known(&known_cases[k], reference_plan_exhaustive);
    }
    test_listings();
    test_ranges(3);
    test_ranges(4);
    test_ranges(5);
    test_lists();
    test_text();
    test_given_plans();
    test_given_deadlines();
    test_half_drawn();
    printf("reference: %zu tests, %zu fail\n", tests, failures);
    return failures > 0;
}

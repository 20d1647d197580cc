/*
 * Which bytes of the lent buffers a call stores into. A byte that is stored as it was shows in no
 * comparison, so here the bytes that a call must leave alone lie on pages that cannot be written:
 * all of them where it refuses, reads or checks; where it plans, those behind the plan's choices
 * and behind the table's slots; where it lists, those behind the listing; where it reckons sleeps,
 * those behind each list's entry of the last core. A store there ends the test.
 */
#define _DEFAULT_SOURCE
#include "generate.h"
#include "known.h"
#include <inttypes.h>
#include <signal.h>
#include <stdio.h>
#include <stdlib.h>
#include <string.h>
#include <sys/mman.h>
#include <unistd.h>

enum { SITES = 3000, SLACK = 40, HALF = 1 << 17, PLANNING_REFUSALS = 6 };

/* Of each buffer, where the bytes that can be written end and those that can only be read begin. */
static uint8_t *text_edge, *plan_edge, *table_edge, *out_edge, *energies_edge, *sleeps_edge;

static size_t text_len, tasks, slots,
    cores; /* of the site at hand; any where its text is refused */
static size_t differ, planned[PLANNING_REFUSALS + 1], listed[PLANNING_REFUSALS + 1], checked,
    was_read, slept;
static char call[200];

static void fail(int unused) {
    (void)unused;
    static const char what[] = " stores into a byte that it must leave alone\n";
    bool told = write(1, call, strlen(call)) > 0 && write(1, what, sizeof what - 1) > 0;
    _exit(told ? 1 : 2);
}

static uint8_t *make_edge(void) {
    uint8_t *room =
        mmap(NULL, 2 * HALF, PROT_READ | PROT_WRITE, MAP_PRIVATE | MAP_ANONYMOUS, -1, 0);
    if (room == MAP_FAILED || mprotect(room + HALF, HALF, PROT_READ) != 0) {
        perror("stores");
        exit(2);
    }
    return room + HALF;
}

static void name_call(const char *name, size_t plan_len, size_t table_len) {
    snprintf(call, sizeof call, "stores: %s, plan of %zu bytes, table of %zu, text \"%.99s\"", name,
             plan_len, table_len, (const char *)text_edge - text_len);
}

static void expect(bool as_expected) {
    if (!as_expected && ++differ < 10)
        printf("%s answers otherwise\n", call);
}

/* ---- One call ---- */

static void plan_site(size_t plan_len, size_t table_len) {
    static uint8_t choices[HALF], row[HALF];
    const uint8_t *text = text_edge - text_len;
    towhepamu_planned expected = reference_plan(text, text_len, choices, plan_len, row, table_len);
    bool accepted = expected.refusal == TOWHEPAMU_ACCEPTED;
    size_t plan_bytes = accepted ? tasks : 0, table_bytes = accepted ? slots : 0;
    uint8_t *plan = plan_edge - plan_bytes, *table = table_edge - table_bytes;
    name_call("planning", plan_len, table_len);
    towhepamu_planned answer = towhepamu_plan(text, text_len, plan, plan_len, table, table_len);
    planned[expected.refusal]++;
    expect(memcmp(&answer, &expected, sizeof answer) == 0 &&
           memcmp(plan, choices, plan_bytes) == 0 && memcmp(table, row, table_bytes) == 0);
}

/* The plan that refuses every task, by both checks. */
static void check_site(void) {
    const uint8_t *text = text_edge - text_len;
    towhepamu_checked expected =
        reference_check(text, text_len, plan_edge, tasks, table_edge, slots);
    name_call("checking", tasks, slots);
    towhepamu_checked answer = towhepamu_check(text, text_len, plan_edge, tasks, table_edge, slots);
    expect(memcmp(&answer, &expected, sizeof answer) == 0);
    expected = reference_check_slots(text, text_len, plan_edge, tasks, table_edge, slots);
    name_call("checking slots", tasks, slots);
    answer = towhepamu_check_slots(text, text_len, plan_edge, tasks, table_edge, slots);
    expect(memcmp(&answer, &expected, sizeof answer) == 0);
    checked++;
}

static void read_site(void) {
    const uint8_t *text = text_edge - text_len;
    towhepamu_site expected = reference_site(text, text_len);
    name_call("reading", 0, 0);
    towhepamu_site answer = towhepamu_read(text, text_len);
    was_read++;
    expect(memcmp(&answer, &expected, sizeof answer) == 0);
}

static void list_site(size_t out_len) {
    static uint8_t bytes[HALF];
    const uint8_t *text = text_edge - text_len;
    towhepamu_listed expected = reference_list(text, text_len, bytes, out_len);
    uint8_t *out = out_edge - expected.length;
    snprintf(call, sizeof call, "stores: listing, buffer of %zu bytes, text \"%.99s\"", out_len,
             (const char *)text);
    towhepamu_listed answer = towhepamu_list(text, text_len, out, out_len);
    listed[expected.refusal]++;
    expect(memcmp(&answer, &expected, sizeof answer) == 0 &&
           memcmp(out, bytes, expected.length) == 0);
}

/* The site's own plan and table, or where it has none the plan that refuses every task. */
static void sleep_site(size_t energies_len, size_t sleeps_len) {
    static uint8_t plan[MOST_TASKS], table[TOWHEPAMU_MOST_TABLE_BYTES];
    const uint8_t *text = text_edge - text_len;
    uint64_t least[MOST_CORES], *energies = (void *)energies_edge;
    uint32_t times[MOST_CORES], *sleeps = (void *)sleeps_edge;
    memset(plan, 0, sizeof plan);
    memset(table, 0, sizeof table);
    reference_plan(text, text_len, plan, sizeof plan, table, sizeof table);
    towhepamu_checked expected = reference_sleep(text, text_len, plan, tasks, table, slots, 9, 2,
                                                 least, energies_len, times, sleeps_len);
    size_t written = expected.refusal == TOWHEPAMU_ACCEPTED ? cores : 0;
    energies -= written;
    sleeps -= written;
    name_call("sleeping", tasks, slots);
    towhepamu_checked answer = towhepamu_sleep(text, text_len, plan, tasks, table, slots, 9, 2,
                                               energies, energies_len, sleeps, sleeps_len);
    slept += written > 0;
    expect(memcmp(&answer, &expected, sizeof answer) == 0 &&
           memcmp(energies, least, written * sizeof least[0]) == 0 &&
           memcmp(sleeps, times, written * sizeof times[0]) == 0);
}

/* ---- One text ---- */

static void read_text(void) {
    reference_instance in;
    bool reads =
        reference_read_text(text_edge - text_len, text_len, &in).refusal == TOWHEPAMU_ACCEPTED;
    tasks = reads ? in.tasks : 3;
    cores = reads ? in.cores : 1;
    slots = reads ? in.cores * in.span : 60;
}

static void try_text(const uint8_t *bytes, size_t len) {
    text_len = len;
    memcpy(text_edge - len, bytes, len);
    read_text();
    plan_site(tasks, slots);
    plan_site(tasks + SLACK, slots + SLACK);
    plan_site(tasks > 0 ? tasks - 1 : 0, slots);
    plan_site(tasks, slots - 1);
    check_site();
    read_site();
    list_site(TOWHEPAMU_MOST_LISTING_BYTES);
    list_site(TOWHEPAMU_MOST_LISTING_BYTES - 1);
    sleep_site(cores, cores);
    sleep_site(cores + SLACK, cores + SLACK);
    sleep_site(cores - 1, cores);
    sleep_site(cores, cores - 1);
}

/* ---- All texts ---- */

static void try_site(generator *g) {
    static uint32_t words[MOST_DRAWN_WORDS];
    static uint8_t bytes[MOST_DRAWN_TEXT];
    size_t count = draw_site(g, (site_limits){4, 8, 0, 5, 180}, words);
    uint64_t harm = draw(g, 3); /* none, to the words, to the text */
    if (harm == 1)
        damage_words(g, words, &count);
    size_t len = write_text(g, words, count, false, bytes);
    if (harm == 2)
        damage_text(g, bytes, &len);
    try_text(bytes, len);
}

static bool print_seen(const char *what, const size_t *seen) {
    bool all = true;
    printf("; %s", what);
    for (size_t r = 0; r <= PLANNING_REFUSALS; r++) {
        printf("%s %zu: %zu", r == 0 ? ", refusal" : ",", r, seen[r]);
        all = all && seen[r] > 0;
    }
    return all;
}

int main(void) {
    generator g = {20030526};
    text_edge = make_edge();
    plan_edge = make_edge();
    table_edge = make_edge();
    out_edge = make_edge();
    energies_edge = make_edge();
    sleeps_edge = make_edge();
    signal(SIGSEGV, fail);
    for (size_t k = 0; k < KNOWN_CASES; k++)
        try_text((const uint8_t *)known_cases[k].text, strlen(known_cases[k].text));
    for (size_t n = 0; n < SITES; n++)
        try_site(&g);

    printf("stores: %zu checked, %zu read, sleeps of %zu", checked, was_read, slept);
    bool all_planned = print_seen("planned", planned), all_listed = print_seen("listed", listed);
    printf("; %zu differ\n", differ);
    return differ > 0 || slept == 0 || !all_planned || !all_listed;
}

/*
 * Looks for sites with deadlines that take long to plan, by climbing on the time.
 *
 *   climb SECONDS IDLE SEED FILE [COMMAND [ARGUMENTS]]
 *
 * Of a few random sites of the families with deadlines, with an idle power of none, low or high,
 * the one that takes longest is changed again and again, mostly in one thing; a change is kept
 * where planning then takes longer, the least of two runs, or nearly as long. Where nothing was
 * gained for a while it starts anew, from other sites. FILE has the worst site so far. What is
 * timed is the archive's call or, where a command is given, its whole process with the site on its
 * standard input, by the processor's time. SEED says where it starts; what is then kept depends on
 * the times. It ends after SECONDS by the clock, or where a site takes a minute: planning is
 * stopped then.
 */
#define _POSIX_C_SOURCE 200809L
#include "draw.h"
#include "instances.h"
#include "limited.h"
#include <math.h>
#include <stdio.h>
#include <stdlib.h>
#include <string.h>
#include <time.h>

enum { LIMIT_SECONDS = 60, STARTS = 8, MOST_FAILURES = 150 };
static const double NEARLY = 0.98;

static generator g;

static size_t pick(size_t count) {
    return (size_t)draw(&g, count);
}

static uint32_t clamp(uint64_t number, uint32_t most) {
    return number < 1 ? 1 : number > most ? most : (uint32_t)number;
}

/* ---- Changes of one thing, which may make it no site ---- */

/* A number near another one: one more or less, a few in a hundred, or half to twice. */
static uint32_t near(uint64_t number, uint32_t most) {
    switch (draw(&g, 3)) {
    case 0:
        return clamp(number + 2 * draw(&g, 2) - 1, most);
    case 1:
        return clamp(number * draw_between(&g, 95, 105) / 100, most);
    default:
        return clamp(number * draw_between(&g, 50, 200) / 100, most);
    }
}

/* About a tick more or less at the highest speed, or any share. */
static void change_cycles(reference_instance *in) {
    reference_task *task = &in->task[pick(in->tasks)];
    uint32_t speed = in->level[in->levels - 1].speed;
    if (one_in(&g, 2))
        task->cycles = clamp((uint64_t)near(1 + task->cycles / speed, 4096) * speed, 100000000);
    else
        task->cycles = near(task->cycles, 100000000);
}

/* That of another task, with cycles and deadline in proportion. */
static void change_period(reference_instance *in) {
    reference_task *task = &in->task[pick(in->tasks)];
    uint64_t period = in->task[pick(in->tasks)].period;
    task->cycles = clamp(task->cycles * period / task->period, 100000000);
    task->deadline = clamp(task->deadline * period / task->period, (uint32_t)period);
    task->period = (uint32_t)period;
}

/* A near one, any, or that of another task. */
static void change_deadline(reference_instance *in) {
    reference_task *task = &in->task[pick(in->tasks)];
    switch (draw(&g, 4)) {
    case 0:
        task->deadline = (uint32_t)draw_between(&g, 1, task->period);
        break;
    case 1:
        task->deadline = clamp(in->task[pick(in->tasks)].deadline, task->period);
        break;
    default:
        task->deadline = near(task->deadline, task->period);
    }
}

/* None, so that the task must be kept; a near one; or for such a task half to three times a job's
   energy at the highest level, as in the families. */
static void change_penalty(reference_instance *in) {
    size_t i = pick(in->tasks);
    reference_task *task = &in->task[i];
    uint64_t energy = reference_ticks(in, i, in->levels - 1) * in->level[in->levels - 1].power;
    if (task->penalty == MUST)
        task->penalty = clamp(energy * draw_between(&g, 50, 300) / 100, 1000000);
    else if (one_in(&g, 4))
        task->penalty = MUST;
    else
        task->penalty = near(task->penalty, 1000000);
}

static void change_level(reference_instance *in) {
    reference_level *level = &in->level[pick(in->levels)];
    if (one_in(&g, 2))
        level->speed = near(level->speed, 65535);
    else
        level->power = near(level->power, 65535);
}

static void change_cores(reference_instance *in) {
    in->cores = (uint32_t)draw_between(&g, 1, MOST_CORES);
}

static void change_idle_power(reference_instance *in) {
    in->idle_power = near(in->idle_power, 65535);
}

/* Tasks have most to change. The last is for sites with idle power. */
static void (*const changes[])(reference_instance *) = {
    change_cycles,   change_cycles,  change_period, change_deadline, change_deadline,
    change_deadline, change_penalty, change_level,  change_cores,    change_idle_power};
enum { CHANGES = sizeof changes / sizeof changes[0] };

/* ---- Sites and their times ---- */

typedef struct {
    reference_instance in;
    uint8_t text[TOWHEPAMU_MOST_TEXT_BYTES];
    size_t len;
    double seconds;
} timed_site;

/* Where the instance is one, its text, and its span as it is read. */
static bool is_site(timed_site *site) {
    reference_instance read;
    site->len = write_site(&site->in, site->text);
    if (reference_read_text(site->text, site->len, &read).refusal != TOWHEPAMU_ACCEPTED)
        return false;
    site->in = read;
    return true;
}

static char **command; /* ends with a null pointer, which is all of it where none is given */
static size_t runs;

static double run(const timed_site *site) {
    runs++;
    return *command == NULL
               ? plan_limited(towhepamu_plan, site->text, site->len, 1, LIMIT_SECONDS).seconds
               : run_limited(command, site->text, site->len, LIMIT_SECONDS);
}

/* The least of two runs; the second is made where the first is longer than that. */
static void measure(timed_site *site, double longest) {
    site->seconds = run(site);
    if (site->seconds > longest && isfinite(site->seconds)) {
        double again = run(site);
        site->seconds = again < site->seconds ? again : site->seconds;
    }
}

/* ---- Climbing ---- */

static double now(void) {
    struct timespec t;
    clock_gettime(CLOCK_MONOTONIC, &t);
    return (double)t.tv_sec + (double)t.tv_nsec / 1e9;
}

static enum idle idle;
static double began, most_seconds;
static const char *path;
static timed_site worst;

static bool is_over(void) {
    return now() - began >= most_seconds || isinf(worst.seconds);
}

/* As the worst so far, where it is. */
static void note(const timed_site *site) {
    if (site->seconds <= worst.seconds)
        return;
    worst = *site;
    FILE *file = fopen(path, "w");
    if (file == NULL || fwrite(worst.text, 1, worst.len, file) != worst.len || fclose(file) != 0) {
        perror(path);
        exit(2);
    }
    fprintf(stderr, "after %.0f s: %.4f s\n", now() - began, worst.seconds);
}

/* Of some random sites the one that takes longest. */
static void draw_start(timed_site *at) {
    at->seconds = 0;
    for (size_t n = 0; n < STARTS; n++) {
        timed_site drawn;
        size_t family = FIRST_TIMED_FAMILY + pick(TIMED_FAMILIES);
        drawn.len = write_instance(family, 1000 + pick(1000000), idle, drawn.text);
        reference_read_text(drawn.text, drawn.len, &drawn.in);
        measure(&drawn, at->seconds);
        if (drawn.seconds > at->seconds)
            *at = drawn;
    }
}

/* One change, and now and then more at once. */
static void draw_changed(const timed_site *from, timed_site *changed) {
    do {
        *changed = *from;
        do
            changes[pick(idle == NO_IDLE ? CHANGES - 1 : CHANGES)](&changed->in);
        while (one_in(&g, 4));
    } while (!is_site(changed));
}

/* From one start, until nothing was gained in so many tries, or in a tenth of all the time. What
   takes nearly as long as the longest is kept too: it may be where a gain begins. */
static void climb(void) {
    timed_site at, changed;
    draw_start(&at);
    note(&at);
    double longest = at.seconds, gained = now();
    size_t failures = 0;
    while (!is_over() && failures < MOST_FAILURES && now() - gained < most_seconds / 10) {
        draw_changed(&at, &changed);
        measure(&changed, longest);
        if (changed.seconds > NEARLY * longest)
            at = changed;
        failures++;
        if (at.seconds > longest) {
            note(&at);
            longest = at.seconds;
            gained = now();
            failures = 0;
        }
    }
}

int main(int argc, char **argv) {
    while (argc > 2 && idle < IDLES && strcmp(argv[2], idle_name(idle)) != 0)
        idle++;
    if (argc < 5 || idle == IDLES) {
        fprintf(stderr, "climb SECONDS none|low|high SEED FILE [COMMAND [ARGUMENTS]]\n");
        return 2;
    }
    most_seconds = strtod(argv[1], NULL);
    g.state = UINT64_C(0x9E3779B97F4A7C15) * (1 + strtoul(argv[3], NULL, 10));
    path = argv[4];
    command = argv + 5;
    began = now();
    size_t starts = 0;
    for (; !is_over(); starts++)
        climb();
    printf("idle power %s, seed %s, %.0f s: %zu runs from %zu starts, the worst site takes ",
           idle_name(idle), argv[3], now() - began, runs, starts);
    if (isinf(worst.seconds))
        printf("over %d s\n", LIMIT_SECONDS);
    else
        printf("%.3f s\n", worst.seconds);
    return 0;
}

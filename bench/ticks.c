/*
 * Nanoseconds a tick of the dispatcher: over the core prepared once, and through text and plan as a
 * caller does who holds nothing, the archive's and the plain C's. ticks [REPETITIONS]
 */
#define _POSIX_C_SOURCE 200809L
#include "reference.h"
#include <stdio.h>
#include <stdlib.h>
#include <string.h>
#include <time.h>

enum { MOST_REPETITIONS = 99, PREPARED = 2000000, THROUGH_TEXT = 40000 };

typedef struct {
    const char *name, *text;
    size_t tasks;
} site;

/* One core and one level, at which every task is kept: cycles are ticks. */
static const site sites[] = {
    {"2 tasks", "3 1 1 1 1 1 1  2  10 4 9  20 10 9", 2},
    {"12 tasks",
     "3 1 1 1 1 1 1  12  16 2 9  32 3 9  64 5 9  64 3 9  128 8 9  128 4 9  256 16 9  256 8 9"
     "  512 32 9  1024 64 9  2048 100 9  4096 200 9",
     12},
};

static uint64_t ran; /* so that no call is left out */

static double seconds(void) {
    struct timespec now;
    clock_gettime(CLOCK_PROCESS_CPUTIME_ID, &now);
    return (double)now.tv_sec + (double)now.tv_nsec / 1e9;
}

static const uint8_t plan[MOST_TASKS] = {1, 1, 1, 1, 1, 1, 1, 1, 1, 1, 1, 1};

/* One tick in sixteen reports an early end where a task ran before. */
static bool reports(size_t tick, const towhepamu_state *state) {
    return tick % 16 == 0 && state->last != 0;
}

static double time_prepared(const site *of) {
    towhepamu_node node;
    if (towhepamu_prepare((const uint8_t *)of->text, strlen(of->text), plan, of->tasks, 1, &node)
            .refusal != TOWHEPAMU_ACCEPTED)
        abort();
    double start = seconds();
    for (size_t n = 0; n < PREPARED; n++)
        ran += towhepamu_tick(&node, reports(n, &node.state)).task;
    return (seconds() - start) * 1e9 / PREPARED;
}

typedef towhepamu_dispatched dispatch_entry(const uint8_t *, size_t, const uint8_t *, size_t,
                                            uint32_t, towhepamu_state *, bool);

static double time_through_text(const site *of, dispatch_entry *dispatch) {
    towhepamu_state state = {0};
    size_t len = strlen(of->text);
    double start = seconds();
    for (size_t n = 0; n < THROUGH_TEXT; n++)
        ran +=
            dispatch((const uint8_t *)of->text, len, plan, of->tasks, 1, &state, reports(n, &state))
                .task;
    return (seconds() - start) * 1e9 / THROUGH_TEXT;
}

static int compare(const void *a, const void *b) {
    double x = *(const double *)a, y = *(const double *)b;
    return (x > y) - (x < y);
}

static double median(double *times, size_t count) {
    qsort(times, count, sizeof *times, compare);
    return times[count / 2];
}

int main(int argc, char **argv) {
    size_t repetitions = argc > 1 ? strtoul(argv[1], NULL, 10) : 5;
    if (repetitions < 1 || repetitions > MOST_REPETITIONS)
        return 2;
    puts("| Core | a tick, prepared | a call through text and plan | the plain C's call |");
    puts("|---|---|---|---|");
    for (size_t s = 0; s < sizeof sites / sizeof sites[0]; s++) {
        double prepared[MOST_REPETITIONS], called[MOST_REPETITIONS], plain[MOST_REPETITIONS];
        for (size_t r = 0; r < repetitions; r++) {
            prepared[r] = time_prepared(&sites[s]);
            called[r] = time_through_text(&sites[s], towhepamu_dispatch);
            plain[r] = time_through_text(&sites[s], reference_dispatch);
        }
        printf("| %s | %.0f ns | %.0f ns | %.0f ns |\n", sites[s].name,
               median(prepared, repetitions), median(called, repetitions),
               median(plain, repetitions));
    }
    return ran == 0;
}

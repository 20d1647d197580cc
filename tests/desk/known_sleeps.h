/* Tables with gaps, and what sleeping through them answers. */
#ifndef KNOWN_SLEEPS_H
#define KNOWN_SLEEPS_H

#include "known.h"

typedef struct {
    const char *name, *text;
    const char *choices; /* a digit a task */
    const char *table;   /* a digit a slot */
    uint32_t energy, time;
    size_t cores; /* 0 where the call is refused */
    towhepamu_checked answer;
    uint64_t energies[TOWHEPAMU_MOST_CORES];
    uint32_t sleeps[TOWHEPAMU_MOST_CORES];
} known_sleep;

#define K2_IDLE_50 "4 1 1 1 50" XSCALE "2 10 2400 5000 20 6000 4294967295"
#define K2_ROW "11112222221111222200"
#define ACROSS "4 1 1 1 50  1 100 10  1 10 300 4294967295"
#define ACROSS_ROW "0011100000"

/* clang-format off */
static const known_sleep known_sleeps[] = {
    /* One gap of 2, which draws 100 awake. */
    {"99, 0", K2_IDLE_50, "33", K2_ROW, 99, 0, 1, {0, 0}, {99}, {1}},
    {"99, 2", K2_IDLE_50, "33", K2_ROW, 99, 2, 1, {0, 0}, {99}, {1}},
    {"99, 3", K2_IDLE_50, "33", K2_ROW, 99, 3, 1, {0, 0}, {100}, {0}},
    {"100, 0", K2_IDLE_50, "33", K2_ROW, 100, 0, 1, {0, 0}, {100}, {0}},
    {"100, 2", K2_IDLE_50, "33", K2_ROW, 100, 2, 1, {0, 0}, {100}, {0}},
    {"0, 2", K2_IDLE_50, "33", K2_ROW, 0, 2, 1, {0, 0}, {0}, {1}},
    {"the most", K2_IDLE_50, "33", K2_ROW, 1000000, 4096, 1, {0, 0}, {100}, {0}},

    /* One gap of 7 across the end, in a row that is not the planner's. */
    {"across, 200, 3", ACROSS, "1", ACROSS_ROW, 200, 3, 1, {0, 0}, {200}, {1}},
    {"across, 349, 7", ACROSS, "1", ACROSS_ROW, 349, 7, 1, {0, 0}, {349}, {1}},
    {"across, 350, 7", ACROSS, "1", ACROSS_ROW, 350, 7, 1, {0, 0}, {350}, {0}},
    {"across, 200, 8", ACROSS, "1", ACROSS_ROW, 200, 8, 1, {0, 0}, {350}, {0}},

    /* Gaps of 1, 4 and, across the end, 2: 10, 40 and 20 awake. */
    {"three gaps", "4 1 1 1 10  1 100 10  1 10 300 4294967295", "1", "0101000010", 15, 0, 1,
     {0, 0}, {10 + 15 + 15}, {2}},
    {"three gaps, time 3", "4 1 1 1 10  1 100 10  1 10 300 4294967295", "1", "0101000010", 15, 3,
     1, {0, 0}, {10 + 15 + 20}, {1}},

    /* No gap; no idle power; an off core; two awake cores with one gap of 4 twice and one of 5. */
    {"a full row", "4 1 1 1 65535" XSCALE "1 10 10000 4294967295", "5", "1111111111", 0, 0, 1,
     {0, 0}, {0}, {0}},
    {"no idle power", "3 1 1 1" XSCALE "1 10 2400 1021", "2", "1111110000", 0, 0, 1,
     {0, 0}, {0}, {0}},
    {"an off core", "4 1 1 2 50" XSCALE "1 10 2400 4294967295", "2", "11111100000000000000", 60, 4,
     2, {0, 0}, {60, 0}, {1, 0}},
    {"no task", "4 1 1 2 65535" XSCALE "0", "", "00", 0, 0, 2, {0, 0}, {0, 0}, {0, 0}},
    {"two cores", "4 1 1 2 50" XSCALE "2 10 2400 5000 20 6000 3000", "27",
     "1111110000111111000022222222222222200000", 199, 0, 2, {0, 0}, {398, 199}, {2, 1}},
    {"two cores, time 5", "4 1 1 2 50" XSCALE "2 10 2400 5000 20 6000 3000", "27",
     "1111110000111111000022222222222222200000", 199, 5, 2, {0, 0}, {400, 199}, {0, 1}},

    /* Deadlines: one gap of 6; one of 7 across the end; a row that ends too late. */
    {"K2, deadlines 4 and 10", K2_IDLE_50 "  2 4 10", "35", "11112222221111000000", 299, 6, 1,
     {0, 0}, {299}, {1}},
    {"deadline 8", ACROSS "  1 8", "1", "0001110000", 349, 7, 1, {0, 0}, {349}, {1}},
    {"a slot after its due tick", ACROSS "  1 5", "1", "0001110000", 0, 0, 0, {10, 1}, {0}, {0}},

    {"energy out of range", K2_IDLE_50, "33", K2_ROW, 1000001, 4097, 0, {11, 0}, {0}, {0}},
    {"time out of range", K2_IDLE_50, "3", "", 1000000, 4097, 0, {11, 1}, {0}, {0}},
    {"the site before them", "4 1 1 1 65536", "33", K2_ROW, 1000001, 0, 0, {3, 4}, {0}, {0}},
    {"the plan before the table", K2_IDLE_50, "3", "", 0, 0, 0, {7, 1}, {0}, {0}},
    {"the table's length", K2_IDLE_50, "33", "1111", 0, 0, 0, {9, 4}, {0}, {0}},
    {"a job", K2_IDLE_50, "33", "01112222221111222200", 0, 0, 0, {10, 1}, {0}, {0}},
};
/* clang-format on */

enum { KNOWN_SLEEPS = sizeof known_sleeps / sizeof known_sleeps[0] };

#endif

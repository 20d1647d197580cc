/* K1 to K13 of document 01 and examples of idle power, of deadlines and of start ticks, with what
   planning answers and the table that it draws. */
#ifndef KNOWN_H
#define KNOWN_H

#include "towhepamu.h"

typedef struct {
    const char *name, *text;
    size_t tasks, slots; /* how long plan and table must be; 0 where the text is refused */
    towhepamu_planned answer;
    const char *choices; /* a digit a task */
    const char *table;   /* a digit a slot */
} known_case;

#define XSCALE " 5 150 80 400 170 600 400 800 900 1000 1600 "
#define K2_SETTINGS(settings) settings XSCALE "2 10 2400 5000 20 6000 4294967295 "
#define K2 K2_SETTINGS("3 1 1 1")
#define TWO_FOURS "3 1 1 1  1 100 10  2 10 400 4294967295 10 400 4294967295 "

/* clang-format off */
static const known_case known_cases[] = {
    {"K1", "3 1 1 1" XSCALE "2 10 2400 5000 20 6000 3000", 2, 20,
     {0, 0, 2040, 3000, 5040}, "20", "11111100001111110000"},
    {"K2", K2, 2, 20,
     {0, 0, 7200, 0, 7200}, "33", "11112222221111222200"},
    {"K3", "3 1 1 2" XSCALE "2 10 2400 5000 20 6000 3000", 2, 40,
     {0, 0, 4590, 0, 4590}, "27", "1111110000111111000022222222222222200000"},
    {"K4", "3 1 1 1" XSCALE "1 10 2400 1020", 1, 10,
     {0, 0, 0, 1020, 1020}, "0", "0000000000"},
    {"K5", "3 1 1 1" XSCALE "1 10 2400 1021", 1, 10,
     {0, 0, 1020, 0, 1020}, "2", "1111110000"},
    {"K6", "3 1 1 2" XSCALE "0", 0, 2,
     {0, 0, 0, 0, 0}, "", "00"},
    {"K7", "3 1 1 1" XSCALE "1 10 10000 4294967295", 1, 10,
     {0, 0, 16000, 0, 16000}, "5", "1111111111"},
    {"K8", "3 1 1 1" XSCALE "1 10 10001 4294967295", 1, 10,
     {5, 0, 0, 0, 0}, "", ""},
    {"K9", "3 1 1 1" XSCALE "2 2 1000 4294967295 2 1000 4294967295", 2, 2,
     {0, 0, 3200, 0, 3200}, "55", "12"},
    {"K10", "3 1 1 1" XSCALE "2 2 1000 4294967295 2 1001 4294967295", 2, 2,
     {5, 0, 0, 0, 0}, "", ""},
    {"K11", "3 1 1 1  1 1 1  2 4095 1 1 2 1 1", 0, 0,
     {4, 11, 0, 0, 0}, "", ""},
    {"K12", "3 1 1 1  1 1 1  2 64 1 1 4096 1 1", 2, 4096,
     {0, 0, 0, 65, 65}, "00", NULL}, /* refused at equal cost: 4,096 idle slots */
    {"K13", "3 2 8 1" XSCALE "2 10 2400 5000 20 6000 3000", 2, 20,
     {0, 0, 7200, 0, 14400}, "33", "11112222221111222200"},

    /* Idle power: two idle ticks; two awake cores with 8 and 5; weighted; an off core; a full core. */
    {"K2, idle power 50", "4 1 1 1 50" XSCALE "2 10 2400 5000 20 6000 4294967295", 2, 20,
     {0, 0, 7300, 0, 7300}, "33", "11112222221111222200"},
    {"K3, idle power 50", "4 1 1 2 50" XSCALE "2 10 2400 5000 20 6000 3000", 2, 40,
     {0, 0, 5240, 0, 5240}, "27", "1111110000111111000022222222222222200000"},
    {"K13, idle power 50", "4 2 8 1 50" XSCALE "2 10 2400 5000 20 6000 3000", 2, 20,
     {0, 0, 7300, 0, 14600}, "33", "11112222221111222200"},
    {"K5 on two cores, idle power 50", "4 1 1 2 50" XSCALE "1 10 2400 4294967295", 1, 20,
     {0, 0, 1220, 0, 1220}, "2", "11111100000000000000"},
    {"K7, idle power 65,535", "4 1 1 1 65535" XSCALE "1 10 10000 4294967295", 1, 10,
     {0, 0, 16000, 0, 16000}, "5", "1111111111"},
    {"K6, idle power 65,535", "4 1 1 2 65535" XSCALE "0", 0, 2,
     {0, 0, 0, 0, 0}, "", "00"},
    /* One task more on a core that is awake anyway; with idle power 0 it is refused. */
    {"one more", "4 1 1 1 100  1 100 50  2 10 300 4294967295 10 300 140", 2, 10,
     {0, 0, 700, 0, 700}, "11", "1112220000"},
    {"one more, idle power 0", "4 1 1 1 0  1 100 50  2 10 300 4294967295 10 300 140", 2, 10,
     {0, 0, 150, 140, 290}, "10", "1110000000"},
    {"one more, no idle power", "3 1 1 1  1 100 50  2 10 300 4294967295 10 300 140", 2, 10,
     {0, 0, 150, 140, 290}, "10", "1110000000"},
    /* The slower level leaves fewer idle ticks, and both levels draw less than an idle core. */
    {"slower", "4 1 1 1 500  2 100 10 200 40  1 10 400 4294967295", 1, 10,
     {0, 0, 3040, 0, 3040}, "1", "1111000000"},
    {"K11, four settings", "4 1 1 1 0  1 1 1  2 4095 1 1 2 1 1", 0, 0,
     {4, 12, 0, 0, 0}, "", ""},
    {"idle power 65,536", "4 1 1 1 65536  1 1 1  0", 0, 0,
     {3, 4, 0, 0, 0}, "", ""},
    {"two settings", "2 1 1  1 1 1  0", 0, 0,
     {3, 0, 0, 0, 0}, "", ""},
    {"six settings", "6 1 1 1 0 0 0  1 1 1  0", 0, 0,
     {3, 0, 0, 0, 0}, "", ""},
    {"a fourth setting is missing", "4 1 1 1", 0, 0,
     {2, 4, 0, 0, 0}, "", ""},

    /* Deadlines: two tasks of 4 ticks and period 10, which may not be refused. */
    {"no deadlines", TWO_FOURS, 2, 10, {0, 0, 80, 0, 80}, "11", "1111222200"},
    {"count 0", TWO_FOURS "0", 2, 10, {0, 0, 80, 0, 80}, "11", "1111222200"},
    {"deadlines 10 and 10", TWO_FOURS "2 10 10", 2, 10, {0, 0, 80, 0, 80}, "11", "1111222200"},
    {"deadlines 4 and 7", TWO_FOURS "2 4 7", 2, 10, {5, 0, 0, 0, 0}, "", ""},
    {"deadlines 4 and 8", TWO_FOURS "2 4 8", 2, 10, {0, 0, 80, 0, 80}, "11", "1111222200"},
    {"deadlines 8 and 4", TWO_FOURS "2 8 4", 2, 10, {0, 0, 80, 0, 80}, "11", "2222111100"},
    {"deadlines 3 and 10", TWO_FOURS "2 3 10", 2, 10, {5, 0, 0, 0, 0}, "", ""},
    {"deadlines 4 and 4 on two cores",
     "3 1 1 2  1 100 10  2 10 400 4294967295 10 400 4294967295  2 4 4", 2, 20,
     {0, 0, 80, 0, 80}, "12", "11110000002222000000"},
    {"deadlines 4 and 7, one may be refused",
     "3 1 1 1  1 100 10  2 10 400 4294967295 10 400 30  2 4 7", 2, 10,
     {0, 0, 40, 30, 70}, "10", "1111000000"},
    {"K2, deadlines 4 and 10", K2 "2 4 10", 2, 20,
     {0, 0, 12800, 0, 12800}, "35", "11112222221111000000"},
    {"K2, deadlines 3 and 20", K2 "2 3 20", 2, 20,
     {0, 0, 9400, 0, 9400}, "43", "11122222221112220000"},
    {"K2, idle power 50, deadlines 4 and 10",
     "4 1 1 1 50" XSCALE "2 10 2400 5000 20 6000 4294967295  2 4 10", 2, 20,
     {0, 0, 13100, 0, 13100}, "35", "11112222221111000000"},
    {"K6, count 0", "3 1 1 2" XSCALE "0  0", 0, 2, {0, 0, 0, 0, 0}, "", "00"},
    {"K6, count 1", "3 1 1 2" XSCALE "0  1 1", 0, 0, {3, 16, 0, 0, 0}, "", ""},
    {"count 1 of two", TWO_FOURS "1 4", 0, 0, {3, 14, 0, 0, 0}, "", ""},
    {"count 3 of two", TWO_FOURS "3 4 4 4", 0, 0, {3, 14, 0, 0, 0}, "", ""},
    {"deadline 0", TWO_FOURS "2 0 7", 0, 0, {3, 15, 0, 0, 0}, "", ""},
    {"deadline above its period", TWO_FOURS "2 4 11", 0, 0, {3, 16, 0, 0, 0}, "", ""},
    {"a deadline is missing", TWO_FOURS "2 4", 0, 0, {2, 16, 0, 0, 0}, "", ""},
    {"a word after the deadlines", TWO_FOURS "2 4 8 1", 0, 0, {2, 17, 0, 0, 0}, "", ""},
    {"a word after count 0", TWO_FOURS "0 1", 0, 0, {2, 15, 0, 0, 0}, "", ""},
    {"K11, deadlines", "3 1 1 1  1 1 1  2 4095 1 1 2 1 1  2 1 1", 0, 0,
     {4, 11, 0, 0, 0}, "", ""},

    /* Start ticks: 17 ticks for task 2 at level 2; 4 and 11 ticks; as many as none; none fits. */
    {"K2, start ticks 2", K2_SETTINGS("5 1 1 1 0 2"), 2, 20,
     {0, 0, 2890, 10000, 12890}, "02", "22222222222222222000"},
    {"K2, idle power 50, start ticks 1", K2_SETTINGS("5 1 1 1 50 1"), 2, 20,
     {0, 0, 11650, 0, 11650}, "43", "11112222221111222220"},
    {"K2, start ticks 0", K2_SETTINGS("5 1 1 1 0 0"), 2, 20,
     {0, 0, 7200, 0, 7200}, "33", "11112222221111222200"},
    {"K2, start ticks 1,000", K2_SETTINGS("5 1 1 1 0 1000"), 2, 20, {5, 0, 0, 0, 0}, "", ""},
    {"K7, start ticks 1", "5 1 1 1 0 1" XSCALE "1 10 10000 4294967295", 1, 10,
     {5, 0, 0, 0, 0}, "", ""},
    {"9,000 cycles, start ticks 1", "5 1 1 1 0 1" XSCALE "1 10 9000 4294967295", 1, 10,
     {0, 0, 16000, 0, 16000}, "5", "1111111111"},
    {"9,001 cycles, start ticks 1", "5 1 1 1 0 1" XSCALE "1 10 9001 4294967295", 1, 10,
     {5, 0, 0, 0, 0}, "", ""},
    {"start ticks 1,001", K2_SETTINGS("5 1 1 1 0 1001"), 0, 0, {3, 5, 0, 0, 0}, "", ""},
    {"a fifth setting is missing", "5 1 1 1 0", 0, 0, {2, 5, 0, 0, 0}, "", ""},
    {"K11, five settings", "5 1 1 1 0 0  1 1 1  2 4095 1 1 2 1 1", 0, 0,
     {4, 13, 0, 0, 0}, "", ""},
};
/* clang-format on */

enum { KNOWN_CASES = sizeof known_cases / sizeof known_cases[0] };

/* The slot of a known table. */
static inline uint8_t known_slot(const known_case *known, size_t slot) {
    return known->table == NULL ? 0 : (uint8_t)(known->table[slot] - '0');
}

#endif

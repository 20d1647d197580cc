/* The implementations that are timed side by side. */
#ifndef TIMED_H
#define TIMED_H

#include "reference.h"

typedef towhepamu_planned plan_entry(const uint8_t *text, size_t text_len, uint8_t *plan,
                                     size_t plan_len, uint8_t *table, size_t table_len);
typedef towhepamu_checked check_entry(const uint8_t *text, size_t text_len, const uint8_t *plan,
                                      size_t plan_len, const uint8_t *table, size_t table_len);
typedef uint64_t tabulate_entry(const uint32_t *words, size_t word_count, const uint32_t *choices,
                                size_t choice_count, uint8_t *table, size_t table_len);

/* Null pointers stand for calls that are not made. */
typedef struct {
    plan_entry *plan;
    check_entry *check;
    tabulate_entry *tabulate;
} implementation;

/* BEFORE has no calls where bench/run was given no older archive, and else no tabling. */
enum { BEFORE, NOW, PLAIN, IMPLEMENTATIONS };
extern const implementation implementations[IMPLEMENTATIONS];

#endif

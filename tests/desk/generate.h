/* Sites, texts and damage to them, for the comparisons. */
#ifndef GENERATE_H
#define GENERATE_H

#include "draw.h"
#include "reference.h"

enum { MOST_DRAWN_WORDS = 3000, MOST_DRAWN_TEXT = 80000 };

typedef struct {
    uint32_t most_cores, most_levels, least_tasks, most_tasks, most_span;
} site_limits;

/*
 * The words of a site within the limits, which reads without refusal. It is drawn to be close to
 * the edges: ties between levels, cores and penalties, equal tasks, cores that are just full or
 * just over, tasks that fit nowhere. Half of them have four settings or five, with an idle power
 * of 0, of a few units, about that of a level, or above every level's; half of these have start
 * ticks: none, few, or more than most periods have. Half of them all have deadlines.
 */
size_t draw_site(generator *g, site_limits limits, uint32_t *words);

/* How a site is written: with three settings, where its idle power and start ticks are 0, with
   four, where its start ticks are 0, or with five; and with a list that ends after the tasks or
   counts 0 deadlines, where these are the periods, or has each. */
typedef enum { LIST_ENDS, NO_DEADLINES, EACH_DEADLINE } deadlines_written;

typedef struct {
    uint32_t settings;
    deadlines_written deadlines;
} written_as;

size_t list_words(const reference_instance *site, written_as as, uint32_t *words);

/* Gives the tasks of a site, whose deadlines are the periods, those that some plan's rows just
   meet, here and there one more or less; or gives them any, and says how they are written. */
void draw_just_met(generator *g, reference_instance *site);
deadlines_written draw_deadlines(generator *g, reference_instance *site);

/* One wrong, missing or extra word, or a few; MOST_DRAWN_WORDS at most. */
void damage_words(generator *g, uint32_t *words, size_t *count);

/* The words as text; where `odd` with leading zeros and any spaces and line feeds in between. */
size_t write_text(generator *g, const uint32_t *words, size_t count, bool odd, uint8_t *text);

/* Wrong bytes, too large numbers, cut or overlong text; MOST_DRAWN_TEXT bytes at most. */
void damage_text(generator *g, uint8_t *text, size_t *text_len);

#endif

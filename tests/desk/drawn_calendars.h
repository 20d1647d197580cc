/* Calendars, damage to them, and questions, drawn at random. */
#ifndef DRAWN_CALENDARS_H
#define DRAWN_CALENDARS_H

#include "generate.h"
#include <stdlib.h>

enum { ENTRY_WORDS = 6 };

static inline uint32_t draw_u32(generator *g, uint32_t least, uint32_t most) {
    return (uint32_t)draw_between(g, least, most);
}

/* ---- Dates and minutes ---- */

/* Any date that there is, often one at a month's end or beginning, also of February. */
static inline reference_date draw_date(generator *g, uint32_t first_year, uint32_t last_year) {
    reference_date date = {draw_u32(g, first_year, last_year), draw_u32(g, 1, 12),
                           draw_u32(g, 1, 31)};
    if (one_in(g, 4))
        date.month = draw_u32(g, 2, 3);
    if (one_in(g, 4))
        date.day = one_in(g, 2) ? 1 : 31;
    while (!reference_is_date(date))
        date.day--;
    return date;
}

static inline uint32_t draw_opening(generator *g) {
    return one_in(g, 4) ? 0 : draw_u32(g, 0, 1439);
}

static inline uint32_t draw_closing(generator *g, uint32_t opening) {
    return one_in(g, 4) ? 1440 : draw_u32(g, opening + 1, 1440);
}

/* ---- Calendars ---- */

static inline int by_date(const void *a, const void *b) {
    const reference_date *one = a, *other = b;
    return reference_is_later(*one, *other) - reference_is_later(*other, *one);
}

/* So many different dates at most, in order; over all years, or so close that many are one day
   after another. */
static inline uint32_t draw_dates(generator *g, uint32_t most, reference_date *dates) {
    uint32_t drawn = 0, kept = 0, year = draw_u32(g, 2000, 2099);
    bool close = one_in(g, 3);
    for (; drawn < most; drawn++)
        dates[drawn] = draw_date(g, close ? year : 2000, close ? year : 2099);
    qsort(dates, drawn, sizeof *dates, by_date);
    for (uint32_t i = 0; i < drawn; i++)
        if (kept == 0 || reference_is_later(dates[i], dates[kept - 1]))
            dates[kept++] = dates[i];
    return kept;
}

/* The words of a calendar that reads without refusal, of so many entries at most. */
static inline size_t draw_calendar(generator *g, uint32_t most, uint32_t *words) {
    reference_date dates[MOST_ENTRIES];
    size_t count = 1;
    words[0] = draw_dates(g, most, dates);
    for (uint32_t i = 0; i < words[0]; i++) {
        uint32_t opening = draw_opening(g), closing = draw_closing(g, opening);
        const uint32_t entry[ENTRY_WORDS] = {dates[i].year, dates[i].month, dates[i].day,
                                             opening,       closing,        draw_u32(g, 1, 255)};
        for (size_t w = 0; w < ENTRY_WORDS; w++)
            words[count++] = entry[w];
    }
    return count;
}

/* ---- Damage ---- */

/* A word at, or one beyond, some end of a calendar's ranges. */
static inline uint32_t draw_calendar_edge(generator *g) {
    static const uint32_t ends[] = {0, 1, 12, 29, 30, 31, 200, 255, 1440, 2000, 2099, UINT32_MAX};
    return ends[draw(g, sizeof ends / sizeof ends[0])] + draw_u32(g, 0, 2) - 1;
}

/* An entry whose date or minutes are wrong, perhaps beside those of the entry before. */
static inline void damage_entry(generator *g, uint32_t *entry, bool is_first) {
    switch (draw(g, 6)) {
    case 0: /* mostly none */
        entry[1] = 2;
        entry[2] = draw_u32(g, 29, 31);
        break;
    case 1:
        entry[2] = 31;
        break;
    case 2:
        entry[4] = entry[3];
        break;
    case 3:
        entry[3] = 1440;
        break;
    default: /* the date before, or one close to it */
        for (size_t w = 0; !is_first && w < 3; w++)
            entry[w] = entry[w - ENTRY_WORDS];
        entry[draw(g, 3)] -= draw_u32(g, 0, 1);
    }
}

/* One wrong, missing or extra word, or a few; MOST_DRAWN_WORDS at most. */
static inline void damage_calendar(generator *g, uint32_t *words, size_t *count) {
    if (*count == 0)
        return;
    size_t entries = (*count - 1) / ENTRY_WORDS, i = entries == 0 ? 0 : draw(g, entries);
    switch (draw(g, 4)) {
    case 0:
        damage_words(g, words, count);
        break;
    case 1:
        words[draw(g, *count)] = draw_calendar_edge(g);
        break;
    default:
        if (entries > 0)
            damage_entry(g, words + 1 + i * ENTRY_WORDS, i == 0);
        if (one_in(g, 4)) /* which of two comes first */
            words[draw(g, *count)] = draw_calendar_edge(g);
    }
}

/* ---- Questions ---- */

typedef struct {
    reference_date date;
    uint32_t minute;
} question;

/* Close to an entry's date and minutes, mostly; sometimes a question that there is not. */
static inline question draw_question(generator *g, const reference_calendar *calendar) {
    question asked = {draw_date(g, 2000, 2099), draw_u32(g, 0, 1439)};
    if (calendar->entries > 0 && !one_in(g, 4)) {
        const reference_entry *entry = &calendar->entry[draw(g, calendar->entries)];
        uint32_t minute = (one_in(g, 2) ? entry->opening : entry->closing) + draw_u32(g, 0, 1);
        asked.date = entry->date;
        asked.date.day += draw_u32(g, 0, 2) - 1;
        asked.minute = minute == 0 ? 0 : minute - 1;
    }
    if (one_in(g, 16))
        asked.date.year = one_in(g, 2) ? 1999 : 2100;
    if (one_in(g, 16))
        asked.date.month = one_in(g, 2) ? 0 : draw_u32(g, 13, 16);
    if (one_in(g, 16))
        asked.date.day = one_in(g, 2) ? draw_u32(g, 28, 32) : draw_calendar_edge(g);
    if (one_in(g, 16))
        asked.minute = draw_calendar_edge(g);
    return asked;
}

#endif

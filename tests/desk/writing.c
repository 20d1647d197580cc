/* The words of a site, and words as text. */
#include "generate.h"

size_t list_words(const reference_instance *in, written_as as, uint32_t *words) {
    size_t n = 0;
    words[n++] = as.settings;
    words[n++] = in->energy_weight;
    words[n++] = in->penalty_weight;
    words[n++] = in->cores;
    if (as.settings >= 4)
        words[n++] = in->idle_power;
    if (as.settings >= 5)
        words[n++] = in->start_ticks;
    words[n++] = in->levels;
    for (size_t l = 0; l < in->levels; l++) {
        words[n++] = in->level[l].speed;
        words[n++] = in->level[l].power;
    }
    words[n++] = in->tasks;
    for (size_t i = 0; i < in->tasks; i++) {
        words[n++] = in->task[i].period;
        words[n++] = in->task[i].cycles;
        words[n++] = in->task[i].penalty;
    }
    if (as.deadlines != LIST_ENDS)
        words[n++] = as.deadlines == EACH_DEADLINE ? in->tasks : 0;
    for (size_t i = 0; as.deadlines == EACH_DEADLINE && i < in->tasks; i++)
        words[n++] = in->task[i].deadline;
    return n;
}

static size_t draw_blanks(generator *g, size_t least, uint8_t *text) {
    size_t n = draw_between(g, least, one_in(g, 8) ? 8 : 2);
    for (size_t i = 0; i < n; i++)
        text[i] = one_in(g, 3) ? '\n' : ' ';
    return n;
}

static size_t write_number(uint32_t number, uint8_t *text) {
    size_t digits = number < 10 ? 0 : write_number(number / 10, text);
    text[digits] = (uint8_t)('0' + number % 10);
    return digits + 1;
}

size_t write_text(generator *g, const uint32_t *words, size_t count, bool odd, uint8_t *text) {
    size_t n = odd ? draw_blanks(g, 0, text) : 0;
    for (size_t i = 0; i < count; i++) {
        if (i > 0 && odd)
            n += draw_blanks(g, 1, text + n);
        else if (i > 0)
            text[n++] = ' ';
        for (size_t zeros = odd && one_in(g, 4) ? draw(g, 6) : 0; zeros > 0; zeros--)
            text[n++] = '0';
        n += write_number(words[i], text + n);
    }
    return odd ? n + draw_blanks(g, 0, text + n) : n;
}

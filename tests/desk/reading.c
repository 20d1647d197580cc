/* Text to words, and words to instance. */
#include "answers.h"
#include "taking.h"

/* ---- Text to words ---- */

static bool is_digit(uint8_t byte) {
    return '0' <= byte && byte <= '9';
}

towhepamu_checked reference_words(const uint8_t *text, size_t text_len, uint32_t *words,
                                  size_t words_len, size_t *count) {
    uint32_t found[MOST_WORDS];
    size_t n = 0, at = 0, end = smaller(text_len, TOWHEPAMU_MOST_TEXT_BYTES);

    while (at < end) {
        size_t first = at;
        uint64_t number = 0;
        for (; at < end && is_digit(text[at]); at++) {
            number = 10 * number + (text[at] - '0');
            if (number > UINT32_MAX)
                return refused(TOWHEPAMU_TEXT, first);
        }
        if (at > first)
            found[n++] = (uint32_t)number;
        else if (text[at] == ' ' || text[at] == '\n')
            at++;
        else
            return refused(TOWHEPAMU_TEXT, at);
    }
    if (text_len > end)
        return refused(TOWHEPAMU_TEXT, end);
    if (words_len < n)
        return refused(TOWHEPAMU_BUFFER, n);
    for (size_t i = 0; i < n; i++)
        words[i] = found[i];
    *count = n;
    return accepted;
}

/* ---- Words to instance ---- */

static uint32_t greatest_common_divisor(uint32_t a, uint32_t b) {
    return b == 0 ? a : greatest_common_divisor(b, a % b);
}

static bool take_settings(cursor *from, reference_instance *in) {
    uint32_t count;
    in->idle_power = in->start_ticks = 0;
    return take(from, 3, 5, &count) && take(from, 1, 1000, &in->energy_weight) &&
           take(from, 1, 1000, &in->penalty_weight) && take(from, 1, MOST_CORES, &in->cores) &&
           (count < 4 || take(from, 0, 65535, &in->idle_power)) &&
           (count < 5 || take(from, 0, 1000, &in->start_ticks));
}

static bool take_levels(cursor *from, reference_instance *in) {
    if (!take(from, 1, MOST_LEVELS, &in->levels))
        return false;
    reference_level below = {0, 0};
    for (size_t l = 0; l < in->levels; l++) {
        reference_level *level = &in->level[l];
        if (!take(from, below.speed + 1, 65535, &level->speed) ||
            !take(from, below.power + 1, 65535, &level->power))
            return false;
        below = *level;
    }
    return true;
}

/* A period, with which the span grows. */
static bool take_period(cursor *from, reference_instance *in, uint32_t *period) {
    if (!take(from, 1, 4096, period))
        return false;
    uint32_t span = in->span / greatest_common_divisor(in->span, *period) * *period;
    if (span > MOST_SPAN)
        return stop(from, TOWHEPAMU_SPAN, from->at - 1);
    in->span = span;
    return true;
}

static bool take_penalty(cursor *from, uint32_t *penalty) {
    bool must = from->at < from->count && from->words[from->at] == MUST;
    return must ? take(from, MUST, MUST, penalty) : take(from, 1, 1000000, penalty);
}

static bool take_tasks(cursor *from, reference_instance *in) {
    if (!take(from, 0, MOST_TASKS, &in->tasks))
        return false;
    in->span = 1;
    for (size_t i = 0; i < in->tasks; i++) {
        reference_task *task = &in->task[i];
        if (!take_period(from, in, &task->period) || !take(from, 1, 100000000, &task->cycles) ||
            !take_penalty(from, &task->penalty))
            return false;
    }
    return true;
}

/* Where the list ends after the tasks, or counts 0 deadlines, a deadline is the whole period. */
static bool take_deadlines(cursor *from, reference_instance *in) {
    for (size_t i = 0; i < in->tasks; i++)
        in->task[i].deadline = in->task[i].period;
    if (from->at == from->count)
        return true;
    uint32_t count = from->words[from->at] == 0 ? 0 : in->tasks;
    if (!take(from, count, count, &count))
        return false;
    for (size_t i = 0; i < count; i++)
        if (!take(from, 1, in->task[i].period, &in->task[i].deadline))
            return false;
    return true;
}

towhepamu_checked reference_read(const uint32_t *words, size_t count, reference_instance *in) {
    cursor from = {words, count, 0, accepted};
    if (take_settings(&from, in) && take_levels(&from, in) && take_tasks(&from, in) &&
        take_deadlines(&from, in))
        take_end(&from);
    return from.answer;
}

towhepamu_checked reference_read_text(const uint8_t *text, size_t text_len,
                                      reference_instance *in) {
    uint32_t words[MOST_WORDS];
    size_t count = 0;
    towhepamu_checked test = reference_words(text, text_len, words, MOST_WORDS, &count);
    return passes(test) ? reference_read(words, count, in) : test;
}

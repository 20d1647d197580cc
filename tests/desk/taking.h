/* Words taken one after another from a list, each tested for refusals 2 and 3. */
#ifndef TAKING_H
#define TAKING_H

#include "answers.h"

typedef struct {
    const uint32_t *words;
    size_t count, at;
    towhepamu_checked answer;
} cursor;

static inline bool stop(cursor *from, enum towhepamu_refusal refusal, size_t place) {
    from->answer = refused(refusal, place);
    return false;
}

/* Takes the next word, which must lie in least..most. */
static inline bool take(cursor *from, uint32_t least, uint32_t most, uint32_t *word) {
    if (from->at == from->count)
        return stop(from, TOWHEPAMU_WORDS, from->at);
    *word = from->words[from->at];
    if (*word < least || *word > most)
        return stop(from, TOWHEPAMU_RANGE, from->at);
    from->at++;
    return true;
}

/* No word may be left. */
static inline bool take_end(cursor *from) {
    return from->at == from->count || stop(from, TOWHEPAMU_WORDS, from->at);
}

#endif

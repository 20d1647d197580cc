/* Damage to the words and to the text of a site. */
#include "generate.h"
#include <string.h>

static uint32_t between(generator *g, uint32_t least, uint32_t most) {
    return (uint32_t)draw_between(g, least, most);
}

/* ---- Damage to words ---- */

static void insert_word(uint32_t *words, size_t *count, size_t at, uint32_t word) {
    if (*count == MOST_DRAWN_WORDS)
        return;
    memmove(words + at + 1, words + at, (*count - at) * sizeof *words);
    words[at] = word;
    ++*count;
}

/* A word at, or one beyond, some end of a range. */
static uint32_t draw_edge(generator *g) {
    static const uint32_t ends[] = {0,    1,    3,     4,       8,         12,
                                    1000, 4096, 65535, 1000000, 100000000, UINT32_MAX};
    uint32_t end = ends[draw(g, sizeof ends / sizeof ends[0])];
    return end + between(g, 0, 2) - 1;
}

/* Another count of settings, a fourth or fifth one that is wrong, or one too many or too few. */
static void damage_settings(generator *g, uint32_t *words, size_t *count) {
    if (one_in(g, 3))
        words[0] = between(g, 1, 7);
    else if (*count < 6)
        words[0] = between(g, 4, 5);
    else if (words[0] == 5 && one_in(g, 2))
        words[5] = one_in(g, 2) ? 1000 + between(g, 0, 2) : draw_edge(g);
    else if (words[0] >= 4 && one_in(g, 2))
        words[4] = one_in(g, 2) ? 65535 + between(g, 0, 2) : draw_edge(g);
    else if (words[0] >= 4)
        memmove(words + 4, words + 5, (--*count - 4) * sizeof *words);
    else
        insert_word(words, count, 4, between(g, 0, 9));
}

/* Where the deadlines begin with their count, or where the list ends. */
static size_t deadlines_at(const uint32_t *words, size_t count) {
    uint64_t at = 1 + (uint64_t)words[0];
    at += at < count ? 1 + 2 * (uint64_t)words[at] : 0;
    at += at < count ? 1 + 3 * (uint64_t)words[at] : 0;
    return at < count ? at : count;
}

/* A count of deadlines, or another one; a deadline that is wrong, or one too many or too few. */
static void damage_deadlines(generator *g, uint32_t *words, size_t *count) {
    size_t at = deadlines_at(words, *count), more = *count - at;
    if (more == 0 || one_in(g, 4))
        insert_word(words, count, at, between(g, 0, 3));
    else if (one_in(g, 4))
        words[at] = one_in(g, 2) ? 0 : words[at] + between(g, 0, 2) - 1;
    else if (one_in(g, 3))
        *count -= 1;
    else
        words[at + draw(g, more)] += between(g, 0, 2) - 1;
}

void damage_words(generator *g, uint32_t *words, size_t *count) {
    if (*count == 0)
        return;
    size_t at = draw(g, *count);
    switch (draw(g, 11)) {
    case 0:
        *count = at;
        break;
    case 1:
        insert_word(words, count, at, words[draw(g, *count)]);
        break;
    case 2:
        memmove(words + at, words + at + 1, (--*count - at) * sizeof *words);
        break;
    case 3:
        for (size_t n = one_in(g, 20) ? draw_between(g, 1, 2500) : draw_between(g, 1, 3); n > 0;
             n--)
            insert_word(words, count, *count, between(g, 0, 9));
        break;
    case 4:
        words[at] = words[at < 2 ? at : at - 2]; /* a speed or power that does not rise */
        break;
    case 5:
        words[at] = between(g, 1, 4096); /* as a period, mostly too much for the span */
        break;
    case 6:
        damage_settings(g, words, count);
        break;
    case 7:
    case 8:
        damage_deadlines(g, words, count);
        break;
    default:
        words[at] = draw_edge(g);
    }
}

/* ---- Damage to text ---- */

static void insert_bytes(uint8_t *text, size_t *text_len, size_t at, uint8_t byte, size_t n) {
    memmove(text + at + n, text + at, *text_len - at);
    memset(text + at, byte, n);
    *text_len += n;
}

/* Mostly a blank, a digit or a byte next to these; else any byte. */
static uint8_t draw_byte(generator *g) {
    static const uint8_t near[] = " \n0123456789/:\t\r\v.-+,\0\x1f!";
    return one_in(g, 4) ? (uint8_t)draw(g, 256) : near[draw(g, sizeof near)];
}

/* Lengthens the text to about the 4,096 bytes that are read. */
static void pad_text(generator *g, uint8_t *text, size_t *text_len, size_t at) {
    static const uint8_t padding[] = " \n09";
    size_t wanted = one_in(g, 4) ? draw_between(g, 4000, 9000) : draw_between(g, 4093, 4099);
    if (*text_len < wanted)
        insert_bytes(text, text_len, at, padding[draw(g, 4)], wanted - *text_len);
}

void damage_text(generator *g, uint8_t *text, size_t *text_len) {
    size_t at = draw(g, *text_len + 1), n;
    switch (draw(g, 8)) {
    case 0:
        *text_len = at;
        break;
    case 1:
        insert_bytes(text, text_len, at, draw_byte(g), 1);
        break;
    case 2:
        n = draw_between(g, 1, 30);
        insert_bytes(text, text_len, at, one_in(g, 2) ? '0' : '9', n);
        break;
    case 3:
        pad_text(g, text, text_len, one_in(g, 2) ? at : *text_len);
        at = *text_len > 8 ? *text_len - draw(g, 8) : 0;
        if (one_in(g, 2) && at < *text_len)
            text[at] = draw_byte(g);
        break;
    case 4:
        pad_text(g, text, text_len, one_in(g, 2) ? 0 : *text_len);
        break;
    case 5: { /* the first number that is too large, with or without leading zeros, or just not */
        static const uint8_t limit[] = " 0004294967296 ";
        insert_bytes(text, text_len, at, ' ', sizeof limit - 1);
        memcpy(text + at, limit, sizeof limit - 1);
        text[at + 13] = (uint8_t)draw_between(g, '4', '7');
        break;
    }
    default:
        if (at < *text_len)
            text[at] = draw_byte(g);
    }
}

#include "node.h"
#include "files.h"
#include <inttypes.h>
#include <string.h>

enum { MOST_BYTES = 1 << 20 }; /* of a file: many times what a listing or a table takes */

typedef struct {
    const char *file;
    const uint8_t *text;
    size_t len, at;
} cursor;

static bool is_digit(uint8_t byte) {
    return '0' <= byte && byte <= '9';
}

static bool is_line_end(const cursor *from) {
    return from->at == from->len || from->text[from->at] == '\n';
}

static void skip_spaces(cursor *from) {
    while (from->at < from->len && from->text[from->at] == ' ')
        from->at++;
}

static bool fail(const cursor *from, const char *wanted) {
    byte_words found = {"the file ends"};
    if (from->at < from->len && from->text[from->at] == '\n')
        found = (byte_words){"the line ends"};
    else if (from->at < from->len)
        found = byte_in_words(from->text + from->at, from->len - from->at);
    tell_at(from->file, from->text, from->at, "%s where %s must stand", found.text, wanted);
    return false;
}

static bool take_number(cursor *from, uint64_t *number) {
    skip_spaces(from);
    if (is_line_end(from) || !is_digit(from->text[from->at]))
        return fail(from, "a number");
    size_t first = from->at;
    for (*number = 0; from->at < from->len && is_digit(from->text[from->at]); from->at++) {
        if (*number > UINT64_MAX / 10 - 1) {
            tell_at(from->file, from->text, first, "the number is too large");
            return false;
        }
        *number = 10 * *number + (from->text[from->at] - '0');
    }
    return is_line_end(from) || from->text[from->at] == ' ' ||
           fail(from, "a digit, a space or the end of the line");
}

static bool is_at(const cursor *from, const char *word) {
    size_t len = strlen(word);
    return from->len - from->at >= len && memcmp(from->text + from->at, word, len) == 0;
}

static bool take_word(cursor *from, const char *word) {
    skip_spaces(from);
    if (!is_at(from, word)) {
        char quoted[32] = "'";
        strncat(strncat(quoted, word, 28), "'", 2);
        return fail(from, quoted);
    }
    from->at += strlen(word);
    return is_line_end(from) || from->text[from->at] == ' ' || fail(from, "a space");
}

static bool take_line_end(cursor *from) {
    skip_spaces(from);
    if (!is_line_end(from))
        return fail(from, "the end of the line");
    from->at += from->at < from->len;
    return true;
}

static void keep_number(node_file *node, uint64_t number) {
    if (node->count < NODE_MOST_NUMBERS)
        node->numbers[node->count] = number > UINT32_MAX ? UINT32_MAX : (uint32_t)number;
    node->count++;
}

/* ---- Listings ---- */

/* The number of a task's or a core's line, which must be the next one. */
static bool take_next(cursor *from, const char *word, size_t before, size_t most) {
    uint64_t number;
    skip_spaces(from);
    size_t line = from->at;
    if (!take_word(from, word) || !take_number(from, &number))
        return false;
    if (number == before + 1 && number <= most)
        return true;
    if (before == most)
        tell_at(from->file, from->text, line, "%s %" PRIu64 "; there are at most %zu", word, number,
                most);
    else
        tell_at(from->file, from->text, line, "%s %" PRIu64 " where %s %zu must stand", word,
                number, word, before + 1);
    return false;
}

static bool take_task(cursor *from, node_file *node) {
    if (!take_next(from, "task", node->tasks, TOWHEPAMU_MOST_TASKS))
        return false;
    node_task *task = &node->task[node->tasks++];
    *task = (node_task){0, 0, 0};
    skip_spaces(from);
    if (is_at(from, "refused"))
        return take_word(from, "refused") && take_line_end(from);
    size_t line = from->at;
    if (!take_word(from, "core") || !take_number(from, &task->core) || !take_word(from, "level") ||
        !take_number(from, &task->level) || !take_word(from, "ticks") ||
        !take_number(from, &task->ticks) || !take_line_end(from))
        return false;
    if (task->core == 0 || task->level == 0) {
        tell_at(from->file, from->text, line, "cores and levels are numbered from 1");
        return false;
    }
    return true;
}

static bool take_row(cursor *from, node_file *node) {
    if (!take_next(from, "core", node->cores, TOWHEPAMU_MOST_CORES))
        return false;
    for (skip_spaces(from); !is_line_end(from); skip_spaces(from)) {
        uint64_t slot;
        if (!take_number(from, &slot))
            return false;
        keep_number(node, slot);
    }
    node->row[++node->cores] = node->count;
    return take_line_end(from);
}

static bool take_listing(cursor *from, node_file *node) {
    node->is_listing = true;
    if (is_at(from, "refused")) {
        node->is_refused = true;
        return take_word(from, "refused") && take_number(from, &node->refusal) &&
               take_number(from, &node->place) && take_line_end(from) &&
               (from->at == from->len || fail(from, "the end of the file"));
    }
    if (!take_word(from, "span") || !take_number(from, &node->span) || !take_line_end(from) ||
        !take_word(from, "cost") || !take_number(from, &node->energy) ||
        !take_number(from, &node->penalty) || !take_number(from, &node->cost) ||
        !take_line_end(from))
        return false;
    while (is_at(from, "task"))
        if (!take_task(from, node))
            return false;
    while (is_at(from, "core"))
        if (!take_row(from, node))
            return false;
    return from->at == from->len ||
           fail(from, node->cores == 0 ? "the line of a task or a core" : "the line of a core");
}

/* ---- Lists of numbers ---- */

static bool take_list(cursor *from, node_file *node) {
    for (skip_spaces(from); from->at < from->len; skip_spaces(from)) {
        uint64_t number;
        if (from->text[from->at] == '\n')
            from->at++;
        else if (take_number(from, &number))
            keep_number(node, number);
        else
            return false;
    }
    return true;
}

bool node_read(const char *name, node_file *node) {
    static uint8_t text[MOST_BYTES + 1];
    memset(node, 0, sizeof *node);
    node->file = name;
    cursor from = {name, text, read_file(name, text, sizeof text), 0};
    if (from.len > MOST_BYTES)
        give_up("%s has more than %s bytes", file_words(name), grouped(MOST_BYTES).text);
    if (from.len > 0 && !is_digit(text[0]) && text[0] != ' ' && text[0] != '\n')
        return is_at(&from, "span") || is_at(&from, "refused")
                   ? take_listing(&from, node)
                   : fail(&from, "a listing, which begins with 'span', or a list of numbers");
    return take_list(&from, node);
}

/* ---- As the library takes them ---- */

uint8_t node_byte(uint32_t number) {
    return number > 255 ? 255 : (uint8_t)number;
}

uint8_t node_choice(const node_file *node, const parsed_site *site, size_t task) {
    const node_task *given = &node->task[task];
    if (given->core == 0)
        return 0;
    if (given->core > site->cores || given->level > site->levels)
        return 255;
    return (uint8_t)((given->core - 1) * site->levels + given->level);
}

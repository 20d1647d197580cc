/* Reading a text and listing its plan, as document 01 has it, in plain C. */
#include "reference.h"
#include <inttypes.h>
#include <stdarg.h>
#include <stdio.h>
#include <string.h>

towhepamu_site reference_site(const uint8_t *text, size_t text_len) {
    reference_instance in;
    towhepamu_checked test = reference_read_text(text, text_len, &in);
    if (test.refusal != TOWHEPAMU_ACCEPTED)
        return (towhepamu_site){test.refusal, test.place, 0, 0, 0, 0};
    return (towhepamu_site){0, 0, in.tasks, in.levels, in.cores, in.span};
}

/* ---- The lines ---- */

typedef struct {
    char bytes[TOWHEPAMU_MOST_LISTING_BYTES + 1]; /* and the byte that ends a string */
    size_t length;
} listing;

static void put(listing *lines, const char *format, ...) {
    va_list values;
    va_start(values, format);
    lines->length += (size_t)vsnprintf(lines->bytes + lines->length,
                                       sizeof lines->bytes - lines->length, format, values);
    va_end(values);
}

static void put_task(listing *lines, const reference_instance *in, size_t task, uint8_t choice) {
    put(lines, "task %zu", task + 1);
    if (choice == 0) {
        put(lines, " refused\n");
        return;
    }
    size_t core = reference_core_of(in, choice), level = reference_level_of(in, choice);
    put(lines, " core %zu level %zu ticks %" PRIu64 "\n", core + 1, level + 1,
        reference_ticks(in, task, level));
}

static void put_core(listing *lines, size_t number, const uint8_t *row, size_t slots) {
    put(lines, "core %zu", number);
    for (size_t t = 0; t < slots; t++)
        put(lines, " %d", row[t]);
    put(lines, "\n");
}

towhepamu_listed reference_list(const uint8_t *text, size_t text_len, uint8_t *out,
                                size_t out_len) {
    static listing lines;
    uint8_t plan[MOST_TASKS], table[TOWHEPAMU_MOST_TABLE_BYTES];
    reference_instance in;
    towhepamu_checked test = reference_read_text(text, text_len, &in);
    if (test.refusal != TOWHEPAMU_ACCEPTED)
        return (towhepamu_listed){test.refusal, test.place, 0};
    if (out_len < TOWHEPAMU_MOST_LISTING_BYTES)
        return (towhepamu_listed){TOWHEPAMU_BUFFER, TOWHEPAMU_MOST_LISTING_BYTES, 0};
    towhepamu_planned price =
        reference_plan(text, text_len, plan, sizeof plan, table, sizeof table);
    if (price.refusal != TOWHEPAMU_ACCEPTED)
        return (towhepamu_listed){price.refusal, price.place, 0};
    lines.length = 0;
    put(&lines, "span %" PRIu32 "\n", in.span);
    put(&lines, "cost %" PRIu64 " %" PRIu64 " %" PRIu64 "\n", price.energy, price.penalty,
        price.cost);
    for (size_t i = 0; i < in.tasks; i++)
        put_task(&lines, &in, i, plan[i]);
    for (size_t core = 0; core < in.cores; core++)
        put_core(&lines, core + 1, table + core * in.span, in.span);
    memcpy(out, lines.bytes, lines.length);
    return (towhepamu_listed){0, 0, lines.length};
}

/* Calls of the dispatcher one after another from a fresh start, and what they answer. */
#ifndef KNOWN_CALLS_H
#define KNOWN_CALLS_H

#include "known.h"

typedef struct {
    const char *name, *text;
    const char *choices; /* a digit a task */
    uint32_t core;
    const char *reports; /* 1 where the call reports an early end, else 0 */
    const char *tasks;   /* the digit that each call answers; - where it is refused with 13 */
} known_calls;

#define FULL_CORE "3 1 1 1  1 1 1  1 2 2 4294967295"
#define EARLY_DUE "3 1 1 2  1 1 1  3 4 2 9 4 2 9 8 3 9  3 3 4 8"

/* clang-format off */
static const known_calls known_sequences[] = {
    {"a full core", FULL_CORE, "1", 1, "00101", "11111"},
    {"K2's row", K2, "33", 1,
     "000000000000000000000000000000000000000000",
     "111122222211112222001111222222111122220011"},
    {"an early end", K2, "33", 1, "00100000000000000000000", "11222222221111220000111"},
    {"two early ends", K2, "33", 1, "0011000000000000000000", "1120000000111100000011"},
    {"before the first tick", K2, "33", 1, "100", "-11"},
    {"after a span that ends idle", K2, "33", 1, "0000000000000000000010", "11112222221111222200-1"},
    {"after an idle tick", K2, "33", 1, "0000000000000000000100", "1111222222111122220-01"},
    {"an early due tick", EARLY_DUE, "121", 1, "0000000000", "1133113011"},
    {"an early due tick and early ends", EARLY_DUE, "121", 1, "00010010000", "11301100113"},
    {"the other core", EARLY_DUE, "121", 2, "000000", "220022"},
    {"start ticks", K2_SETTINGS("5 1 1 1 50 1"), "43", 1, "0000000000000000000000", "1111222222111122222011"},
    {"start ticks and an early end", K2_SETTINGS("5 1 1 1 50 1"), "43", 1, "0010000000", "1122222222"},
    {"no task", "3 1 1 2" XSCALE "0", "", 2, "00", "00"},
};
/* clang-format on */

enum { KNOWN_SEQUENCES = sizeof known_sequences / sizeof known_sequences[0] };

#endif

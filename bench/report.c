#include "report.h"
#include <math.h>
#include <stdio.h>
#include <stdlib.h>

static const char *const operation_names[OPERATIONS] = {"planning",
                                                        "planning, low idle power",
                                                        "planning, high idle power",
                                                        "reading",
                                                        "tabling",
                                                        "checking",
                                                        "checking slots too many",
                                                        "checking a last job that is short"};
static const char *const column_names[COLUMNS] = {"before", "now", "plain C", "now : before",
                                                  "now : plain C"};
static const char *const idle_column_names[COLUMNS] = {"without", "now", "plain C", "now : without",
                                                       "now : plain C"};

double times_of[FAMILIES][OPERATIONS][COLUMNS][SITES_A_FAMILY];

bool has_idle_power(enum operation o) {
    return o == PLANNING_LOW || o == PLANNING_HIGH;
}

/* ---- Medians ---- */

static int by_size(const void *a, const void *b) {
    double x = *(const double *)a, y = *(const double *)b;
    return (x > y) - (x < y);
}

/* Moves the times that were taken to the front; returns how many there are. */
static size_t taken(double *times, size_t count) {
    size_t kept = 0;
    for (size_t i = 0; i < count; i++)
        if (!isnan(times[i]))
            times[kept++] = times[i];
    return kept;
}

double median(double *times, size_t count) {
    count = taken(times, count);
    qsort(times, count, sizeof *times, by_size);
    return count == 0 ? NAN : (times[(count - 1) / 2] + times[count / 2]) / 2;
}

/* ---- Tables ---- */

/* The median over the sites, and the most where that is asked for. */
static void print_cell(double *times, size_t column, bool with_most) {
    size_t count = taken(times, SITES_A_FAMILY);
    double middle = median(times, count), most = count == 0 ? NAN : times[count - 1];
    int digits = column >= IMPLEMENTATIONS ? 2 : most < 100 ? 1 : 0;
    if (count == 0)
        printf(" - |");
    else if (with_most)
        printf(" %.*f (%.*f) |", digits, middle, digits, most);
    else
        printf(" %.*f |", digits, middle);
}

static bool is_shown(size_t column, bool with_before) {
    return with_before || (column != BEFORE && column != TO_BEFORE);
}

/* The rows of all families, with a group of columns for each operation from `first` to `last`. */
static void print_rows(enum operation first, enum operation last, bool with_before) {
    for (size_t family = 0; family < FAMILIES; family++) {
        printf("| %s |", family_name(family));
        for (enum operation o = first; o <= last; o++)
            for (size_t c = 0; c < COLUMNS; c++)
                if (is_shown(c, with_before))
                    print_cell(times_of[family][o][c], c, first == last);
        printf("\n");
    }
}

void print_table(enum operation first, enum operation last) {
    bool idle = has_idle_power(first);
    bool with_before = idle || (first == last && implementations[BEFORE].plan != NULL);
    const char *const *names = idle ? idle_column_names : column_names;
    size_t columns = 1;
    printf("\n| Sites |");
    for (enum operation o = first; o <= last; o++)
        for (size_t c = 0; c < COLUMNS; c++)
            if (is_shown(c, with_before)) {
                printf(" %s, %s |", operation_names[o], names[c]);
                columns++;
            }
    printf("\n|");
    for (size_t c = 0; c < columns; c++)
        printf("---|");
    printf("\n");
    print_rows(first, last, with_before);
}

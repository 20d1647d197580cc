/* A plan and a table that are given for a site, as one file or as two, and why they are refused. */
#ifndef GIVEN_H
#define GIVEN_H

#include "commands.h"
#include "node.h"

/* One more of each than can be right, so that the library sees what is too long. */
typedef struct {
    const parsed_site *site;
    const node_file *plan_from, *table_from;
    size_t choices, slots; /* how many were given; of more than are kept only the count goes on */
    size_t plan_len, table_len; /* how many are kept */
    uint8_t plan[TOWHEPAMU_MOST_TASKS + 1];
    uint8_t table[TOWHEPAMU_MOST_TABLE_BYTES + 1];
    uint32_t slot[TOWHEPAMU_MOST_TABLE_BYTES + 1]; /* the table's numbers as given */
} subject;

/* Takes them from the files after the site's. Returns how the program ends where they cannot be
   taken, which is then told, else WELL. */
int take_given(const arguments *given, const parsed_site *site, subject *of);

/* Takes the plan of a file, which may be a dump or a listing, and no table; as above. */
int take_given_plan(const char *name, const parsed_site *site, subject *of);

/* Tells in words why the library refuses them. */
void tell_given_refusal(const subject *of, towhepamu_checked why);

#endif

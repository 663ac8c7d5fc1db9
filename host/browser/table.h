/* A table as the browser holds it: the words of a file, the sections found in them, and names for its variables. */
#ifndef BROWSER_TABLE_H
#define BROWSER_TABLE_H

#include "nocturenc.h"

/* The four sections, in their order in a table. */
enum { VARIABLES, READS, ROWS, STRATEGY, SECTIONS };

/* Kinds of rows. */
enum { KIND_FALSE, KIND_STAR, KIND_CANDIDATE, KIND_CONJUNCTION, KIND_DISJUNCTION, KIND_EXISTS, KIND_IF };

/* The range of a section's count, and what it is called. */
struct limit {
    const char *name;
    size_t least;
    size_t most;
};
extern const struct limit limits[SECTIONS];

/* A section that is wholly there: its entries start at word `at`. One that is not has count 0. */
struct section {
    size_t at;
    size_t count;
};

struct table {
    uint16_t *words;
    size_t len;
    size_t whole; /* how many sections, from the first on, are wholly there with counts in range */
    struct section section[SECTIONS];
    char *names[NOCTURENC_MOST_VARIABLES]; /* null where the variable has no name */
};

struct row {
    unsigned kind;
    unsigned arg;
    unsigned end;
    unsigned from;
};

/* Reads the table in `file`, and names from the .names file beside it. Gives 1; or writes one line on standard error and gives 0. */
int table_load(struct table *table, const char *file);

void table_free(struct table *table);

/* Entry `index` of a section, which must be below the section's count. Not for ROWS. */
unsigned table_entry(const struct table *table, int section, size_t index);

/* The row of a label, which must be below the count of ROWS. */
struct row table_row(const struct table *table, size_t label);

#endif

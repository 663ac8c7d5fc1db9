/* What the browser prints: the formula as a tree, an order, a transition, and a refusal in words. */
#ifndef BROWSER_SHOW_H
#define BROWSER_SHOW_H

#include "table.h"

/* Colours from here on, or none. */
void show_colours(int wanted);

/* The line of an accepted table: V, N, S and the number of transitions. */
void show_accepted(uint64_t answer);

/* A refusal, and what the table has at its place. */
void show_refusal(const struct table *table, uint64_t answer);

/* What the tree marks beside the chosen labels. */
struct marks {
    const uint8_t *kept; /* a byte for each label, 1 for a kept leaf; null for no transition */
    size_t fault;        /* the label at fault, or NO_LABEL */
};
#define NO_LABEL SIZE_MAX

/* Every row, indented by depth. */
void show_tree(const struct table *table, struct marks marks);

/* Labels in one paragraph. */
void show_labels(const uint16_t *labels, size_t count);

/* Labels of candidates, a line each with what the row says. */
void show_assignments(const struct table *table, const uint16_t *labels, size_t count);

#endif

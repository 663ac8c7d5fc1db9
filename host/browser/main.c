/* The table browser: a worked client of nocturenc.h for the terminal.
 *
 *     browser FILE      the verdict, the formula as a tree, the order and the number of transitions
 *     browser FILE K    transition K: the tree with its kept leaves marked, and its assignments in order
 *
 * Names are shown where a file NAME.names stands beside NAME.table, with a line NUMBER NAME for each name number. Exit status: 0
 * shown; 1 the table or the number K is refused; 2 the input cannot be read or the arguments are wrong, said in one line on
 * standard error. */
#define _POSIX_C_SOURCE 200809L
#include "show.h"

#include <stdio.h>
#include <stdlib.h>
#include <unistd.h>

/* A number in decimal digits that a size_t holds. No sign, no space, and nothing is cut off. */
static int parse_number(const char *text, size_t *number)
{
    size_t sum = 0;
    if (*text == '\0')
        return 0;
    for (; *text != '\0'; text++) {
        if (*text < '0' || *text > '9')
            return 0;
        size_t digit = (size_t)(*text - '0');
        if (sum > (SIZE_MAX - digit) / 10)
            return 0;
        sum = 10 * sum + digit;
    }
    *number = sum;
    return 1;
}

/* The verdict, the tree, the order. */
static int show_whole(const struct table *table)
{
    static uint16_t order[NOCTURENC_MOST_CHOSEN];
    struct marks none = {NULL, NO_LABEL};
    uint64_t answer = nocturenc_judge(table->words, table->len);
    if (nocturenc_refusal(answer) != 0) {
        show_refusal(table, answer);
        return 1;
    }
    show_accepted(answer);
    show_tree(table, none);
    uint64_t filled = nocturenc_order(table->words, table->len, order, NOCTURENC_MOST_CHOSEN);
    fputs("order: ", stdout);
    show_labels(order, nocturenc_filled(filled));
    printf("transitions: %u, numbered from 0\n", nocturenc_transitions(answer));
    puts("+ chosen by the strategy");
    return 0;
}

/* Transition k: what it keeps, and its assignments. */
static int show_transition(const struct table *table, size_t k)
{
    static uint8_t kept[NOCTURENC_MOST_ROWS];
    static uint16_t labels[NOCTURENC_MOST_VARIABLES];
    struct marks marks = {kept, NO_LABEL};
    uint64_t judged = nocturenc_judge(table->words, table->len);
    if (nocturenc_refusal(judged) != 0) {
        show_refusal(table, judged);
        return 1;
    }
    uint64_t answer = nocturenc_transition(table->words, table->len, k, kept, NOCTURENC_MOST_ROWS);
    if (nocturenc_refusal(answer) != 0) {
        printf("refused %u at %u: %s: transition %zu is asked for, of %u\n", nocturenc_refusal(answer),
               (unsigned)nocturenc_place(answer), nocturenc_refusal_text(nocturenc_refusal(answer)), k,
               nocturenc_transitions(judged));
        return 1;
    }
    printf("transition %zu of %u, numbered from 0\n", k, nocturenc_transitions(judged));
    show_tree(table, marks);
    puts("assignments, in order:");
    uint64_t filled = nocturenc_assignments(table->words, table->len, k, labels, NOCTURENC_MOST_VARIABLES);
    show_assignments(table, labels, nocturenc_filled(filled));
    puts("+ chosen by the strategy   * kept   - not kept, and so FALSE in this transition");
    return 0;
}

/* Colours are for people at a terminal, unless NO_COLOR is set to anything but nothing. */
static int wants_colours(void)
{
    const char *no_colour = getenv("NO_COLOR");
    return isatty(STDOUT_FILENO) && (no_colour == NULL || *no_colour == '\0');
}

int main(int argc, char **argv)
{
    struct table table;
    size_t k = 0;
    if (argc < 2 || argc > 3) {
        fputs("usage: browser FILE [K]\n", stderr);
        return 2;
    }
    if (argc == 3 && !parse_number(argv[2], &k)) {
        fprintf(stderr, "browser: %s is no transition number: decimal digits, below 2 to the 64th\n", argv[2]);
        return 2;
    }
    int status = 2;
    show_colours(wants_colours());
    if (table_load(&table, argv[1]))
        status = argc == 3 ? show_transition(&table, k) : show_whole(&table);
    table_free(&table);
    if (fflush(stdout) != 0 || ferror(stdout)) {
        fputs("browser: standard output cannot be written\n", stderr);
        return 2;
    }
    return status;
}

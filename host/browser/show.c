/* The formula as a tree. Rows are shown as they stand in the table: no more is taken from a row than the sections found hold. */
#include "show.h"

#include <stdio.h>
#include <string.h>

static int colours;

void show_colours(int wanted)
{
    colours = wanted;
}

/* Starts a colour, or ends one. */
static void paint(const char *code)
{
    if (colours)
        printf("\033[%sm", code);
}
#define GOOD "32"
#define BAD "1;31"
#define FAINT "2"
#define PLAIN "0"

/* A variable: its name with its name number, or the number alone. */
static void put_variable(const struct table *table, size_t variable)
{
    if (variable >= table->section[VARIABLES].count)
        printf("no variable (%zu)", variable);
    else if (table->names[variable] != NULL)
        printf("%s(%u)", table->names[variable], table_entry(table, VARIABLES, variable));
    else
        printf("%u", table_entry(table, VARIABLES, variable));
}

/* The primed variables that a star reads. */
static void put_reads(const struct table *table, struct row star)
{
    for (size_t i = 0; i < star.arg; i++) {
        fputs(i == 0 ? ", reads " : " ", stdout);
        if (star.from + i >= table->section[READS].count) {
            fputs("beyond the reads", stdout);
            return;
        }
        put_variable(table, table_entry(table, READS, star.from + i));
        putchar('\'');
    }
}

/* What a row says. A star is called a test where it stands as an expression. */
static void put_row(const struct table *table, struct row row, int is_test)
{
    switch (row.kind) {
    case KIND_FALSE: fputs("FALSE", stdout); break;
    case KIND_STAR:
        fputs(is_test ? "test" : "star", stdout);
        put_reads(table, row);
        break;
    case KIND_CANDIDATE:
        put_variable(table, row.arg);
        fputs("' in star", stdout);
        break;
    case KIND_CONJUNCTION: printf("conjunction of %u", row.arg); break;
    case KIND_DISJUNCTION: printf("disjunction of %u", row.arg); break;
    case KIND_EXISTS: fputs("exists in star", stdout); break;
    case KIND_IF: fputs("IF star THEN ELSE", stdout); break;
    default: printf("no kind (%u)", row.kind);
    }
}

/* A star that belongs to the row before it: of a candidate, an exists or an IF. */
static int is_own_star(const struct table *table, size_t label)
{
    if (label == 0 || table_row(table, label).kind != KIND_STAR)
        return 0;
    unsigned kind = table_row(table, label - 1).kind;
    return kind == KIND_CANDIDATE || kind == KIND_EXISTS || kind == KIND_IF;
}

/* A leaf that a transition keeps or turns into FALSE. */
static int is_sliced(const struct table *table, size_t label)
{
    unsigned kind = table_row(table, label).kind;
    return kind == KIND_CANDIDATE || (kind == KIND_STAR && !is_own_star(table, label));
}

/* A byte for each row, 1 where the strategy names it. */
struct chosen {
    uint8_t row[NOCTURENC_MOST_ROWS];
};

static void find_chosen(const struct table *table, struct chosen *chosen)
{
    memset(chosen, 0, sizeof *chosen);
    for (size_t i = 0; i < table->section[STRATEGY].count; i++) {
        unsigned label = table_entry(table, STRATEGY, i);
        if (label < table->section[ROWS].count)
            chosen->row[label] = 1;
    }
}

static void put_line(const struct table *table, size_t label, size_t depth, int chosen, struct marks marks)
{
    int sliced = marks.kept != NULL && is_sliced(table, label);
    int kept = marks.kept != NULL && marks.kept[label] != 0;
    int fault = label == marks.fault;
    paint(fault ? BAD : kept ? GOOD : sliced ? FAINT : PLAIN);
    printf("%c %4zu %c%c  ", fault ? '>' : ' ', label, chosen ? '+' : ' ', kept ? '*' : sliced ? '-' : ' ');
    printf("%*s", depth > NOCTURENC_MOST_DEPTH ? 2 * NOCTURENC_MOST_DEPTH : (int)(2 * depth), "");
    put_row(table, table_row(table, label), !is_own_star(table, label));
    paint(PLAIN);
    putchar('\n');
}

void show_tree(const struct table *table, struct marks marks)
{
    static unsigned ends[NOCTURENC_MOST_ROWS]; /* of the rows whose subtree the label lies in, outermost first */
    static struct chosen chosen;
    size_t depth = 0;
    find_chosen(table, &chosen);
    for (size_t label = 0; label < table->section[ROWS].count; label++) {
        while (depth > 0 && ends[depth - 1] <= label)
            depth--;
        put_line(table, label, depth, chosen.row[label], marks);
        ends[depth++] = table_row(table, label).end;
    }
}

void show_labels(const uint16_t *labels, size_t count)
{
    for (size_t i = 0; i < count; i++)
        printf("%s%u", i == 0 ? "" : i % 20 == 0 ? "\n  " : " ", (unsigned)labels[i]);
    putchar('\n');
}

void show_assignments(const struct table *table, const uint16_t *labels, size_t count)
{
    for (size_t i = 0; i < count; i++) {
        size_t label = labels[i];
        if (label + 1 >= table->section[ROWS].count)
            continue;
        printf("  %4zu      ", label);
        put_row(table, table_row(table, label), 0);
        put_reads(table, table_row(table, label + 1));
        putchar('\n');
    }
}

void show_accepted(uint64_t answer)
{
    unsigned variables = nocturenc_variables(answer), rows = nocturenc_rows(answer), transitions = nocturenc_transitions(answer);
    paint(GOOD);
    fputs("accepted", stdout);
    paint(PLAIN);
    printf(": %u variable%s, %u row%s, %u chosen, %u transition%s\n", variables, variables == 1 ? "" : "s", rows, rows == 1 ? "" : "s",
           nocturenc_chosen(answer), transitions, transitions == 1 ? "" : "s");
}

/* The rows around the one at fault, word by word. */
static void put_broken_row(const struct table *table, size_t place)
{
    size_t from = place < 3 ? 0 : place - 3;
    printf("   label  kind   arg   end  from\n");
    for (size_t label = from; label < table->section[ROWS].count && label <= place + 3; label++) {
        struct row row = table_row(table, label);
        paint(label == place ? BAD : PLAIN);
        printf("%c %6zu %5u %5u %5u %5u  ", label == place ? '>' : ' ', label, row.kind, row.arg, row.end, row.from);
        put_row(table, row, !is_own_star(table, label));
        paint(PLAIN);
        putchar('\n');
    }
}

/* The row at fault, by itself: in a long tree its line is far away. */
static void put_row_at(const struct table *table, size_t label)
{
    if (label >= table->section[ROWS].count)
        return;
    struct row row = table_row(table, label);
    printf("  row %zu: ", label);
    put_row(table, row, !is_own_star(table, label));
    if (row.kind == KIND_CANDIDATE && label + 1 < table->section[ROWS].count)
        put_reads(table, table_row(table, label + 1));
    putchar('\n');
}

/* A variable with its candidates. */
static void put_candidates(const struct table *table, size_t variable)
{
    static struct chosen chosen;
    find_chosen(table, &chosen);
    printf("  variable %zu is ", variable);
    put_variable(table, variable);
    fputs("; its candidates, + where chosen:", stdout);
    size_t found = 0;
    for (size_t label = 0; label < table->section[ROWS].count; label++) {
        struct row row = table_row(table, label);
        if (row.kind == KIND_CANDIDATE && row.arg == variable) {
            printf(" %s%zu", chosen.row[label] ? "+" : "", label);
            found++;
        }
    }
    puts(found == 0 ? " none" : "");
}

/* A fault at one word of the table, or in the middle of a section. */
static void put_word(const struct table *table, unsigned number, size_t place)
{
    const struct limit *next = table->whole < SECTIONS ? &limits[table->whole] : NULL;
    if (number == NOCTURENC_ABSENT && next != NULL)
        printf("  the table has %zu words, and section %zu (%s) is not whole\n", place, table->whole + 1, next->name);
    if (place >= table->len)
        return;
    unsigned word = table->words[place];
    if (number == NOCTURENC_COUNT_OUT_OF_RANGE && next != NULL)
        printf("  word %zu, the count of section %zu (%s), is %u; allowed are %zu to %zu\n", place, table->whole + 1, next->name, word,
               next->least, next->most);
    if (number == NOCTURENC_WORDS_FOLLOW)
        printf("  word %zu is the first of %zu after the strategy\n", place, table->len - place);
    if (number == NOCTURENC_NAME_NOT_ABOVE && place > 0)
        printf("  word %zu, a name number, is %u after %u\n", place, word, (unsigned)table->words[place - 1]);
    if (number == NOCTURENC_READ_BEYOND)
        printf("  word %zu, a read, is %u; the variables are 0 to %zu\n", place, word, table->section[VARIABLES].count - 1);
}

static void put_strategy_entry(const struct table *table, size_t index)
{
    if (index >= table->section[STRATEGY].count)
        return;
    printf("  entry %zu of the strategy is %u", index, table_entry(table, STRATEGY, index));
    if (index > 0)
        printf(" after %u", table_entry(table, STRATEGY, index - 1));
    printf("; the labels are 0 to %zu\n", table->section[ROWS].count - 1);
}

void show_refusal(const struct table *table, uint64_t answer)
{
    unsigned number = nocturenc_refusal(answer);
    size_t place = nocturenc_place(answer);
    struct marks marks = {NULL, NO_LABEL};
    paint(BAD);
    printf("refused %u at %zu", number, place);
    paint(PLAIN);
    printf(": %s\n", nocturenc_refusal_text(number));
    switch (number) {
    case NOCTURENC_ROW_BROKEN: put_broken_row(table, place); return;
    case NOCTURENC_READS_LEFT: printf("  the rows take %zu of %zu reads\n", place, table->section[READS].count); break;
    case NOCTURENC_ENTRY_UNFIT: put_strategy_entry(table, place); break;
    case NOCTURENC_VARIABLE_MISSED:
    case NOCTURENC_VARIABLE_TWICE: put_candidates(table, place); break;
    case NOCTURENC_TOO_DEEP:
    case NOCTURENC_NO_CANDIDATE:
    case NOCTURENC_NO_ORDER:
        put_row_at(table, place);
        marks.fault = place;
        break;
    case NOCTURENC_WORDS_FOLLOW: put_word(table, number, place); break;
    case NOCTURENC_TOO_MANY: break;
    default: put_word(table, number, place); return;
    }
    show_tree(table, marks);
}

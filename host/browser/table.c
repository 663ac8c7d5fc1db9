/* Reading a table from a file, and finding its sections. Nothing here trusts a count: a section is noted only where it is wholly
 * there, and every reader of the table goes by the counts noted. */
#include "table.h"

#include <errno.h>
#include <stdio.h>
#include <stdlib.h>
#include <string.h>

const struct limit limits[SECTIONS] = {
    {"variables", 1, NOCTURENC_MOST_VARIABLES},
    {"reads", 0, NOCTURENC_MOST_READS},
    {"rows", 1, NOCTURENC_MOST_ROWS},
    {"strategy", 0, NOCTURENC_MOST_CHOSEN},
};

unsigned table_entry(const struct table *table, int section, size_t index)
{
    return table->words[table->section[section].at + index];
}

struct row table_row(const struct table *table, size_t label)
{
    const uint16_t *words = table->words + table->section[ROWS].at + 4 * label;
    struct row row = {words[0], words[1], words[2], words[3]};
    return row;
}

static void find_sections(struct table *table)
{
    size_t at = 0;
    table->whole = 0;
    for (int i = 0; i < SECTIONS && at < table->len; i++) {
        size_t count = table->words[at];
        size_t words = i == ROWS ? 4 * count : count;
        if (count < limits[i].least || count > limits[i].most || words > table->len - at - 1)
            return;
        table->section[i].at = at + 1;
        table->section[i].count = count;
        table->whole++;
        at += 1 + words;
    }
}

/* The words of the first `size` bytes of a file, low byte first. */
static int take_words(struct table *table, const char *file, const unsigned char *bytes, size_t size)
{
    if (size % 2 != 0) {
        fprintf(stderr, "browser: %s: refused %d at %zu: %s\n", file, NOCTURENC_ODD_BYTES, size / 2,
                nocturenc_refusal_text(NOCTURENC_ODD_BYTES));
        return 0;
    }
    table->len = size / 2;
    table->words = malloc(size);
    if (table->words == NULL) {
        fprintf(stderr, "browser: %s: no memory for its words\n", file);
        return 0;
    }
    for (size_t i = 0; i < table->len; i++)
        table->words[i] = (uint16_t)(bytes[2 * i] + 256u * bytes[2 * i + 1]);
    return 1;
}

/* Reads the first bytes of the file that can count. */
static int read_file(struct table *table, const char *file)
{
    static unsigned char bytes[NOCTURENC_MOST_BYTES];
    FILE *in = fopen(file, "rb");
    if (in == NULL) {
        fprintf(stderr, "browser: %s: cannot be opened: %s\n", file, strerror(errno));
        return 0;
    }
    errno = 0;
    size_t size = fread(bytes, 1, sizeof bytes, in);
    if (ferror(in)) {
        fprintf(stderr, "browser: %s: cannot be read: %s\n", file, strerror(errno));
        fclose(in);
        return 0;
    }
    fclose(in);
    if (size == 0) {
        fprintf(stderr, "browser: %s: is empty: refused %d at 0: %s\n", file, NOCTURENC_ABSENT,
                nocturenc_refusal_text(NOCTURENC_ABSENT));
        return 0;
    }
    return take_words(table, file, bytes, size);
}

/* The name of the .names file beside `file`: .table at its end gives way to .names, else .names is added. */
static char *names_file(const char *file)
{
    size_t len = strlen(file);
    if (len >= 6 && strcmp(file + len - 6, ".table") == 0)
        len -= 6;
    char *name = malloc(len + sizeof ".names");
    if (name != NULL) {
        memcpy(name, file, len);
        memcpy(name + len, ".names", sizeof ".names");
    }
    return name;
}

/* Gives the variable with that name number its name, of which only printable ASCII is kept. */
static void give_name(struct table *table, unsigned long number, const char *name)
{
    for (size_t v = 0; v < table->section[VARIABLES].count; v++) {
        if (table_entry(table, VARIABLES, v) != number || table->names[v] != NULL)
            continue;
        char *kept = malloc(strlen(name) + 1);
        if (kept == NULL)
            return;
        for (size_t i = 0; i <= strlen(name); i++)
            kept[i] = name[i] == '\0' || (name[i] > ' ' && name[i] <= '~') ? name[i] : '?';
        table->names[v] = kept;
    }
}

/* A line of a .names file is NUMBER NAME; an empty line and one that starts with # say nothing. Any other is named and left out. */
static void read_names(struct table *table, const char *file)
{
    FILE *in = fopen(file, "r");
    if (in == NULL)
        return;
    char line[512];
    for (unsigned long at = 1; fgets(line, sizeof line, in) != NULL; at++) {
        char *rest = line;
        unsigned long number = strtoul(line, &rest, 10);
        char *name = strtok(rest, " \t\r\n");
        if (rest == line && (name == NULL || name[0] == '#'))
            continue;
        if (rest == line || number > UINT16_MAX || name == NULL || strtok(NULL, " \t\r\n") != NULL)
            fprintf(stderr, "browser: %s: line %lu is not a number and a name, and is left out\n", file, at);
        else
            give_name(table, number, name);
    }
    fclose(in);
}

int table_load(struct table *table, const char *file)
{
    memset(table, 0, sizeof *table);
    if (!read_file(table, file))
        return 0;
    find_sections(table);
    char *names = names_file(file);
    if (names != NULL)
        read_names(table, names);
    free(names);
    return 1;
}

void table_free(struct table *table)
{
    for (size_t v = 0; v < NOCTURENC_MOST_VARIABLES; v++)
        free(table->names[v]);
    free(table->words);
}

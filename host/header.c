/* The header, used from C99 and, compiled a second time, from C++: every request, every function that takes an answer apart, tables at
 * the limits, null pointers with length 0, and the number and the text of every refusal. Prints the first line that fails; exit
 * status 0 where none does. */
#include "nocturenc.h"

#include <stdio.h>
#include <string.h>

/* Document 01's listing: x' in star, and (y' in a star that reads x, or y' in star). */
static const uint16_t listing[] = {
    2, 40, 300, 1, 0, 8, 3, 2, 8, 0, 2, 0, 3, 0, 1, 0, 3, 0, 4, 2, 8, 0, 2, 1, 6, 0, 1, 1, 6, 0, 2, 1, 8, 1, 1, 0, 8, 1, 3, 1, 4, 6,
};
#define LEN (sizeof listing / sizeof listing[0])

#define HOLDS(claim)                                             \
    do {                                                         \
        if (!(claim)) {                                          \
            printf("header: line %d: not so: %s\n", __LINE__, #claim); \
            return 1;                                            \
        }                                                        \
    } while (0)

static int requests(void)
{
    uint16_t words[5] = {7, 7, 7, 7, 7};
    uint8_t bytes[10] = {7, 7, 7, 7, 7, 7, 7, 7, 7, 7};
    const uint8_t kept[10] = {0, 1, 0, 0, 0, 0, 1, 0, 7, 7};
    uint64_t judged = nocturenc_judge(listing, LEN);
    HOLDS(nocturenc_refusal(judged) == NOCTURENC_ACCEPTED && nocturenc_place(judged) == 0);
    HOLDS(nocturenc_variables(judged) == 2 && nocturenc_rows(judged) == 8);
    HOLDS(nocturenc_chosen(judged) == 3 && nocturenc_transitions(judged) == 2);
    HOLDS(nocturenc_filled(nocturenc_order(listing, LEN, words, 5)) == 3);
    HOLDS(words[0] == 1 && words[1] == 4 && words[2] == 6 && words[3] == 7);
    HOLDS(nocturenc_filled(nocturenc_transition(listing, LEN, 1, bytes, 10)) == 8);
    HOLDS(memcmp(bytes, kept, sizeof kept) == 0);
    HOLDS(nocturenc_filled(nocturenc_assignments(listing, LEN, 1, words, 5)) == 2);
    HOLDS(words[0] == 1 && words[1] == 6 && words[2] == 6 && words[3] == 7);
    return 0;
}

static int refusals(void)
{
    uint16_t words[2] = {7, 7};
    uint64_t answer = nocturenc_judge(listing, LEN - 1);
    HOLDS(nocturenc_refusal(answer) == NOCTURENC_ABSENT && nocturenc_place(answer) == LEN - 1);
    HOLDS(nocturenc_variables(answer) == 0 && nocturenc_rows(answer) == 0);
    HOLDS(nocturenc_chosen(answer) == 0 && nocturenc_transitions(answer) == 0 && nocturenc_filled(answer) == 0);
    answer = nocturenc_order(listing, LEN, words, 2);
    HOLDS(nocturenc_refusal(answer) == NOCTURENC_OUT_TOO_SHORT && nocturenc_place(answer) == 3 && words[0] == 7);
    answer = nocturenc_assignments(listing, LEN, SIZE_MAX, words, 2);
    HOLDS(nocturenc_refusal(answer) == NOCTURENC_NO_SUCH_TRANSITION && nocturenc_place(answer) == 2 && words[0] == 7);
    return 0;
}

static int null_pointers(void)
{
    HOLDS(nocturenc_judge(NULL, 0) == (uint64_t)1 << 56);
    HOLDS(nocturenc_order(NULL, 0, NULL, 0) == (uint64_t)1 << 56);
    HOLDS(nocturenc_transition(NULL, 0, 0, NULL, 0) == (uint64_t)1 << 56);
    HOLDS(nocturenc_assignments(NULL, 0, 0, NULL, 0) == (uint64_t)1 << 56);
    HOLDS(nocturenc_refusal(nocturenc_order(listing, LEN, NULL, 0)) == NOCTURENC_OUT_TOO_SHORT);
    HOLDS(nocturenc_refusal(nocturenc_transition(listing, LEN, 0, NULL, 0)) == NOCTURENC_OUT_TOO_SHORT);
    HOLDS(nocturenc_refusal(nocturenc_assignments(listing, LEN, 0, NULL, 0)) == NOCTURENC_OUT_TOO_SHORT);
    return 0;
}

/* The part of an accepted judge request that has `bits` bits from bit `from` on: what bit `bit` of the answer gives it. */
static unsigned part(unsigned bit, unsigned from, unsigned bits)
{
    return bit >= from && bit < from + bits ? 1u << (bit - from) : 0;
}

/* Answers with one bit set, each bit in turn: it is found in its own part and in no other. */
static int single_bits(void)
{
    for (unsigned bit = 0; bit < 56; bit++) {
        uint64_t answer = (uint64_t)1 << bit;
        HOLDS(nocturenc_refusal(answer) == 0 && nocturenc_place(answer) == 0);
        HOLDS(nocturenc_transitions(answer) == part(bit, 0, 16));
        HOLDS(nocturenc_chosen(answer) == part(bit, 16, 13));
        HOLDS(nocturenc_rows(answer) == part(bit, 29, 13));
        HOLDS(nocturenc_variables(answer) == part(bit, 42, 11));
        HOLDS(nocturenc_filled(answer) == (size_t)1 << bit);
        uint64_t refused = answer | (uint64_t)18 << 56;
        HOLDS(nocturenc_refusal(refused) == 18 && nocturenc_place(refused) == part(bit, 0, 32));
        HOLDS(nocturenc_variables(refused) == 0 && nocturenc_rows(refused) == 0 && nocturenc_chosen(refused) == 0);
        HOLDS(nocturenc_transitions(refused) == 0 && nocturenc_filled(refused) == 0);
    }
    for (unsigned number = 1; number < 256; number++)
        HOLDS(nocturenc_refusal((uint64_t)number << 56 | 7) == number);
    return 0;
}

/* The most of each part, alone and all at once. */
static int most(void)
{
    const uint64_t v = (uint64_t)NOCTURENC_MOST_VARIABLES << 42, n = (uint64_t)NOCTURENC_MOST_ROWS << 29;
    const uint64_t s = (uint64_t)NOCTURENC_MOST_CHOSEN << 16, all = v | n | s | NOCTURENC_MOST_TRANSITIONS;
    HOLDS(nocturenc_variables(v) == 1024 && nocturenc_variables(all - v) == 0 && nocturenc_variables(all) == 1024);
    HOLDS(nocturenc_rows(n) == 4096 && nocturenc_rows(all - n) == 0 && nocturenc_rows(all) == 4096);
    HOLDS(nocturenc_chosen(s) == 4096 && nocturenc_chosen(all - s) == 0 && nocturenc_chosen(all) == 4096);
    HOLDS(nocturenc_transitions(all) == 65535 && nocturenc_transitions(v | n | s) == 0);
    HOLDS(nocturenc_filled(4096) == 4096);
    HOLDS(nocturenc_place((uint64_t)1 << 56 | UINT32_MAX) == UINT32_MAX);
    HOLDS(nocturenc_place((uint64_t)1 << 56 | 65536) == 65536);
    HOLDS(nocturenc_refusal(UINT64_MAX) == 255);
    return 0;
}

/* A table being written. */
static uint16_t table[NOCTURENC_MOST_WORDS + 1];
static size_t len;

static void put(size_t word)
{
    table[len++] = (uint16_t)word;
}

static void put_row(size_t kind, size_t arg, size_t end)
{
    put(kind);
    put(arg);
    put(end);
    put(0);
}

/* Chosen candidates of a variable, with their stars, from `label` on. Gives the label after them. */
static size_t put_candidates(size_t label, size_t count, size_t variable)
{
    for (size_t i = 0; i < count; i++, label += 2) {
        put_row(2, variable, label + 2);
        put_row(1, 0, label + 2);
    }
    return label;
}

/* The sections before the rows: V names, no reads, and the number of rows. */
static void put_start(size_t variables, size_t rows)
{
    len = 0;
    put(variables);
    for (size_t i = 0; i < variables; i++)
        put(i);
    put(0);
    put(rows);
}

/* Candidates of the variables 0 to 1,022 and a disjunction of 1,024 for the last: 4,096 rows, of which 2,047 can be chosen. The
 * strategy has the first `chosen` of them. */
static void write_largest(size_t chosen)
{
    put_start(1024, 4096);
    put_row(3, 1024, 4096);
    for (size_t v = 0; v < 1023; v++)
        put_candidates(1 + 2 * v, 1, v);
    put_row(4, 1024, 4096);
    put_candidates(2048, 1024, 1023);
    put(chosen);
    for (size_t i = 0; i < chosen; i++)
        put(i < 1023 ? 1 + 2 * i : 2 * i + 2);
}

/* Document 01's four disjunctions of 3, 5, 17 and 257 candidates, one variable each, all chosen: 65,535 transitions. */
static void write_most_transitions(void)
{
    const size_t sizes[4] = {3, 5, 17, 257}, firsts[4] = {2, 9, 20, 55};
    put_start(4, 569);
    put_row(3, 4, 569);
    for (size_t v = 0; v < 4; v++) {
        put_row(4, sizes[v], firsts[v] + 2 * sizes[v]);
        put_candidates(firsts[v], sizes[v], v);
    }
    put(282);
    for (size_t v = 0; v < 4; v++)
        for (size_t i = 0; i < sizes[v]; i++)
            put(firsts[v] + 2 * i);
}

static int largest(void)
{
    static uint16_t words[NOCTURENC_MOST_CHOSEN];
    static uint8_t bytes[NOCTURENC_MOST_ROWS];
    write_largest(2047);
    uint64_t judged = nocturenc_judge(table, len);
    HOLDS(nocturenc_refusal(judged) == NOCTURENC_ACCEPTED && nocturenc_variables(judged) == 1024);
    HOLDS(nocturenc_rows(judged) == 4096 && nocturenc_chosen(judged) == 2047 && nocturenc_transitions(judged) == 1024);
    HOLDS(nocturenc_filled(nocturenc_order(table, len, words, 2047)) == 2047);
    HOLDS(words[0] == 1 && words[1022] == 2045 && words[1023] == 2048 && words[2046] == 4094);
    HOLDS(nocturenc_filled(nocturenc_transition(table, len, 1023, bytes, 4096)) == 4096);
    HOLDS(bytes[1] == 1 && bytes[2045] == 1 && bytes[2048] == 0 && bytes[4092] == 0 && bytes[4094] == 1 && bytes[4095] == 0);
    HOLDS(nocturenc_filled(nocturenc_assignments(table, len, 1023, words, 1024)) == 1024);
    HOLDS(words[0] == 1 && words[1022] == 2045 && words[1023] == 4094);
    return 0;
}

/* Places that take more than a byte. No table is long enough for one that takes more than two. */
static int far_places(void)
{
    static uint16_t words[NOCTURENC_MOST_CHOSEN];
    static uint8_t bytes[NOCTURENC_MOST_ROWS];
    write_largest(2047);
    const size_t whole = len;
    HOLDS(whole == 19459);
    HOLDS(nocturenc_judge(table, whole - 1) == ((uint64_t)NOCTURENC_ABSENT << 56 | 19458));
    HOLDS(nocturenc_judge(table, whole + 1) == ((uint64_t)NOCTURENC_WORDS_FOLLOW << 56 | 19459));
    HOLDS(nocturenc_order(table, len, words, 2046) == ((uint64_t)NOCTURENC_OUT_TOO_SHORT << 56 | 2047));
    HOLDS(nocturenc_transition(table, len, 0, bytes, 4095) == ((uint64_t)NOCTURENC_OUT_TOO_SHORT << 56 | 4096));
    HOLDS(nocturenc_place(nocturenc_judge(table, whole - 1)) == 19458);
    write_largest(1023);
    uint64_t missed = nocturenc_judge(table, len);
    HOLDS(nocturenc_refusal(missed) == NOCTURENC_VARIABLE_MISSED && nocturenc_place(missed) == 1023);
    write_most_transitions();
    uint64_t judged = nocturenc_judge(table, len), beyond = nocturenc_transition(table, len, 65535, bytes, 4096);
    HOLDS(nocturenc_transitions(judged) == 65535 && nocturenc_variables(judged) == 4);
    HOLDS(nocturenc_rows(judged) == 569 && nocturenc_chosen(judged) == 282);
    HOLDS(nocturenc_refusal(beyond) == NOCTURENC_NO_SUCH_TRANSITION && nocturenc_place(beyond) == 65535);
    HOLDS(nocturenc_filled(nocturenc_assignments(table, len, 65534, words, 4)) == 4);
    HOLDS(words[0] == 6 && words[1] == 17 && words[2] == 52 && words[3] == 567);
    return 0;
}

/* Document 01's table of refusals: a number, when it is given, the header's name for it and the header's text. */
static const struct {
    unsigned number;
    const char *given;
    unsigned name;
    const char *text;
} numbers[] = {
    {0, "it is none", NOCTURENC_ACCEPTED, "accepted"},
    {1, "a count or the rest of its section is absent", NOCTURENC_ABSENT, "the table ends before its last section is whole"},
    {2, "a count is outside its range", NOCTURENC_COUNT_OUT_OF_RANGE, "a count is outside its range"},
    {4, "a name is not above the one before", NOCTURENC_NAME_NOT_ABOVE, "a name number is not above the one before it"},
    {5, "a read is V or more", NOCTURENC_READ_BEYOND, "a read names no variable of the table"},
    {6, "a row breaks its rules above (depth apart)", NOCTURENC_ROW_BROKEN, "a row breaks the rules for rows"},
    {7, "after sound rows, reads are left over", NOCTURENC_READS_LEFT, "the rows take fewer reads than the table has"},
    {8, "a row is deeper than 64", NOCTURENC_TOO_DEEP, "a row is deeper than 64"},
    {9, "a strategy entry is N or more, or not above the one before", NOCTURENC_ENTRY_UNFIT,
     "a strategy entry names no row or is not above the one before it"},
    {3, "words follow section 4", NOCTURENC_WORDS_FOLLOW, "words follow the strategy"},
    {10, "a chosen label is no candidate", NOCTURENC_NO_CANDIDATE, "a chosen label is no candidate"},
    {11, "a variable has no chosen label on some branch", NOCTURENC_VARIABLE_MISSED, "a variable has no chosen label on some branch"},
    {12, "a variable has two or more on some branch", NOCTURENC_VARIABLE_TWICE,
     "a variable has two or more chosen labels on some branch"},
    {13, "no order exists", NOCTURENC_NO_ORDER, "no order exists: chosen labels come before each other in a cycle"},
    {14, "more than 65,535 transitions", NOCTURENC_TOO_MANY, "there are more than 65,535 transitions"},
    {15, "number k is not below the count", NOCTURENC_NO_SUCH_TRANSITION, "there is no transition of that number"},
    {18, "transition k has not V chosen labels", NOCTURENC_UNEVEN, "the transition has not one chosen label for each variable"},
    {16, "the lent slice is too short", NOCTURENC_OUT_TOO_SHORT, "the space lent for the answer is too short"},
    {17, "the lister was given an odd number of bytes", NOCTURENC_ODD_BYTES, "the number of bytes is odd, and a word has two"},
};
#define NUMBERS (sizeof numbers / sizeof numbers[0])

static int texts(void)
{
    const char *unknown = "a refusal number that this header does not know";
    HOLDS(NUMBERS == 19);
    for (size_t i = 0; i < NUMBERS; i++) {
        const char *said = nocturenc_refusal_text(numbers[i].number);
        if (numbers[i].name != numbers[i].number || strcmp(said, numbers[i].text) != 0) {
            printf("header: %u, given exactly when %s, is named for %u and says: %s\n", numbers[i].number, numbers[i].given,
                   numbers[i].name, said);
            return 1;
        }
    }
    for (unsigned number = 19; number < 256; number++)
        HOLDS(strcmp(nocturenc_refusal_text(number), unknown) == 0);
    return 0;
}

/* The limits are those of document 01. */
static int limits(void)
{
    HOLDS(NOCTURENC_MOST_VARIABLES == 1024 && NOCTURENC_MOST_READS == 8192 && NOCTURENC_MOST_ROWS == 4096);
    HOLDS(NOCTURENC_MOST_CHOSEN == 4096 && NOCTURENC_MOST_DEPTH == 64 && NOCTURENC_MOST_WORDS == 29700);
    HOLDS(NOCTURENC_MOST_TRANSITIONS == 65535 && NOCTURENC_MOST_BYTES == 65536);
    return 0;
}

int main(void)
{
    return requests() != 0 || refusals() != 0 || null_pointers() != 0 || single_bits() != 0 || most() != 0 || largest() != 0 ||
           far_places() != 0 || texts() != 0 || limits() != 0;
}

/* Nocturenc for C and C++: four requests about a formula table, each answered in one 64-bit number.
 *
 * A formula table is the next-state formula of a TLA+ specification with a proposed assignment strategy, written as 16-bit
 * words. Nocturenc judges the proposal, reports an order in which the chosen assignments can be carried out, and cuts the formula
 * into symbolic transitions (Kukovec, Tran, Konnov, "Extracting Symbolic Transitions from TLA+ Specifications").
 *
 * THE TABLE. Four sections in this order, each a count and then its entries:
 *
 *     variables   V from 1 to 1,024, then V name numbers, strictly ascending. A variable is its position, 0 to V-1.
 *     reads       R from 0 to 8,192, then R variable positions, which the stars below take in turn: each reads that variable primed.
 *     rows        N from 1 to 4,096, then N rows of four words: kind, arg, end, from. A row's label is its position, 0 to N-1.
 *     strategy    S from 0 to 4,096, then S labels, strictly ascending: the assignments chosen.
 *
 * Rows stand in preorder. "end" is one more than the last label of the row's subtree, "from" the number of reads that the stars
 * before this row take. Kinds:
 *
 *     0  FALSE                   arg 0
 *     1  star: an expression     arg is the number of primed variables it reads; its entries of the reads start at "from"
 *     2  candidate: v' in star   arg is the variable v; its one child is the star
 *     3  conjunction             arg is the number of children, 1 or more
 *     4  disjunction             arg is the number of children, 1 or more
 *     5  exists x in star: e     arg 0; children: the star, then e
 *     6  IF star THEN e ELSE e   arg 0; children: the star, then the two arms
 *
 * A star that stands where an expression may stand is a test. The leaves are FALSE, the tests and the candidates.
 *
 * WHAT IS JUDGED. A branch is what is left of the leaves when each disjunction is taken as one of its children and each IF as one
 * of its arms. A candidate reads what its own star reads and what the stars of every exists and IF around it read. A chosen label
 * comes before another, or before itself, if some branch holds both and the other reads its variable. The chosen labels are a
 * strategy if each branch has exactly one of them for each variable, and all of them can be put into one order that respects
 * "before". There is a transition for each different set of chosen labels that a branch has; it keeps the leaves of every branch
 * with that set. Transitions are numbered from 0 by these sets, the first differing label deciding, the lower first.
 *
 * Words are numbers of the host. A file has each word as two bytes, low byte first, so its reader takes
 * bytes[2 * i] + 256 * bytes[2 * i + 1].
 *
 * WHAT THE CALLER OWES. Nothing checks these, and nothing is promised where one is broken:
 *
 *   - words points to words_len words that may be read and that nothing changes during the call; out points to out_len words
 *     or bytes that may be read and written and that nothing else uses during the call.
 *   - Both are aligned as their type asks (16-bit words at even addresses), and out does not overlap words.
 *   - Where a length is 0, nothing is read or written through its pointer, and the pointer may be null.
 *   - NOCTURENC_STACK_BYTES bytes of stack are left at the call.
 *
 * Nothing else is asked: every table, however damaged, every k and every length gets an answer, and each call returns. No call
 * keeps anything for a later one, so calls may run in several threads at once, also on one table.
 *
 * WHAT A CALL WRITES. A refusal writes nothing. Otherwise the first words or bytes of out, as many as the answer says, are
 * filled, and those beyond them stay as they were. The words of the table are never written.
 *
 * THE ANSWER. Bits 56 to 63 are the refusal number, 0 for accepted.
 *
 *     refused                bits 0 to 31: the place. Bits 32 to 47 are kept for a second number. The rest is 0.
 *     accepted, judge        bits 0 to 15: the number of transitions; 16 to 28: S; 29 to 41: N; 42 to 52: V. The rest is 0.
 *     accepted, the others   the number of words or bytes filled.
 *
 * The functions at the end of this file take an answer apart.
 *
 * LINKING. The archive libnocturenc.a is for Linux on x86-64. It needs memcpy and memset from the C library and nothing else.
 */
#ifndef NOCTURENC_H
#define NOCTURENC_H

#include <stddef.h>
#include <stdint.h>

#ifdef __cplusplus
extern "C" {
#endif

/* The limits of a table. A table within them has at most NOCTURENC_MOST_WORDS words. */
#define NOCTURENC_MOST_VARIABLES 1024
#define NOCTURENC_MOST_READS 8192
#define NOCTURENC_MOST_ROWS 4096
#define NOCTURENC_MOST_CHOSEN 4096
#define NOCTURENC_MOST_DEPTH 64
#define NOCTURENC_MOST_WORDS 29700
#define NOCTURENC_MOST_TRANSITIONS 65535

/* Of a file only this many bytes count, the first ones: no table is as long, so no answer depends on the rest. */
#define NOCTURENC_MOST_BYTES 65536

/* Stack that a call may use. No proof bounds the stack, so this is measured: host/stack.rs puts every request about the deepest,
 * largest and hardest tables known to a thread whose stack is filled with a pattern, and sees how far down the pattern is gone.
 * The most was 86,607 bytes. The gate measures again and fails where twice the most is above this figure. It is for the archive
 * that crates/nocturenc_c is built into; what a thread needs for itself comes on top. */
#define NOCTURENC_STACK_BYTES 196608

/* The refusal numbers: when each is given, and what its place is. The answer is the first check that fails, in this order: section
 * by section its count and presence (1, 2) and its contents (4; 5; 6, 7, 8; 9), then 3, 10 to 14, 15, 18, 16. */
enum {
    NOCTURENC_ACCEPTED = 0,
    /* Given by every request. */
    NOCTURENC_ABSENT = 1,             /* a count or the rest of its section is absent; place: the number of words present */
    NOCTURENC_COUNT_OUT_OF_RANGE = 2, /* a count is outside its range; place: the position of the count word */
    NOCTURENC_WORDS_FOLLOW = 3,       /* words follow the strategy; place: the position of the first of them */
    NOCTURENC_NAME_NOT_ABOVE = 4,     /* a name number is not above the one before; place: the position of that word */
    NOCTURENC_READ_BEYOND = 5,        /* a read is V or more; place: the position of that word */
    NOCTURENC_ROW_BROKEN = 6,         /* a row breaks its rules, depth apart; place: the lowest such label */
    NOCTURENC_READS_LEFT = 7,         /* the rows are sound and reads are left over; place: the number of reads taken */
    NOCTURENC_TOO_DEEP = 8,           /* a row is deeper than 64, row 0 being at depth 1; place: the lowest such label */
    NOCTURENC_ENTRY_UNFIT = 9,        /* a strategy entry is N or more, or not above the one before; place: its index, from 0 */
    NOCTURENC_NO_CANDIDATE = 10,      /* a chosen label is no candidate; place: the lowest such label */
    NOCTURENC_VARIABLE_MISSED = 11,   /* a variable has no chosen label on some branch; place: the lowest such variable */
    NOCTURENC_VARIABLE_TWICE = 12,    /* a variable has two or more chosen labels on some branch; place: the lowest such variable */
    NOCTURENC_NO_ORDER = 13,          /* no order exists; place: the lowest label on a cycle of "before" */
    NOCTURENC_TOO_MANY = 14,          /* there are more than 65,535 transitions; place: 0 */
    /* Given by transition and assignments. */
    NOCTURENC_NO_SUCH_TRANSITION = 15, /* k is not below the number of transitions; place: that number */
    NOCTURENC_UNEVEN = 18,             /* transition k has not V chosen labels; place: k. No accepted table gives it */
    /* Given by order, transition and assignments. */
    NOCTURENC_OUT_TOO_SHORT = 16, /* out_len is too small; place: the length needed */
    /* Given by none of these functions: the lister's, and for whoever reads a file. */
    NOCTURENC_ODD_BYTES = 17 /* the number of bytes read is odd; place: the number of whole words */
};

/* Judges the table and writes nothing. Accepted: V, N, S and the number of transitions. */
uint64_t nocturenc_judge(const uint16_t *words, size_t words_len);

/* Judges the table and fills the first S words of out with the chosen labels in the reported order: at each step the lowest label
 * left that has no unplaced label before it. Accepted: S. A length of NOCTURENC_MOST_CHOSEN is always enough. */
uint64_t nocturenc_order(const uint16_t *words, size_t words_len, uint16_t *out, size_t out_len);

/* Judges the table and fills the first N bytes of out, one for each label: 1 for a leaf that transition k keeps, else 0.
 * Transition k is the formula with FALSE for every test and candidate that is not kept. Accepted: N. A length of
 * NOCTURENC_MOST_ROWS is always enough. */
uint64_t nocturenc_transition(const uint16_t *words, size_t words_len, size_t k, uint8_t *out, size_t out_len);

/* Judges the table and fills the first V words of out with the chosen labels of transition k in the reported order, one for each
 * variable. Accepted: V. A length of NOCTURENC_MOST_VARIABLES is always enough. */
uint64_t nocturenc_assignments(const uint16_t *words, size_t words_len, size_t k, uint16_t *out, size_t out_len);

/* The refusal number of an answer, 0 for accepted. */
static inline unsigned nocturenc_refusal(uint64_t answer)
{
    return (unsigned)(answer >> 56);
}

/* The place of a refusal; 0 where the answer is no refusal. */
static inline uint32_t nocturenc_place(uint64_t answer)
{
    return nocturenc_refusal(answer) == 0 ? 0 : (uint32_t)(answer & UINT32_MAX);
}

/* V, of an accepted judge request; 0 where it is refused, as with the next three. */
static inline unsigned nocturenc_variables(uint64_t answer)
{
    return nocturenc_refusal(answer) == 0 ? (unsigned)(answer >> 42 & 0x7FF) : 0;
}

/* N, of an accepted judge request. */
static inline unsigned nocturenc_rows(uint64_t answer)
{
    return nocturenc_refusal(answer) == 0 ? (unsigned)(answer >> 29 & 0x1FFF) : 0;
}

/* S, of an accepted judge request. */
static inline unsigned nocturenc_chosen(uint64_t answer)
{
    return nocturenc_refusal(answer) == 0 ? (unsigned)(answer >> 16 & 0x1FFF) : 0;
}

/* The number of transitions, of an accepted judge request. */
static inline unsigned nocturenc_transitions(uint64_t answer)
{
    return nocturenc_refusal(answer) == 0 ? (unsigned)(answer & 0xFFFF) : 0;
}

/* How many words or bytes an order, transition or assignments request has filled; 0 where it is refused. */
static inline size_t nocturenc_filled(uint64_t answer)
{
    return nocturenc_refusal(answer) == 0 ? (size_t)answer : 0;
}

/* A refusal number in words, without its place. */
static inline const char *nocturenc_refusal_text(unsigned number)
{
    switch (number) {
    case NOCTURENC_ACCEPTED: return "accepted";
    case NOCTURENC_ABSENT: return "the table ends before its last section is whole";
    case NOCTURENC_COUNT_OUT_OF_RANGE: return "a count is outside its range";
    case NOCTURENC_WORDS_FOLLOW: return "words follow the strategy";
    case NOCTURENC_NAME_NOT_ABOVE: return "a name number is not above the one before it";
    case NOCTURENC_READ_BEYOND: return "a read names no variable of the table";
    case NOCTURENC_ROW_BROKEN: return "a row breaks the rules for rows";
    case NOCTURENC_READS_LEFT: return "the rows take fewer reads than the table has";
    case NOCTURENC_TOO_DEEP: return "a row is deeper than 64";
    case NOCTURENC_ENTRY_UNFIT: return "a strategy entry names no row or is not above the one before it";
    case NOCTURENC_NO_CANDIDATE: return "a chosen label is no candidate";
    case NOCTURENC_VARIABLE_MISSED: return "a variable has no chosen label on some branch";
    case NOCTURENC_VARIABLE_TWICE: return "a variable has two or more chosen labels on some branch";
    case NOCTURENC_NO_ORDER: return "no order exists: chosen labels come before each other in a cycle";
    case NOCTURENC_TOO_MANY: return "there are more than 65,535 transitions";
    case NOCTURENC_NO_SUCH_TRANSITION: return "there is no transition of that number";
    case NOCTURENC_OUT_TOO_SHORT: return "the space lent for the answer is too short";
    case NOCTURENC_ODD_BYTES: return "the number of bytes is odd, and a word has two";
    case NOCTURENC_UNEVEN: return "the transition has not one chosen label for each variable";
    default: return "a refusal number that this header does not know";
    }
}

#ifdef __cplusplus
}
#endif

#endif

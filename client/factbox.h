/* The fact box's calls for a program in C (C99 or newer) or C++ (C++98 or newer).
 *
 * A table is bytes: one line of 16 bytes a fact, three fields of five columns (subject, predicate, object: decimal numbers,
 * right-justified, spaces before them, no leading zero), then byte 10. Lines ascend strictly by subject, then predicate,
 * then object. At most 1,024 lines; the empty table is a table.
 *
 *   1 subclass, 2 subproperty, 3 domain, 4 range, 5 type      the vocabulary: predicates only
 *   6 to 39999                                                 names: subject, predicate or object
 *   40000 to 59999                                             literals: subject or object, where the predicate allows it
 *   60000 to 65535                                             blank nodes: a gap in a question; refused anywhere else
 *
 * What may stand beside a predicate, in a table as in a question or a derivation:
 *
 *   predicate                                    subject             object
 *   subclass, subproperty, domain, range         a name              a name
 *   type                                         a name or literal   a name
 *   a name                                       a name or literal   a name or literal
 *
 * A fact follows from a table if the table has it or if one of six rules gives it, from facts that follow. A rule has two
 * premises, in this order, and one result; all three must be facts as above. In the rules sc stands for predicate 1
 * (subclass), sp for 2 (subproperty), dom for 3 (domain), range for 4, type for 5; A, B, C, X, Y for any number.
 *
 *   1. (A sp B), (B sp C) give (A sp C)        if A is a subproperty of B, and B one of C, then A is one of C
 *   2. (A sp B), (X A Y) give (X B Y)          if A is a subproperty of B, what is said with A holds with B
 *   3. (A sc B), (B sc C) give (A sc C)        if A is a subclass of B, and B one of C, then A is one of C
 *   4. (A sc B), (X type A) give (X type B)    if A is a subclass of B, what is of type A is of type B
 *   5. (A dom B), (X A Y) give (X type B)      if B is a domain of A, the subject of a fact with A is of type B
 *   6. (A range B), (X A Y) give (Y type B)    if B is a range of A, the object of a fact with A is of type B
 *
 * A derivation shows that a fact follows. It is bytes: 1 to 2,047 lines of 31 bytes, six fields of five columns as above and
 * byte 10. The last line has the fact itself. The fields of a line are:
 *
 *   rule             0: this is a table fact; 1 to 6: this rule gives it
 *   first premise    the line that has the rule's first premise: its number, counted from 1, below this line's; 0 with rule 0
 *   second premise   the same for the second premise; it may be the same line
 *   subject          of this line's fact
 *   predicate
 *   object
 *
 * A question may have a gap: one blank node, as subject or object. (FACTBOX_GAP 5 12) asks whether some X is of type 12. Any
 * of 60000 to 65535 asks the same; the number has no meaning. A filling is a name or a literal put in the gap's place, if
 * it may stand there by the list above.
 * - Yes: with some filling the triple follows, and it names one that needs as few table facts as any; where several need
 *   equally few, one of them. That number is the count, and the derivation ends in the triple with this filling.
 * - Long: with some filling the triple follows, but with each it needs more table facts than allowed. The count is the
 *   fewest; no filling is named.
 * - No: with no filling does it follow.
 * Further fillings can't be asked for; whether a certain one makes the triple follow is a question without a gap.
 *
 * Over the table "   10   13   20\n   11    1   12\n   13    2   14\n   14    3   11\n":
 *
 *   uint8_t output[FACTBOX_DERIVATION_LINE * (2 * 4 - 1)];     // factbox_output_size(4)
 *   uint64_t r = factbox_question(table, 64, FACTBOX_GAP, 5, 12, 4, output, sizeof output);
 *   if (factbox_number(r) == FACTBOX_YES) {                    // with count 4
 *       unsigned x = factbox_filling(r);                       // 10: it is of type 12
 *       size_t used = FACTBOX_DERIVATION_LINE * (2 * (size_t)factbox_count(r) - 1);
 *       r = factbox_check(table, 64, x, 5, 12, output, used);  // FACTBOX_ACCEPTED, count 4
 *   }
 *
 * A table can be made from N-Triples, W3C's RDF 1.1 form, as factbox_import takes them. The text has lines, which end with byte
 * 10; the last may lack it. A line is blank (spaces and tabs), or has one statement, and then perhaps a comment from # on:
 *
 *   SUBJECT PREDICATE OBJECT .
 *
 *   subject      an IRI in < >
 *   predicate    an IRI in < >
 *   object       an IRI in < >, or a literal: text in " ", behind it perhaps a language tag, as @en, or a datatype, as ^^<IRI>
 *
 * A language tag is @ and letters, then perhaps parts of letters and digits, each behind a hyphen: "x"@en, "x"@en-GB and "x"@en-1
 * pass; "x"@e1, "x"@1 and "x"@en- get 13. Letters are a to z and A to Z.
 *
 * Spaces and tabs, also none, may stand before, between and behind these and the full stop, but not between a literal's parts,
 * nor in its tag or datatype. An IRI has no byte up to 32 and none of < > " { } | ^ ` \; it may be relative or empty. A literal's text has
 * any bytes but " \ 10 and 13, a comment any but 10 and 13. So there are no escapes, and byte 13 stands nowhere. Bytes above 127
 * pass unread in IRIs, texts, labels and comments, and nowhere else. A blank node as subject or object gets a refusal of its own: it
 * is _: and a label of letters, digits, _ : - . and bytes above 127, with neither - nor . first and no . last.
 *
 * Every different token gets a number, in order of first appearance, line by line, subject, predicate, object: IRIs 6, 7, 8 and
 * so on, literals 40000, 40001 and so on; five IRIs are the vocabulary:
 *
 *   1   <http://www.w3.org/2000/01/rdf-schema#subClassOf>
 *   2   <http://www.w3.org/2000/01/rdf-schema#subPropertyOf>
 *   3   <http://www.w3.org/2000/01/rdf-schema#domain>
 *   4   <http://www.w3.org/2000/01/rdf-schema#range>
 *   5   <http://www.w3.org/1999/02/22-rdf-syntax-ns#type>
 *
 * A token is its bytes, from < to > or from the first quote to the end of tag or datatype: "a", "a"@en and "a"@EN are three.
 *
 *   uint8_t table[FACTBOX_TABLE_MAX];
 *   uint64_t r = factbox_import(text, text_len, table, sizeof table);
 *   size_t table_len = FACTBOX_TABLE_LINE * (size_t)factbox_count(r);  // where factbox_number(r) == FACTBOX_DONE
 *
 * For every call:
 * - It ends, whatever it is given, and it needs no test of its input beforehand: what is wrong gets a refusal.
 * - The result has four numbers: number, place, count, filling (factbox_number, factbox_place, factbox_count,
 *   factbox_filling). The filling is 0 but for a yes to a question with a gap.
 * - A refusal (1 to 15) has count 0 and changes no lent memory.
 * - What is done is written from the front of the lent memory; what lies behind it keeps its value.
 * - A pointer may be NULL where its length is 0. Bytes may lie at any address; a row must be aligned for uint32_t.
 * - `output`, `row` and `table` that are written must not overlap what the same call reads: no overlap is tested for.
 * - No call keeps a pointer, allocates, or has memory of its own between calls, so calls may run at the same time as
 *   long as none writes memory that another reads or writes. A call takes at most FACTBOX_STACK_MAX bytes of stack.
 * - The library needs memcpy, memmove and memset and nothing else.
 */
#ifndef FACTBOX_H
#define FACTBOX_H

#include <stddef.h>
#include <stdint.h>

#ifdef __cplusplus
extern "C" {
#endif

/* The numbers. Where no place is named, it is 0. A line is counted from 1. */
enum {
    FACTBOX_DONE = 0,       /* reading, writing or import is done; count: the table's facts */
    FACTBOX_SIZE = 1,       /* table not a multiple of 16 bytes, or above 16,384; row not a multiple of 3 numbers, or above 3,072 */
    FACTBOX_COLUMN = 2,     /* a field or the line end is not as laid out; place: the line */
    FACTBOX_TERM = 3,       /* a number is 0 or above 65535; place: the table's line, the row's fact, or 0 for the triple put */
    FACTBOX_BLANK = 4,      /* a number is 60000 to 65535 in a table, a row or the triple of a check, or as predicate of a question;
                             * or a question has two gaps; place: the table's line, the row's fact, or 0 for the triple put */
    FACTBOX_PART = 5,       /* vocabulary as subject or object, or a literal as predicate;
                             * place: the table's line, the row's fact, the import's line, or 0 for the triple put */
    FACTBOX_ORDER = 6,      /* a fact is not above the one before it; place: the table's line or the row's fact */
    FACTBOX_ALLOWANCE = 7,  /* the allowance is above 1,024 */
    FACTBOX_SHORT = 8,      /* the lent memory is too short */
    FACTBOX_FORM = 9,       /* a derivation of 0 bytes, not a multiple of 31, or above 63,457; or, with its line as place, a badly laid out line */
    FACTBOX_STEP = 10,      /* a derivation line is neither a table line nor a rule's result (also one whose numbers may not stand so:
                             * 3, 4, 5 and 12 are for the table, a row to write and the triple put); place: the first such line */
    FACTBOX_END = 11,       /* the last line is not the triple put; place: the last line */
    FACTBOX_CLASS = 12,     /* a literal as subject or object of subclass, subproperty, domain or range, or as object of type;
                             * tried after 5 and before 6; place: the table's line, the row's fact, the import's line, or 0 for the
                             * triple put */
    FACTBOX_STATEMENT = 13, /* import: a line that is not as above, with the line as place; or a text above 65,536 bytes */
    FACTBOX_UNKNOWN = 14,   /* import: a blank node as subject or object, on a line that is sound otherwise; place: the line */
    FACTBOX_CROWD = 15,     /* import: more than 1,024 different facts */
    FACTBOX_YES = 90,       /* the triple follows, from no more table facts than allowed; count: the fewest it follows from;
                             * filling: what fills the gap, 0 without one */
    FACTBOX_NO = 91,        /* the triple does not follow; with a gap, it follows with no filling; count: 0 */
    FACTBOX_LONG = 92,      /* the triple follows, but needs more table facts than allowed; with a gap, with every filling; count: the fewest */
    FACTBOX_ACCEPTED = 93   /* the derivation is accepted; count: its table lines */
};

/* A gap in a question. Any number from here to 65535 is the same gap. */
enum { FACTBOX_GAP = 60000 };

/* Sizes. */
enum {
    FACTBOX_FACTS_MAX = 1024,           /* facts of a table, and the largest allowance */
    FACTBOX_TABLE_LINE = 16,            /* bytes */
    FACTBOX_TABLE_MAX = 16384,          /* bytes */
    FACTBOX_ROW_MAX = 3072,             /* numbers */
    FACTBOX_DERIVATION_LINE = 31,       /* bytes */
    FACTBOX_DERIVATION_LINES_MAX = 2047,
    FACTBOX_DERIVATION_MAX = 63457,     /* bytes */
    FACTBOX_IMPORT_MAX = 65536,         /* bytes of a text to import */
    FACTBOX_STACK_MAX = 65536           /* bytes: no call takes more */
};

/* Stack as measured on x86-64 (test_stack.c), in bytes, on full tables: factbox_question 26,104, factbox_import 33,280,
 * factbox_check 12,808, factbox_read 12,504, factbox_write 168. Where the dynamic linker looks up memcpy, memmove or memset
 * at its first use, it takes some 3,100 bytes on top of the call that needs it. */

/* Whether (subject predicate object) follows from the table, from how few of its facts, and a derivation with that many.
 * Subject or object may be a gap: then the count is the fewest over all fillings, and YES names a filling that has this count.
 * `limit` is the allowance: how many table facts it may take, 0 to 1,024. `output` has at least factbox_output_size(limit)
 * bytes. YES writes 2 * count - 1 lines of 31 bytes; nothing else writes.
 * Tried in this order: the table (1; then its lines, each for 2, 3, 4, 5, 12, 6); the triple, for 3 in all its terms, then 4
 * (a blank node as predicate, or two blank nodes, equal or not), then 5 and then 12 in the terms that are no gap; 7; 8. */
uint64_t factbox_question(const uint8_t *table, size_t table_len,
                          uint32_t subject, uint32_t predicate, uint32_t object,
                          uint32_t limit, uint8_t *output, size_t output_len);

/* Whether the derivation is one of (subject predicate object) from the table. Unused lines and any sound order are accepted.
 * The count has all table lines, used or not; a fact that stands on two lines counts twice. It takes no gap: for a question
 * that had one, put the triple with its filling.
 * Tried in this order: the table, the triple (3; 4, for any blank node; 5; 12), 9 over all lines, 10, 11. */
uint64_t factbox_check(const uint8_t *table, size_t table_len,
                       uint32_t subject, uint32_t predicate, uint32_t object,
                       const uint8_t *derivation, size_t derivation_len);

/* Reads the table into a row of three numbers a fact. `row_len` is in numbers.
 * Tried in this order: the table, 8. */
uint64_t factbox_read(const uint8_t *table, size_t table_len, uint32_t *row, size_t row_len);

/* Writes a row of three numbers a fact as a table. `row_len` is in numbers. The place of a refusal is the fact's number.
 * Tried in this order: 1; then the facts, each for 3, 4, 5, 12, 6; 8. */
uint64_t factbox_write(const uint32_t *row, size_t row_len, uint8_t *output, size_t output_len);

/* Makes a table of a text in N-Triples, as above: the facts of its statements under their numbers, sorted, equal ones once, and
 * no others. `table` has at least 16 bytes a fact; FACTBOX_TABLE_MAX bytes, 16,384, are enough for any text.
 * Tried in this order: 13 for the text's size (place 0); the lines, each for 13, then 14; then the statements, each for 5
 * (vocabulary as subject or object), then 12, repeats too; 15; 8. A line is counted from 1, blank ones and comments too. */
uint64_t factbox_import(const uint8_t *text, size_t text_len, uint8_t *table, size_t table_len);

/* The parts of a result: bits 0-7 number, 8-31 place, 32-47 count, 48-63 filling. */
static inline unsigned factbox_number(uint64_t result) { return result & 0xff; }
static inline unsigned factbox_place(uint64_t result) { return result >> 8 & 0xffffff; }
static inline unsigned factbox_count(uint64_t result) { return result >> 32 & 0xffff; }

/* What fills the gap, after a YES to a question that has one: a term, 6 to 59999. After anything else, 0. */
static inline unsigned factbox_filling(uint64_t result) { return factbox_count(result >> 16); }

/* Bytes that a question with this allowance needs lent: 31 * (2 * limit - 1), and 0 for limit 0. */
static inline size_t factbox_output_size(uint32_t limit) {
    size_t facts = limit;
    return facts == 0 ? 0 : FACTBOX_DERIVATION_LINE * (2 * facts - 1);
}

#ifdef __cplusplus
}
#endif

#endif

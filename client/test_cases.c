/* The values of the C interface: the example and cases of document 01 (the customer's paper), every number once, questions
 * with a gap, literals where a class or a property belongs, and the parts of a result. */
#include "factbox.h"
#include "test.h"

#include <string.h>

static const uint8_t *bytes(const char *text) { return (const uint8_t *)text; }

static uint64_t result(uint64_t number, uint64_t place, uint64_t count) { return number | place << 8 | count << 32; }

/* A yes that names what fills the gap. */
static uint64_t filled(uint64_t count, uint64_t filling) { return result(FACTBOX_YES, 0, count) | filling << 48; }

/* A question with its answer. */
typedef struct {
    const char *table;
    uint32_t s, p, o, limit, number, place, count;
} question;

#define RING "   10    1   11\n   11    1   10\n"

/* Cases h and i: an sp chain through a literal; such a chain with a domain. */
#define THROUGH_LITERAL "    6    7    8\n    7    240000\n40000    2    9\n"
#define DOMAIN_OF_LITERAL "    6    7    8\n    7    240000\n40000    3    9\n"

static const question CASES[] = {
    {"", 10, 1, 11, 4, FACTBOX_NO, 0, 0},
    {EXAMPLE_TABLE, 10, 5, 12, 4, FACTBOX_YES, 0, 4},
    {EXAMPLE_TABLE, 10, 5, 12, 3, FACTBOX_LONG, 0, 4},
    {EXAMPLE_TABLE, 10, 5, 12, 0, FACTBOX_LONG, 0, 4},
    {EXAMPLE_TABLE, 10, 14, 20, 4, FACTBOX_YES, 0, 2},
    {EXAMPLE_TABLE, 12, 1, 12, 4, FACTBOX_NO, 0, 0},
    {RING, 10, 1, 10, 4, FACTBOX_YES, 0, 2},
    {EXAMPLE_TABLE, 13, 3, 11, 4, FACTBOX_NO, 0, 0},
    {THROUGH_LITERAL, 6, 9, 8, 4, FACTBOX_CLASS, 2, 0},
    {DOMAIN_OF_LITERAL, 6, 5, 9, 4, FACTBOX_CLASS, 2, 0},
    {"    6    5   10\n    6    7    8\n    7    3   10\n", 6, 5, 10, 4, FACTBOX_YES, 0, 1},
    {"   10    1   11\n   10    1   11\n", 10, 1, 11, 4, FACTBOX_ORDER, 2, 0},
    {EXAMPLE_TABLE, 5, 1, 10, 4, FACTBOX_PART, 0, 0},
    {"   1039999   11\n", 10, 39999, 11, 4, FACTBOX_YES, 0, 1},
    {"   1040000   11\n", 10, 39999, 11, 4, FACTBOX_PART, 1, 0},
    {"   10   1359999\n", 10, 13, 59999, 4, FACTBOX_YES, 0, 1},
    {"   10   1360000\n", 10, 13, 59999, 4, FACTBOX_BLANK, 1, 0},
    {"   10   1365536\n", 10, 13, 59999, 4, FACTBOX_TERM, 1, 0},
    {EXAMPLE_TABLE, 10, 40000, 11, 4, FACTBOX_PART, 0, 0},
    {EXAMPLE_TABLE, 10, 1, 65536, 4, FACTBOX_TERM, 0, 0},
    {EXAMPLE_TABLE, 10, 5, 65536 + 12, 4, FACTBOX_TERM, 0, 0},
    {"   10   13   2\n", 10, 5, 12, 4, FACTBOX_SIZE, 0, 0},
    {"   10   13  020\n", 10, 5, 12, 4, FACTBOX_COLUMN, 1, 0},
    {EXAMPLE_TABLE, 10, 5, 12, 1025, FACTBOX_ALLOWANCE, 0, 0},
    {EXAMPLE_TABLE, 10, 5, 12, 5, FACTBOX_SHORT, 0, 0},
};

/* Data facts and type facts with literals, and the range of the predicate. */
#define LITERALS "   10   1340000\n   13    4   16\n40000    5   12\n40001   1359999\n"

/* Where a literal may stand, and where it gets 12. */
static const question CLASSES[] = {
    {LITERALS, 10, 13, 40000, 4, FACTBOX_YES, 0, 1},
    {LITERALS, 40001, 13, 59999, 4, FACTBOX_YES, 0, 1},
    {LITERALS, 40000, 5, 12, 4, FACTBOX_YES, 0, 1},
    {LITERALS, 40000, 5, 16, 4, FACTBOX_YES, 0, 2},
    {LITERALS, 59999, 5, 16, 4, FACTBOX_YES, 0, 2},
    {LITERALS, 59999, 5, 12, 4, FACTBOX_NO, 0, 0},
    /* every predicate, as subject and as object of a question */
    {EXAMPLE_TABLE, 40000, 1, 12, 4, FACTBOX_CLASS, 0, 0},
    {EXAMPLE_TABLE, 11, 1, 40000, 4, FACTBOX_CLASS, 0, 0},
    {EXAMPLE_TABLE, 40000, 2, 14, 4, FACTBOX_CLASS, 0, 0},
    {EXAMPLE_TABLE, 13, 2, 59999, 4, FACTBOX_CLASS, 0, 0},
    {EXAMPLE_TABLE, 59999, 3, 11, 4, FACTBOX_CLASS, 0, 0},
    {EXAMPLE_TABLE, 14, 3, 40000, 4, FACTBOX_CLASS, 0, 0},
    {EXAMPLE_TABLE, 40000, 4, 11, 4, FACTBOX_CLASS, 0, 0},
    {EXAMPLE_TABLE, 14, 4, 59999, 4, FACTBOX_CLASS, 0, 0},
    {EXAMPLE_TABLE, 10, 5, 40000, 4, FACTBOX_CLASS, 0, 0},
    {EXAMPLE_TABLE, 40000, 5, 40001, 4, FACTBOX_CLASS, 0, 0},
    {EXAMPLE_TABLE, 40000, 1, 40000, 4, FACTBOX_CLASS, 0, 0},
    {EXAMPLE_TABLE, 10, 5, 39999, 4, FACTBOX_NO, 0, 0},
    {EXAMPLE_TABLE, 39999, 1, 12, 4, FACTBOX_NO, 0, 0},
    /* and of a table's line */
    {"40000    1   12\n", 10, 5, 12, 4, FACTBOX_CLASS, 1, 0},
    {"   11    159999\n", 10, 5, 12, 4, FACTBOX_CLASS, 1, 0},
    {"59999    2   14\n", 10, 5, 12, 4, FACTBOX_CLASS, 1, 0},
    {"   13    240000\n", 10, 5, 12, 4, FACTBOX_CLASS, 1, 0},
    {"40000    3   11\n", 10, 5, 12, 4, FACTBOX_CLASS, 1, 0},
    {"   14    359999\n", 10, 5, 12, 4, FACTBOX_CLASS, 1, 0},
    {"59999    4   11\n", 10, 5, 12, 4, FACTBOX_CLASS, 1, 0},
    {"   14    440000\n", 10, 5, 12, 4, FACTBOX_CLASS, 1, 0},
    {"   10    540000\n", 10, 5, 12, 4, FACTBOX_CLASS, 1, 0},
    /* cases h and i, whatever the allowance and the question */
    {THROUGH_LITERAL, 6, 9, 8, 0, FACTBOX_CLASS, 2, 0},
    {THROUGH_LITERAL, 6, 9, 8, 3, FACTBOX_CLASS, 2, 0},
    {THROUGH_LITERAL, 6, 9, 8, 1024, FACTBOX_CLASS, 2, 0},
    {THROUGH_LITERAL, 6, 9, 8, 1025, FACTBOX_CLASS, 2, 0},
    {DOMAIN_OF_LITERAL, 6, 5, 9, 0, FACTBOX_CLASS, 2, 0},
    {DOMAIN_OF_LITERAL, 6, 5, 9, 1024, FACTBOX_CLASS, 2, 0},
    {DOMAIN_OF_LITERAL, 6, 7, 8, 4, FACTBOX_CLASS, 2, 0},
    {DOMAIN_OF_LITERAL, 0, 0, 0, 4, FACTBOX_CLASS, 2, 0},
    /* on a line 2, 3, 4 and 5 come before it, over the whole width, and 6 behind it */
    {"   10    14000x\n", 10, 5, 12, 4, FACTBOX_COLUMN, 1, 0},
    {"40000    1    0\n", 10, 5, 12, 4, FACTBOX_TERM, 1, 0},
    {"40000    160000\n", 10, 5, 12, 4, FACTBOX_BLANK, 1, 0},
    {"40000    1    5\n", 10, 5, 12, 4, FACTBOX_PART, 1, 0},
    {"    5    140000\n", 10, 5, 12, 4, FACTBOX_PART, 1, 0},
    {"400004000040000\n", 10, 5, 12, 4, FACTBOX_PART, 1, 0},
    {"   10   13   20\n    9    140000\n", 10, 5, 12, 4, FACTBOX_CLASS, 2, 0},
    {"   10   13   20\n   10    540000\n", 10, 5, 12, 4, FACTBOX_CLASS, 2, 0},
    {"   10   13   20\n    9   13   20\n   11    540000\n", 10, 5, 12, 4, FACTBOX_ORDER, 2, 0},
    /* in a question 3 and 5 come before it, the table's refusals too, and 7 and 8 behind it */
    {EXAMPLE_TABLE, 40000, 1, 0, 4, FACTBOX_TERM, 0, 0},
    {EXAMPLE_TABLE, 40000, 1, 5, 4, FACTBOX_PART, 0, 0},
    {EXAMPLE_TABLE, 3, 5, 40000, 4, FACTBOX_PART, 0, 0},
    {RING RING, 10, 5, 40000, 4, FACTBOX_ORDER, 3, 0},
    {EXAMPLE_TABLE, 10, 5, 40000, 1025, FACTBOX_CLASS, 0, 0},
    {EXAMPLE_TABLE, 10, 5, 40000, 5, FACTBOX_CLASS, 0, 0},
};

/* A property 7 of 6 and 8: the range 9 of 7 is nearer than the domain 9 of 17, which is above 7. */
#define NEARER_BY_RANGE "    6    7    8\n    7    2   17\n    7    4    9\n   17    3    9\n"

#define THROUGH_NAME "    6    7    8\n    7    2   17\n   17    2    9\n"

/* Questions with a gap that no more than one term fills from so few facts, and that term. */
static const struct {
    question q;
    uint32_t filling;
} GAPS[] = {
    {{EXAMPLE_TABLE, FACTBOX_GAP, 5, 12, 4, FACTBOX_YES, 0, 4}, 10},
    {{EXAMPLE_TABLE, 65535, 5, 12, 4, FACTBOX_YES, 0, 4}, 10},
    {{EXAMPLE_TABLE, FACTBOX_GAP, 5, 12, 3, FACTBOX_LONG, 0, 4}, 0},
    {{EXAMPLE_TABLE, FACTBOX_GAP, 5, 12, 0, FACTBOX_LONG, 0, 4}, 0},
    {{EXAMPLE_TABLE, FACTBOX_GAP, 5, 13, 4, FACTBOX_NO, 0, 0}, 0},
    {{"", FACTBOX_GAP, 1, 11, 4, FACTBOX_NO, 0, 0}, 0},
    {{EXAMPLE_TABLE, 10, 5, FACTBOX_GAP, 4, FACTBOX_YES, 0, 3}, 11},
    {{EXAMPLE_TABLE, 10, 5, 65535, 3, FACTBOX_YES, 0, 3}, 11},
    {{EXAMPLE_TABLE, 10, 5, FACTBOX_GAP, 2, FACTBOX_LONG, 0, 3}, 0},
    {{EXAMPLE_TABLE, 10, 13, FACTBOX_GAP, 4, FACTBOX_YES, 0, 1}, 20},
    {{EXAMPLE_TABLE, 10, 14, FACTBOX_GAP, 4, FACTBOX_YES, 0, 2}, 20},
    {{EXAMPLE_TABLE, FACTBOX_GAP, 14, 20, 4, FACTBOX_YES, 0, 2}, 10},
    {{EXAMPLE_TABLE, FACTBOX_GAP, 1, 12, 4, FACTBOX_YES, 0, 1}, 11},
    {{EXAMPLE_TABLE, 12, 1, FACTBOX_GAP, 4, FACTBOX_NO, 0, 0}, 0},
    {{EXAMPLE_TABLE, FACTBOX_GAP, 3, 11, 4, FACTBOX_YES, 0, 1}, 14},
    {{EXAMPLE_TABLE, 13, 3, FACTBOX_GAP, 4, FACTBOX_NO, 0, 0}, 0},
    /* by range it is the data fact's object, and only that */
    {{"   10   13   20\n   13    4   16\n", FACTBOX_GAP, 5, 16, 4, FACTBOX_YES, 0, 2}, 20},
    {{"   10   13   20\n   13    4   16\n", 20, 5, FACTBOX_GAP, 4, FACTBOX_YES, 0, 2}, 16},
    {{"   10   13   20\n   13    4   16\n", 10, 5, FACTBOX_GAP, 4, FACTBOX_NO, 0, 0}, 0},
    {{NEARER_BY_RANGE, FACTBOX_GAP, 5, 9, 4, FACTBOX_YES, 0, 2}, 8},
    /* the fewest facts, not the first filling that is within the allowance */
    {{"    6    7    8\n    7    3    9\n   10    5    9\n", FACTBOX_GAP, 5, 9, 4, FACTBOX_YES, 0, 1}, 10},
    /* the other end fills the gap by a table fact only, since a way round is longer */
    {{RING, FACTBOX_GAP, 1, 10, 4, FACTBOX_YES, 0, 1}, 11},
    {{RING, 10, 1, FACTBOX_GAP, 4, FACTBOX_YES, 0, 1}, 11},
    {{"   10    1   10\n", FACTBOX_GAP, 1, 10, 4, FACTBOX_YES, 0, 1}, 10},
    /* an sp chain */
    {{THROUGH_NAME, FACTBOX_GAP, 9, 8, 4, FACTBOX_YES, 0, 3}, 6},
    {{THROUGH_NAME, 6, 9, FACTBOX_GAP, 4, FACTBOX_YES, 0, 3}, 8},
    {{THROUGH_NAME, 7, 2, FACTBOX_GAP, 4, FACTBOX_YES, 0, 1}, 17},
    /* literals: as value, as what has a type by the table or by a range */
    {{LITERALS, 10, 13, FACTBOX_GAP, 4, FACTBOX_YES, 0, 1}, 40000},
    {{LITERALS, FACTBOX_GAP, 13, 59999, 4, FACTBOX_YES, 0, 1}, 40001},
    {{LITERALS, FACTBOX_GAP, 5, 12, 4, FACTBOX_YES, 0, 1}, 40000},
    {{LITERALS, 59999, 5, FACTBOX_GAP, 4, FACTBOX_YES, 0, 2}, 16},
    {{"   10   1359999\n   13    4   16\n", FACTBOX_GAP, 5, 16, 4, FACTBOX_YES, 0, 2}, 59999},
    {{LITERALS, 40001, 5, FACTBOX_GAP, 4, FACTBOX_NO, 0, 0}, 0},
    /* refusals: 3 over the whole width, then 4, then 5 and 12 in the other terms, 7, 8; the table's before them */
    {{EXAMPLE_TABLE, 0, FACTBOX_GAP, 7, 4, FACTBOX_TERM, 0, 0}, 0},
    {{EXAMPLE_TABLE, FACTBOX_GAP, 5, 65536, 4, FACTBOX_TERM, 0, 0}, 0},
    {{EXAMPLE_TABLE, FACTBOX_GAP, 0, FACTBOX_GAP, 4, FACTBOX_TERM, 0, 0}, 0},
    {{EXAMPLE_TABLE, FACTBOX_GAP, 5, FACTBOX_GAP, 4, FACTBOX_BLANK, 0, 0}, 0},
    {{EXAMPLE_TABLE, FACTBOX_GAP, 5, 65535, 4, FACTBOX_BLANK, 0, 0}, 0},
    {{EXAMPLE_TABLE, 10, FACTBOX_GAP, 12, 4, FACTBOX_BLANK, 0, 0}, 0},
    {{EXAMPLE_TABLE, FACTBOX_GAP, FACTBOX_GAP, 12, 4, FACTBOX_BLANK, 0, 0}, 0},
    {{EXAMPLE_TABLE, 10, 65535, FACTBOX_GAP, 4, FACTBOX_BLANK, 0, 0}, 0},
    {{EXAMPLE_TABLE, 3, FACTBOX_GAP, 12, 4, FACTBOX_BLANK, 0, 0}, 0},
    {{EXAMPLE_TABLE, FACTBOX_GAP, 40000, 7, 4, FACTBOX_PART, 0, 0}, 0},
    {{EXAMPLE_TABLE, 7, 59999, FACTBOX_GAP, 4, FACTBOX_PART, 0, 0}, 0},
    {{EXAMPLE_TABLE, 3, 7, FACTBOX_GAP, 4, FACTBOX_PART, 0, 0}, 0},
    {{EXAMPLE_TABLE, FACTBOX_GAP, 7, 5, 4, FACTBOX_PART, 0, 0}, 0},
    {{EXAMPLE_TABLE, FACTBOX_GAP, 40000, 40000, 4, FACTBOX_PART, 0, 0}, 0},
    {{EXAMPLE_TABLE, FACTBOX_GAP, 1, 40000, 4, FACTBOX_CLASS, 0, 0}, 0},
    {{EXAMPLE_TABLE, 40000, 1, 65535, 4, FACTBOX_CLASS, 0, 0}, 0},
    {{EXAMPLE_TABLE, 65535, 2, 59999, 4, FACTBOX_CLASS, 0, 0}, 0},
    {{EXAMPLE_TABLE, 59999, 2, FACTBOX_GAP, 4, FACTBOX_CLASS, 0, 0}, 0},
    {{EXAMPLE_TABLE, FACTBOX_GAP, 3, 40000, 4, FACTBOX_CLASS, 0, 0}, 0},
    {{EXAMPLE_TABLE, 40000, 3, FACTBOX_GAP, 4, FACTBOX_CLASS, 0, 0}, 0},
    {{EXAMPLE_TABLE, FACTBOX_GAP, 4, 59999, 4, FACTBOX_CLASS, 0, 0}, 0},
    {{EXAMPLE_TABLE, 59999, 4, FACTBOX_GAP, 4, FACTBOX_CLASS, 0, 0}, 0},
    {{EXAMPLE_TABLE, FACTBOX_GAP, 5, 40000, 4, FACTBOX_CLASS, 0, 0}, 0},
    {{EXAMPLE_TABLE, FACTBOX_GAP, FACTBOX_GAP, 40000, 4, FACTBOX_BLANK, 0, 0}, 0},
    {{EXAMPLE_TABLE, FACTBOX_GAP, 5, 40000, 1025, FACTBOX_CLASS, 0, 0}, 0},
    {{EXAMPLE_TABLE, FACTBOX_GAP, 5, 40000, 5, FACTBOX_CLASS, 0, 0}, 0},
    {{EXAMPLE_TABLE, FACTBOX_GAP, 5, 12, 1025, FACTBOX_ALLOWANCE, 0, 0}, 0},
    {{EXAMPLE_TABLE, FACTBOX_GAP, 5, 12, 5, FACTBOX_SHORT, 0, 0}, 0},
    {{"   10    160000\n", FACTBOX_GAP, 1, 60000, 4, FACTBOX_BLANK, 1, 0}, 0},
    {{THROUGH_LITERAL, FACTBOX_GAP, 9, 8, 4, FACTBOX_CLASS, 2, 0}, 0},
    {{THROUGH_LITERAL, 7, 2, FACTBOX_GAP, 4, FACTBOX_CLASS, 2, 0}, 0},
};

/* Puts a question, and a derivation behind a yes to the check, for the triple with its gap filled. */
static void put(const question *q, uint32_t filling, const char *list, size_t at) {
    uint8_t output[31 * 7];
    const uint8_t *table = bytes(q->table);
    size_t len = strlen(q->table);
    uint64_t r = factbox_question(table, len, q->s, q->p, q->o, q->limit, output, sizeof output);
    uint64_t accepted = result(FACTBOX_ACCEPTED, 0, q->count);
    uint32_t s = q->s >= FACTBOX_GAP ? filling : q->s, o = q->o >= FACTBOX_GAP ? filling : q->o;
    int right = r == (result(q->number, q->place, q->count) | (uint64_t)filling << 48);
    if (right && q->number == FACTBOX_YES)
        right = factbox_check(table, len, s, q->p, o, output, 31 * (2 * (size_t)q->count - 1)) == accepted;
    if (right) return;
    fprintf(stderr, "%s %zu: %u place %u count %u filling %u\n", list, at, factbox_number(r), factbox_place(r),
            factbox_count(r), factbox_filling(r));
    failures++;
}

static void cases(void) {
    for (size_t i = 0; i < sizeof CASES / sizeof *CASES; i++) put(&CASES[i], 0, "case", i);
    for (size_t i = 0; i < sizeof CLASSES / sizeof *CLASSES; i++) put(&CLASSES[i], 0, "class", i);
    for (size_t i = 0; i < sizeof GAPS / sizeof *GAPS; i++) put(&GAPS[i].q, GAPS[i].filling, "gap", i);
}

/* The question of the header: what is printed is the derivation of the filled triple. The check takes no gap. */
static void gap_example(void) {
    const uint8_t *table = bytes(EXAMPLE_TABLE);
    uint8_t output[31 * 7 + 1] = {0};
    uint64_t r = factbox_question(table, 64, FACTBOX_GAP, 5, 12, 4, output, factbox_output_size(4));
    EXPECT(r == filled(4, 10) && factbox_filling(r) == 10 && factbox_count(r) == 4);
    EXPECT(strcmp((char *)output, EXAMPLE_DERIVATION) == 0);
    EXPECT(factbox_check(table, 64, FACTBOX_GAP, 5, 12, output, 31 * 7) == result(FACTBOX_BLANK, 0, 0));
    EXPECT(factbox_check(table, 64, 10, 5, 65535, output, 31 * 7) == result(FACTBOX_BLANK, 0, 0));
    EXPECT(factbox_check(table, 64, 10, FACTBOX_GAP, 12, output, 31 * 7) == result(FACTBOX_BLANK, 0, 0));
    EXPECT(factbox_check(table, 64, 11, 5, 12, output, 31 * 7) == result(FACTBOX_END, 7, 0));
    memcpy(output + 31 * 6 + 15, "60000", 5);
    EXPECT(factbox_check(table, 64, 10, 5, 12, output, 31 * 7) == result(FACTBOX_STEP, 7, 0));
}

/* The check's triple gets 12 behind 5 and before 9; a derivation's line gets 10, also one marked as a table's. */
static void class_of_check(void) {
    static const char line[] = "    0    0    0   10    540000\n";
    const uint8_t *table = bytes(EXAMPLE_TABLE);
    uint8_t lines[31 * 7 + 1] = EXAMPLE_DERIVATION;
    EXPECT(factbox_check(table, 64, 10, 5, 40000, bytes(line), 31) == result(FACTBOX_CLASS, 0, 0));
    EXPECT(factbox_check(table, 64, 10, 5, 40000, bytes(line), 30) == result(FACTBOX_CLASS, 0, 0));
    EXPECT(factbox_check(table, 64, 40000, 1, 12, bytes(line), 31) == result(FACTBOX_CLASS, 0, 0));
    EXPECT(factbox_check(table, 64, 40000, 1, 5, bytes(line), 31) == result(FACTBOX_PART, 0, 0));
    EXPECT(factbox_check(table, 64, 40000, 1, 60000, bytes(line), 31) == result(FACTBOX_BLANK, 0, 0));
    EXPECT(factbox_check(table, 64, 10, 5, 12, bytes(line), 31) == result(FACTBOX_STEP, 1, 0));
    memcpy(lines + 31 * 4 + 25, "40000", 5);
    EXPECT(factbox_check(table, 64, 10, 5, 12, lines, 31 * 7) == result(FACTBOX_STEP, 5, 0));
    memcpy(lines + 31 * 3 + 25, "40000", 5);
    EXPECT(factbox_check(table, 64, 10, 5, 12, lines, 31 * 7) == result(FACTBOX_STEP, 4, 0));
    EXPECT(factbox_check(bytes(THROUGH_LITERAL), 48, 0, 0, 0, lines, 30) == result(FACTBOX_CLASS, 2, 0));
}

/* A derivation's line whose numbers may not stand so gets 10, marked as a table's or as given by a rule; a table's line gets
 * 3, 4, 5 or 12. */
static void step_of_numbers(void) {
    static const struct {
        const char *fact;
        uint32_t number;
    } LINES[] = {
        {"   10    5   11\n", FACTBOX_DONE},  {"    0    5   12\n", FACTBOX_TERM},  {"   10    565536\n", FACTBOX_TERM},
        {"   1099999   12\n", FACTBOX_TERM},  {"60000    5   12\n", FACTBOX_BLANK}, {"   1065535   12\n", FACTBOX_BLANK},
        {"    5    5   12\n", FACTBOX_PART},  {"   1040000   12\n", FACTBOX_PART},  {"40000    1   12\n", FACTBOX_CLASS},
        {"   10    540000\n", FACTBOX_CLASS},
    };
    for (size_t i = 0; i < sizeof LINES / sizeof *LINES; i++) {
        char table_fact[32] = "    0    0    0", given[32] = "    5    1    1";
        uint32_t read[3];
        strcat(table_fact, LINES[i].fact), strcat(given, LINES[i].fact);
        uint64_t refused = LINES[i].number ? result(LINES[i].number, 1, 0) : result(FACTBOX_DONE, 0, 1);
        EXPECT(factbox_read(bytes(LINES[i].fact), 16, read, 3) == refused);
        EXPECT(factbox_check(bytes(EXAMPLE_TABLE), 64, 10, 5, 12, bytes(table_fact), 31) == result(FACTBOX_STEP, 1, 0));
        EXPECT(factbox_check(bytes(EXAMPLE_TABLE), 64, 10, 5, 12, bytes(given), 31) == result(FACTBOX_STEP, 1, 0));
    }
}

/* A row to write and a table to read get 12 behind 3, 4 and 5 and before 6 and 8; its place is the fact or the line. */
static void class_of_row(void) {
    uint32_t row[] = {10, 13, 40000, 40000, 5, 12, 39999, 1, 40000};
    uint8_t written[48];
    uint32_t read[9];
    EXPECT(factbox_write(row, 6, written, 32) == result(FACTBOX_DONE, 0, 2));
    EXPECT(factbox_read(written, 32, read, 6) == result(FACTBOX_DONE, 0, 2) && memcmp(read, row, 4 * 6) == 0);
    EXPECT(factbox_write(row, 9, written, 48) == result(FACTBOX_CLASS, 3, 0));
    EXPECT(factbox_write(row, 9, written, 0) == result(FACTBOX_CLASS, 3, 0));
    row[8] = 5;
    EXPECT(factbox_write(row, 9, written, 48) == result(FACTBOX_PART, 3, 0));
    row[6] = 40000;
    EXPECT(factbox_write(row, 9, written, 48) == result(FACTBOX_PART, 3, 0));
    row[8] = 12;
    EXPECT(factbox_write(row, 9, written, 48) == result(FACTBOX_CLASS, 3, 0));
    row[8] = 60000;
    EXPECT(factbox_write(row, 9, written, 48) == result(FACTBOX_BLANK, 3, 0));
    row[8] = UINT32_MAX;
    EXPECT(factbox_write(row, 9, written, 48) == result(FACTBOX_TERM, 3, 0));
    EXPECT(factbox_read(bytes(THROUGH_LITERAL), 48, read, 9) == result(FACTBOX_CLASS, 2, 0));
    EXPECT(factbox_read(bytes(THROUGH_LITERAL), 48, read, 0) == result(FACTBOX_CLASS, 2, 0));
}

/* Several terms fill the gap from equally few facts: the one named is the one derived. */
static void tie(void) {
    const uint8_t *table = bytes("    6    5   10\n    7    5   10\n    8    5   11\n");
    uint8_t output[31];
    uint64_t r = factbox_question(table, 48, FACTBOX_GAP, 5, 10, 1, output, sizeof output);
    EXPECT(r == filled(1, 6) || r == filled(1, 7));
    EXPECT(factbox_check(table, 48, factbox_filling(r), 5, 10, output, 31) == result(FACTBOX_ACCEPTED, 0, 1));
}

static void example(void) {
    const uint8_t *table = bytes(EXAMPLE_TABLE);
    uint8_t output[31 * 7 + 1] = {0}, written[64];
    uint32_t row[13] = {[12] = 77};
    const uint32_t expected[13] = {10, 13, 20, 11, 1, 12, 13, 2, 14, 14, 3, 11, 77};
    EXPECT(factbox_question(table, 64, 10, 5, 12, 4, output, factbox_output_size(4)) == result(FACTBOX_YES, 0, 4));
    EXPECT(strcmp((char *)output, EXAMPLE_DERIVATION) == 0);
    EXPECT(factbox_check(table, 64, 10, 5, 12, output, 31 * 7) == result(FACTBOX_ACCEPTED, 0, 4));
    EXPECT(factbox_check(table, 64, 10, 5, 12, output, 31 * 6) == result(FACTBOX_END, 6, 0));
    EXPECT(factbox_check(table, 48, 10, 5, 12, output, 31 * 7) == result(FACTBOX_STEP, 4, 0));
    EXPECT(factbox_check(table, 64, 10, 5, 12, output, 31 * 7 - 1) == result(FACTBOX_FORM, 0, 0));
    output[31 * 3] = 'x';
    EXPECT(factbox_check(table, 64, 10, 5, 12, output, 31 * 7) == result(FACTBOX_FORM, 4, 0));
    EXPECT(factbox_read(table, 64, row, 13) == result(FACTBOX_DONE, 0, 4));
    EXPECT(memcmp(row, expected, sizeof row) == 0);
    EXPECT(factbox_read(table, 64, row, 11) == result(FACTBOX_SHORT, 0, 0));
    EXPECT(factbox_write(row, 12, written, 64) == result(FACTBOX_DONE, 0, 4));
    EXPECT(memcmp(written, table, 64) == 0);
    EXPECT(factbox_write(row, 12, written, 63) == result(FACTBOX_SHORT, 0, 0));
    EXPECT(factbox_write(row, 13, written, 64) == result(FACTBOX_SIZE, 0, 0));
    row[9] = UINT32_MAX;
    EXPECT(factbox_write(row, 12, written, 64) == result(FACTBOX_TERM, 4, 0));
}

/* The largest place and the largest count that the calls give, and the sizes that the header names. */
static void limits(void) {
    static uint8_t table[FACTBOX_TABLE_MAX], lines[FACTBOX_DERIVATION_MAX];
    static uint32_t row[FACTBOX_ROW_MAX];
    for (uint32_t i = 0; i < FACTBOX_FACTS_MAX; i++) row[3 * i] = 6 + i, row[3 * i + 1] = 1, row[3 * i + 2] = 7 + i;
    EXPECT(factbox_write(row, FACTBOX_ROW_MAX, table, sizeof table) == result(FACTBOX_DONE, 0, 1024));
    EXPECT(factbox_output_size(1024) == sizeof lines && factbox_output_size(1) == 31 && factbox_output_size(0) == 0);
    uint64_t r = factbox_question(table, sizeof table, 6, 1, 1030, 1024, lines, sizeof lines);
    EXPECT(r == result(FACTBOX_YES, 0, 1024));
    EXPECT(factbox_number(r) == 90 && factbox_place(r) == 0 && factbox_count(r) == 1024);
    EXPECT(factbox_check(table, sizeof table, 6, 1, 1030, lines, sizeof lines) == result(FACTBOX_ACCEPTED, 0, 1024));
    r = factbox_check(table, sizeof table, 7, 1, 1030, lines, sizeof lines);
    EXPECT(factbox_number(r) == 11 && factbox_place(r) == 2047 && factbox_count(r) == 0);
    EXPECT(factbox_place(0xffffff00) == 0xffffff && factbox_count(0xffff00000000) == 0xffff && factbox_number(0xffff00) == 0);
    EXPECT(factbox_filling(0xffffull << 48) == 0xffff && factbox_filling(UINT64_MAX >> 16) == 0);
    EXPECT(factbox_count(0xffffull << 48) == 0);
}

/* With a gap the count may be as large; the filling here is the largest. */
static void gap_limits(void) {
    static uint8_t table[FACTBOX_TABLE_MAX], lines[FACTBOX_DERIVATION_MAX];
    static uint32_t row[FACTBOX_ROW_MAX];
    for (uint32_t i = 0; i < FACTBOX_FACTS_MAX; i++) row[3 * i] = 7 + i, row[3 * i + 1] = 1, row[3 * i + 2] = 8 + i;
    row[FACTBOX_ROW_MAX - 3] = 59999, row[FACTBOX_ROW_MAX - 2] = 5, row[FACTBOX_ROW_MAX - 1] = 7;
    EXPECT(factbox_write(row, FACTBOX_ROW_MAX, table, sizeof table) == result(FACTBOX_DONE, 0, 1024));
    EXPECT(factbox_question(table, sizeof table, FACTBOX_GAP, 5, 1030, 1024, lines, sizeof lines) == filled(1024, 59999));
    EXPECT(factbox_check(table, sizeof table, 59999, 5, 1030, lines, sizeof lines) == result(FACTBOX_ACCEPTED, 0, 1024));
    uint64_t r = factbox_question(table, sizeof table, FACTBOX_GAP, 5, 1030, 1023, lines, sizeof lines);
    EXPECT(r == result(FACTBOX_LONG, 0, 1024));
}

int main(void) {
    cases();
    example();
    gap_example();
    class_of_check();
    step_of_numbers();
    class_of_row();
    tie();
    limits();
    gap_limits();
    return finish("test_cases");
}

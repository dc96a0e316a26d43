/* The memory of the C interface: empty slices, NULL with length 0, any alignment, and buffers that begin or end at a page
 * that may not be touched. Inputs lie on pages that may not be written. */
#include "factbox.h"
#include "test.h"

#include <stdlib.h>
#include <string.h>
#include <sys/mman.h>
#include <sys/wait.h>
#include <unistd.h>

/* Memory between two pages that may not be touched. */
typedef struct { uint8_t *begin, *end; } arena;

enum { ROOM = 1 << 17 };

static arena new_arena(void) {
    size_t page = (size_t)sysconf(_SC_PAGESIZE);
    uint8_t *all = mmap(NULL, ROOM + 2 * page, PROT_NONE, MAP_PRIVATE | MAP_ANONYMOUS, -1, 0);
    if (all == MAP_FAILED || mprotect(all + page, ROOM, PROT_READ | PROT_WRITE)) {
        perror("test_memory");
        exit(2);
    }
    return (arena){all + page, all + page + ROOM};
}

/* Puts an input at the arena's begin, shifted by `shift` bytes, or at its very end; the arena can't be written then. */
static const void *put(arena a, const void *input, size_t len, int at_end, size_t shift) {
    uint8_t *at = at_end ? a.end - len : a.begin + shift;
    mprotect(a.begin, ROOM, PROT_READ | PROT_WRITE);
    if (len) memcpy(at, input, len);
    mprotect(a.begin, ROOM, PROT_READ);
    return at;
}

/* Lends memory of `len` bytes, all bytes of the arena being 0x5a. */
static void *lend(arena a, size_t len, int at_end, size_t shift) {
    memset(a.begin, 0x5a, ROOM);
    return at_end ? a.end - len : a.begin + shift;
}

/* Nothing but the `len` bytes from `at` was written. */
static int untouched(arena a, const void *at, size_t len) {
    const uint8_t *from = at, *to = from + len;
    for (const uint8_t *b = a.begin; b < a.end; b++)
        if ((b < from || b >= to) && *b != 0x5a) return 0;
    return 1;
}

static void guard_page_faults(void) {
    arena a = new_arena();
    for (int past = 0; past < 2; past++) {
        fflush(NULL);
        pid_t child = fork();
        if (child == 0) {
            if (!freopen("/dev/null", "w", stderr)) _exit(0);
            *(volatile uint8_t *)(past ? a.end : a.begin - 1) = 1;
            _exit(0);
        }
        int status = 0;
        EXPECT(child > 0 && waitpid(child, &status, 0) == child && status != 0);
    }
}

static void empty_and_null(void) {
    static const uint8_t table[] = EXAMPLE_TABLE;
    uint8_t byte;
    uint32_t number;
    arena a = new_arena();
    const uint8_t *const empty[] = {NULL, &byte, a.begin - 1, a.end};
    for (size_t i = 0; i < sizeof empty / sizeof *empty; i++) {
        const uint8_t *e = empty[i];
        uint8_t *out = (uint8_t *)(uintptr_t)e;
        uint32_t *row = i == 1 ? &number : i == 2 ? (uint32_t *)(void *)(a.begin - 4) : (uint32_t *)(void *)out;
        EXPECT(factbox_question(e, 0, 10, 1, 11, 0, out, 0) == FACTBOX_NO);
        EXPECT(factbox_question(e, 0, 10, 1, 11, 1, out, 0) == FACTBOX_SHORT);
        EXPECT(factbox_question(table, 64, 10, 5, 12, 0, out, 0) == (FACTBOX_LONG | 4ull << 32));
        EXPECT(factbox_question(e, 0, FACTBOX_GAP, 1, 11, 0, out, 0) == FACTBOX_NO);
        EXPECT(factbox_question(e, 0, FACTBOX_GAP, 1, 11, 1, out, 0) == FACTBOX_SHORT);
        EXPECT(factbox_question(table, 64, FACTBOX_GAP, 5, 12, 0, out, 0) == (FACTBOX_LONG | 4ull << 32));
        EXPECT(factbox_check(e, 0, 10, 1, 11, e, 0) == FACTBOX_FORM);
        EXPECT(factbox_check(table, 64, 10, 5, 12, e, 0) == FACTBOX_FORM);
        EXPECT(factbox_check(e, 0, 10, 5, 12, (const uint8_t *)EXAMPLE_DERIVATION, 31 * 7) == (FACTBOX_STEP | 1 << 8));
        EXPECT(factbox_read(e, 0, row, 0) == FACTBOX_DONE);
        EXPECT(factbox_read(table, 64, row, 0) == FACTBOX_SHORT);
        EXPECT(factbox_write(row, 0, out, 0) == FACTBOX_DONE);
        EXPECT(factbox_write((const uint32_t[]){10, 1, 11}, 3, out, 0) == FACTBOX_SHORT);
        EXPECT(factbox_import(e, 0, out, 0) == FACTBOX_DONE);
        EXPECT(factbox_import((const uint8_t *)"<a> <b> <c> .", 13, out, 0) == FACTBOX_SHORT);
    }
}

/* Where a call's buffers lie: at the arena's end, or `shift` bytes behind its begin. */
typedef struct { int at_end; size_t shift; } place;

/* The question whether `subject` is of type 6 + facts, on the table at `table`, and on memory that is just enough, writes
 * these lines and nothing else; on memory that is one too short, nothing. */
static void asked(const uint8_t *table, uint32_t facts, uint32_t subject, const uint8_t *lines, arena output, place at) {
    size_t bytes = FACTBOX_TABLE_LINE * (size_t)facts, room = factbox_output_size(facts);
    uint64_t filling = subject == FACTBOX_GAP ? 6 : 0, yes = FACTBOX_YES | (uint64_t)facts << 32 | filling << 48;
    uint8_t *out = lend(output, room, at.at_end, at.shift);
    EXPECT(factbox_question(table, bytes, subject, 5, 6 + facts, facts, out, room) == (facts ? yes : FACTBOX_NO));
    EXPECT(memcmp(out, lines, room) == 0 && untouched(output, out, room));
    if (facts == 0) return;
    out = lend(output, room - 1, at.at_end, at.shift);
    EXPECT(factbox_question(table, bytes, subject, 5, 6 + facts, facts, out, room - 1) == FACTBOX_SHORT);
    EXPECT(untouched(output, out, 0));
}

/* All four calls on `facts` facts, (6 type 7) and a chain of subclasses from 7, with every buffer at a guard page or at any
 * alignment, give what they give on ordinary memory. */
static void placed(uint32_t facts, place at) {
    static uint8_t table[FACTBOX_TABLE_MAX], lines[FACTBOX_DERIVATION_MAX];
    static uint32_t row[FACTBOX_ROW_MAX];
    static arena input, other, output;
    if (!input.begin) input = new_arena(), other = new_arena(), output = new_arena();
    for (uint32_t i = 0; i < facts; i++) row[3 * i] = 6 + i, row[3 * i + 1] = i == 0 ? 5 : 1, row[3 * i + 2] = 7 + i;
    size_t bytes = FACTBOX_TABLE_LINE * (size_t)facts, numbers = 3 * (size_t)facts, room = factbox_output_size(facts);
    uint64_t count = (uint64_t)facts << 32;
    EXPECT(factbox_write(row, numbers, table, bytes) == count);
    EXPECT(factbox_question(table, bytes, 6, 5, 6 + facts, facts, lines, room) == (facts ? FACTBOX_YES | count : FACTBOX_NO));

    const uint8_t *t = put(input, table, bytes, at.at_end, at.shift);
    asked(t, facts, 6, lines, output, at);
    asked(t, facts, FACTBOX_GAP, lines, output, at);
    const uint8_t *d = put(other, lines, room, at.at_end, at.shift);
    EXPECT(factbox_check(t, bytes, 6, 5, 6 + facts, d, room) == (facts ? FACTBOX_ACCEPTED | count : FACTBOX_FORM));

    size_t whole = at.shift / 4 * 4;
    uint32_t *filled = lend(output, 4 * numbers, at.at_end, whole);
    EXPECT(factbox_read(t, bytes, filled, numbers) == count);
    EXPECT(memcmp(filled, row, 4 * numbers) == 0 && untouched(output, filled, 4 * numbers));
    const uint32_t *r = put(input, row, 4 * numbers, at.at_end, whole);
    uint8_t *out = lend(output, bytes, at.at_end, at.shift);
    EXPECT(factbox_write(r, numbers, out, bytes) == count);
    EXPECT(memcmp(out, table, bytes) == 0 && untouched(output, out, bytes));
}

/* A question with a gap writes its own lines, where the allowance leaves room for more, and none where it is long, no or
 * refused. */
static void gap_writes_its_lines(void) {
    static const uint8_t table[] = EXAMPLE_TABLE;
    static const char line[] = "    0    0    0   10   13   20\n";
    arena a = new_arena();
    uint8_t *out = lend(a, 31 * 7, 0, 3);
    EXPECT(factbox_question(table, 64, 10, 13, FACTBOX_GAP, 4, out, 31 * 7) == (FACTBOX_YES | 1ull << 32 | 20ull << 48));
    EXPECT(memcmp(out, line, 31) == 0 && untouched(a, out, 31));
    lend(a, 31 * 7, 0, 3);
    EXPECT(factbox_question(table, 64, FACTBOX_GAP, 5, 12, 3, out, 31 * 7) == (FACTBOX_LONG | 4ull << 32));
    EXPECT(factbox_question(table, 64, FACTBOX_GAP, 5, 13, 4, out, 31 * 7) == FACTBOX_NO);
    EXPECT(factbox_question(table, 64, FACTBOX_GAP, 5, FACTBOX_GAP, 4, out, 31 * 7) == FACTBOX_BLANK);
    EXPECT(factbox_question(table, 64, 10, FACTBOX_GAP, 20, 4, out, 31 * 7) == FACTBOX_BLANK);
    EXPECT(untouched(a, out, 0));
}

/* A literal where a class belongs, in the table, in the triple or in the row: no call writes. */
static void class_writes_nothing(void) {
    static const uint8_t table[] = EXAMPLE_TABLE, refused[] = "   10   13   20\n   11    140000\n";
    static const uint32_t row[] = {10, 13, 20, 11, 1, 40000};
    arena a = new_arena();
    uint8_t *out = lend(a, 31 * 7, 0, 3);
    EXPECT(factbox_question(refused, 32, 10, 13, 20, 4, out, 31 * 7) == (FACTBOX_CLASS | 2 << 8));
    EXPECT(factbox_question(refused, 32, FACTBOX_GAP, 13, 20, 4, out, 31 * 7) == (FACTBOX_CLASS | 2 << 8));
    EXPECT(factbox_question(table, 64, 10, 5, 40000, 4, out, 31 * 7) == FACTBOX_CLASS);
    EXPECT(factbox_question(table, 64, FACTBOX_GAP, 5, 40000, 4, out, 31 * 7) == FACTBOX_CLASS);
    EXPECT(factbox_read(refused, 32, (uint32_t *)(void *)a.begin, 6) == (FACTBOX_CLASS | 2 << 8));
    EXPECT(factbox_write(row, 6, out, 32) == (FACTBOX_CLASS | 2 << 8));
    EXPECT(untouched(a, out, 0));
}

/* Puts these facts as a text, each with an IRI and a literal of its own; its length. */
static size_t text_of(uint32_t facts, char *text) {
    size_t len = 0;
    for (uint32_t i = 0; i < facts; i++) len += (size_t)sprintf(text + len, "<%u> <p> \"%u\" .\n", (unsigned)i, (unsigned)i);
    return len;
}

/* The import of a text, with its last line end and without it, into memory that is just enough writes the table and nothing else;
 * into memory that is one too short, nothing. The text can't be written, and no byte beside it can be read. */
static void imported(uint32_t facts, place at) {
    static char text[FACTBOX_IMPORT_MAX];
    static uint8_t table[FACTBOX_TABLE_MAX];
    static arena input, output;
    if (!input.begin) input = new_arena(), output = new_arena();
    size_t len = text_of(facts, text), bytes = FACTBOX_TABLE_LINE * (size_t)facts;
    uint64_t count = (uint64_t)facts << 32;
    EXPECT(factbox_import((const uint8_t *)text, len, table, sizeof table) == count);
    for (size_t cut = 0; cut < (facts ? 2 : 1); cut++) {
        const uint8_t *t = put(input, text, len - cut, at.at_end, at.shift);
        uint8_t *out = lend(output, bytes, at.at_end, at.shift);
        EXPECT(factbox_import(t, len - cut, out, bytes) == count);
        EXPECT(memcmp(out, table, bytes) == 0 && untouched(output, out, bytes));
        if (facts == 0) continue;
        out = lend(output, bytes - 1, at.at_end, at.shift);
        EXPECT(factbox_import(t, len - cut, out, bytes - 1) == FACTBOX_SHORT);
        EXPECT(untouched(output, out, 0));
    }
}

/* Texts that are refused, at the end of what may be read, cut anywhere: no call writes, and none reads on. */
static void refused_texts(void) {
    static const char line[] = "<a> <b> \"c\"^^<d> . <a> <b> \"c\"@e-f . _:g.h #i\n\r<j> <b> _:k. <b> <c> .";
    static const uint64_t numbers[] = {FACTBOX_DONE, FACTBOX_STATEMENT, FACTBOX_UNKNOWN};
    arena input = new_arena(), a = new_arena();
    uint8_t *out = lend(a, FACTBOX_TABLE_MAX, 0, 0);
    for (size_t from = 0; from < sizeof line - 1; from++) {
        for (size_t to = from; to < sizeof line; to++) {
            uint64_t r = factbox_import(put(input, line + from, to - from, 1, 0), to - from, out, 0), n = factbox_number(r);
            EXPECT(n == numbers[0] || n == numbers[1] || n == numbers[2] || r == FACTBOX_SHORT);
        }
    }
    EXPECT(untouched(a, out, 0));
    static uint8_t large[FACTBOX_IMPORT_MAX + 1];
    memset(large, '\n', sizeof large);
    EXPECT(factbox_import(put(input, large, sizeof large, 1, 0), sizeof large, out, FACTBOX_TABLE_MAX) == FACTBOX_STATEMENT);
    EXPECT(factbox_import(put(input, large, FACTBOX_IMPORT_MAX, 1, 0), FACTBOX_IMPORT_MAX, out, FACTBOX_TABLE_MAX) == FACTBOX_DONE);
    large[FACTBOX_IMPORT_MAX - 1] = '"';
    EXPECT(factbox_import(put(input, large, FACTBOX_IMPORT_MAX, 1, 0), FACTBOX_IMPORT_MAX, out, FACTBOX_TABLE_MAX) == (FACTBOX_STATEMENT | 65536 << 8));
    EXPECT(untouched(a, out, 0));
}

int main(void) {
    static const uint32_t sizes[] = {0, 1, 2, 3, 7, 64, 1023, 1024};
    guard_page_faults();
    empty_and_null();
    gap_writes_its_lines();
    class_writes_nothing();
    refused_texts();
    for (size_t i = 0; i < sizeof sizes / sizeof *sizes; i++) {
        for (size_t shift = 0; shift <= 16; shift++) {
            place at = {shift == 16, shift % 16};
            placed(sizes[i], at);
            imported(sizes[i], at);
        }
    }
    return finish("test_memory");
}

/* The stack that each call takes. A call runs on a thread whose stack was painted beforehand; what is no longer painted was
 * used. The inputs are full tables that lead search and check through every rule, with yes, no, long and refusals, with a
 * gap and without; and full texts to import, with the most different tokens, the longest ones, and refusals. A function that takes more than a call may shows that the measure would see it. */
#include "factbox.h"
#include "test.h"

#include <pthread.h>
#include <stdlib.h>
#include <string.h>
#include <sys/mman.h>

enum { STACK = 1 << 20, PAINT = 0xa5, HALF = 511 };

enum { WRITE, READ, QUESTION, CHECK, IMPORT, KNOWN, CALLS };
static const char *const NAMES[] = {"write", "read", "question", "check", "import"};

static uint8_t table[FACTBOX_TABLE_MAX], lines[FACTBOX_DERIVATION_MAX];
static uint32_t row[FACTBOX_ROW_MAX];
static char text[FACTBOX_IMPORT_MAX + 1];
static size_t lines_len, text_len;

/* What is called, and what was found: the call's answer, and the most stack of each call. */
typedef struct { int which; uint32_t fact[3], limit; uint64_t answer; uint8_t *top; } job;
static size_t most[CALLS];

/* Takes a little more stack than a call may. */
__attribute__((noinline)) static uint8_t known_amount(uint8_t seed) {
    volatile uint8_t room[FACTBOX_STACK_MAX];
    for (size_t i = 0; i < sizeof room; i++) room[i] = seed;
    return room[seed];
}

static void *run(void *argument) {
    job *j = argument;
    j->top = __builtin_frame_address(0);
    switch (j->which) {
    case WRITE: j->answer = factbox_write(row, FACTBOX_ROW_MAX, table, sizeof table); break;
    case READ: j->answer = factbox_read(table, sizeof table, row, FACTBOX_ROW_MAX); break;
    case QUESTION:
        j->answer = factbox_question(table, sizeof table, j->fact[0], j->fact[1], j->fact[2], j->limit, lines, sizeof lines);
        break;
    case CHECK:
        j->answer = factbox_check(table, sizeof table, j->fact[0], j->fact[1], j->fact[2], lines, lines_len);
        break;
    case IMPORT: j->answer = factbox_import((const uint8_t *)text, text_len, table, sizeof table); break;
    default: j->answer = known_amount(0x11); break;
    }
    return NULL;
}

/* Runs the call, notes how far down its stack went, and gives its number. */
static unsigned measure(job j) {
    uint8_t *memory = mmap(NULL, STACK, PROT_READ | PROT_WRITE, MAP_PRIVATE | MAP_ANONYMOUS, -1, 0);
    if (memory == MAP_FAILED) exit(2);
    memset(memory, PAINT, STACK);
    pthread_attr_t attributes;
    pthread_t thread;
    EXPECT(pthread_attr_init(&attributes) == 0 && pthread_attr_setstack(&attributes, memory, STACK) == 0);
    EXPECT(pthread_create(&thread, &attributes, run, &j) == 0 && pthread_join(thread, NULL) == 0);
    size_t spare = 0;
    while (spare < STACK && memory[spare] == PAINT) spare++;
    size_t taken = (size_t)(j.top - (memory + spare));
    if (taken > most[j.which]) most[j.which] = taken;
    EXPECT((j.which == KNOWN) == (taken > FACTBOX_STACK_MAX));
    munmap(memory, STACK);
    return factbox_number(j.answer);
}

static void set(size_t i, uint32_t subject, uint32_t predicate, uint32_t object) {
    row[3 * i] = subject, row[3 * i + 1] = predicate, row[3 * i + 2] = object;
}

/* A full table: one chain of subclass or subproperty facts. */
static void chain(uint32_t predicate) {
    for (uint32_t i = 0; i < FACTBOX_FACTS_MAX; i++) set(i, 6 + i, predicate, 7 + i);
}

/* A full table: (6 10000 7), a chain of subproperties from 10000, the last one's domain or range, subclasses from there. */
static void joined(uint32_t predicate) {
    set(0, 6, 10000, 7);
    for (uint32_t i = 0; i < HALF; i++) set(1 + i, 10000 + i, 2, 10001 + i);
    set(1 + HALF, 10000 + HALF, predicate, 20000);
    for (uint32_t i = 0; i < HALF; i++) set(2 + HALF + i, 20000 + i, 1, 20001 + i);
}

/* All calls on the table in the row, for a fact that takes `count` of its facts. */
static void calls(uint32_t s, uint32_t p, uint32_t o, uint32_t count) {
    EXPECT(measure((job){.which = WRITE}) == FACTBOX_DONE);
    EXPECT(measure((job){.which = READ}) == FACTBOX_DONE);
    EXPECT(measure((job){.which = QUESTION, .fact = {s, p, 39999}, .limit = 1024}) == FACTBOX_NO);
    EXPECT(measure((job){.which = QUESTION, .fact = {FACTBOX_GAP, p, FACTBOX_GAP}, .limit = 1024}) == FACTBOX_BLANK);
    EXPECT(measure((job){.which = QUESTION, .fact = {s, 1, 40000}, .limit = 1024}) == FACTBOX_CLASS);
    EXPECT(measure((job){.which = QUESTION, .fact = {FACTBOX_GAP, p, 39999}, .limit = 1024}) == FACTBOX_NO);
    EXPECT(measure((job){.which = QUESTION, .fact = {FACTBOX_GAP, p, o}, .limit = 0}) == FACTBOX_LONG);
    EXPECT(measure((job){.which = QUESTION, .fact = {FACTBOX_GAP, p, o}, .limit = 1024}) == FACTBOX_YES);
    EXPECT(measure((job){.which = QUESTION, .fact = {s, p, FACTBOX_GAP}, .limit = 1024}) == FACTBOX_YES);
    EXPECT(measure((job){.which = QUESTION, .fact = {s, p, o}, .limit = count - 1}) == FACTBOX_LONG);
    EXPECT(measure((job){.which = QUESTION, .fact = {s, p, o}, .limit = 1024}) == FACTBOX_YES);
    lines_len = FACTBOX_DERIVATION_LINE * (2 * (size_t)count - 1);
    EXPECT(measure((job){.which = CHECK, .fact = {s, p, o}}) == FACTBOX_ACCEPTED);
    EXPECT(measure((job){.which = CHECK, .fact = {s, p, 39999}}) == FACTBOX_END);
    lines[lines_len - 31 * 3 + 4] = '9';
    EXPECT(measure((job){.which = CHECK, .fact = {s, p, o}}) == FACTBOX_STEP);
    lines[lines_len - 31] = 'x';
    EXPECT(measure((job){.which = CHECK, .fact = {s, p, o}}) == FACTBOX_FORM);
}

/* A text of so many facts, each with tokens of its own. */
static void tokens(unsigned facts) {
    text_len = 0;
    for (unsigned i = 0; i < facts; i++) text_len += (size_t)sprintf(text + text_len, "<s%u> <p%u> \"o%u\"@en .\n", i, i, i);
}

/* The import of the text with what is put behind it. */
static unsigned import(const char *more) {
    size_t len = text_len;
    strcpy(text + len, more);
    text_len += strlen(more);
    unsigned number = measure((job){.which = IMPORT});
    text_len = len;
    return number;
}

/* Full texts: the most tokens, a crowd, all refusals, and one token as long as the text. */
static void imports(void) {
    tokens(1024);
    EXPECT(import("") == FACTBOX_DONE);
    EXPECT(import("x") == FACTBOX_STATEMENT);
    EXPECT(import("_:a <b> _:c .") == FACTBOX_UNKNOWN);
    EXPECT(import("<a> <http://www.w3.org/2000/01/rdf-schema#range> \"c\" .") == FACTBOX_CLASS);
    EXPECT(import("<http://www.w3.org/2000/01/rdf-schema#range> <b> <c> .") == FACTBOX_PART);
    EXPECT(import("<a> <b> <c> .") == FACTBOX_CROWD);
    tokens(2000);
    EXPECT(import("") == FACTBOX_CROWD);
    memset(text, 'x', FACTBOX_IMPORT_MAX);
    memcpy(text, "<a> <b> \"", 9);
    text_len = FACTBOX_IMPORT_MAX - 2;
    EXPECT(import("\".") == FACTBOX_DONE);
    EXPECT(import("\"\\") == FACTBOX_STATEMENT);
}

/* Everything. The first time, the dynamic linker may look up memset and its like, on the call's stack. */
static void all(void) {
    memset(most, 0, sizeof most);
    chain(1), calls(6, 1, 1030, 1024);
    chain(2), calls(6, 2, 1030, 1024);
    joined(3), calls(6, 5, 20000 + HALF, 1024), calls(6, 10000 + HALF, 7, HALF + 1);
    joined(4), calls(7, 5, 20000 + HALF, 1024);
    imports();
    measure((job){.which = KNOWN});
}

int main(void) {
    for (int pass = 0; pass < 2; pass++) {
        all();
        printf("test_stack: bytes of stack, %s:", pass == 0 ? "first calls" : "later calls");
        for (int i = 0; i < KNOWN; i++) printf(" %s %zu", NAMES[i], most[i]);
        printf("\n");
    }
    return finish("test_stack");
}

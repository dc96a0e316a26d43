/* Makes a table for the fact box from N-Triples, as the planning office exports them.
 *
 *   import [-o TABLE] [--names NAMES] [TRIPLES]     from a file, or from standard input (no TRIPLES, or -)
 *
 * What TRIPLES may have, and how its tokens are numbered, is said in factbox.h. The table goes to standard output, or to the file
 * named with -o; which number stands for which token goes to NAMES, as names.h says. Both are worked out apart: the table by the
 * box, the names here. They are written only if the names turn the table back into just the statements of TRIPLES. Standard error
 * has how many facts it is, or, with file and line, each line that can't be taken, and why.
 *
 * Exit status: 0 done; 1 the text was refused, and nothing is written or opened for writing; 2 bad usage, a file that can't be read,
 * a failed write, after which files are as they were, or names that do not turn the table back. */
#include "factbox.h"
#include "lines.h"
#include "names.h"
#include "output.h"
#include "shown.h"
#include "triples.h"
#include "words.h"

#include <getopt.h>
#include <stdlib.h>
#include <string.h>
#include <unistd.h>

const char PROGRAM[] = "import";

enum { FAULTS_SHOWN = 20, STATEMENTS_MAX = FACTBOX_IMPORT_MAX / 8 + 1 };

/* The text, with a byte more than the most: a longer one then gets its refusal. */
static uint8_t text[FACTBOX_IMPORT_MAX + 1];
static size_t text_len;
static const char *text_name;

static uint8_t table[FACTBOX_TABLE_MAX];

/* A statement's tokens. */
typedef struct {
    token part[3];
} triple;

static triple said[STATEMENTS_MAX], meant[FACTBOX_FACTS_MAX];

/* A line of the text, without its line end. */
typedef struct {
    const char *text;
    size_t len;
    unsigned number;        /* from 1 */
} line;

/* Goes to the next line, the first for number 0; 0 behind the last. */
static int go_on(line *l) {
    const char *end = (const char *)text + text_len, *at = l->number == 0 ? (const char *)text : l->text + l->len + 1;
    if (at >= end) return 0;
    const char *stop = memchr(at, '\n', (size_t)(end - at));
    *l = (line){at, (size_t)((stop ? stop : end) - at), l->number + 1};
    return 1;
}

/* ---- what is wrong */

/* Shows a line, of a long one the part around a place. */
static void show_line(const line *l, size_t place) {
    enum { SHOWN = 120 };
    static char out[4 * (SHOWN + 4) + 1];
    size_t from = l->len <= SHOWN || place < SHOWN / 2 ? 0 : place - SHOWN / 2;
    if (l->len > SHOWN && from > l->len - SHOWN) from = l->len - SHOWN;
    size_t to = l->len - from < SHOWN ? l->len : character_place(l->text, l->len, from + SHOWN);
    from = character_place(l->text, l->len, from);
    put_shown(out, l->text + from, to - from);
    fprintf(stderr, "  line %-5u %s%s%s\n", l->number, from > 0 ? ".." : "", out, to < l->len ? ".." : "");
}

/* A place in the line as a column: characters, from 1. */
static size_t column(const line *l, size_t place) {
    size_t n = 1;
    for (size_t i = 0; i < place; i++) n += ((unsigned char)l->text[i] & 0xc0) != 0x80;
    return n;
}

/* A token in a sentence, of a long one the front. */
static const char *token_words(token t) {
    enum { SHOWN = 60 };
    static char out[4 * SHOWN + 8];
    char *end = put_shown(out, t.text, t.len <= SHOWN ? t.len : character_place(t.text, t.len, SHOWN));
    strcpy(end, t.len > SHOWN ? ".." : "");
    return out;
}

/* Why the statement's object earns refusal 12. */
static const char *class_fault(const statement *s) {
    static char out[96];
    uint32_t predicate = vocabulary_number(s->part[1]);
    const char *what = belonging(predicate, 2);
    snprintf(out, sizeof out, "is a literal; the object of %s must be a %s: put the %s's IRI", predicate_word(predicate), what, what);
    return out;
}

/* Why a token of the statement earns refusal 14, 5 or 12; NULL if it does not. */
static const char *part_fault(const statement *s, size_t part) {
    token t = s->part[part];
    switch (s->refusal) {
    case FACTBOX_UNKNOWN: return *t.text == '_' ? "is a blank node: give it an IRI" : NULL;
    case FACTBOX_PART: return part != 1 && vocabulary_number(t) ? "is vocabulary, which can only be the predicate" : NULL;
    default: return is_literal_token(t) ? class_fault(s) : NULL;
    }
}

/* Says how many lines below this one break for the same reason, if any do. */
static void count_more(line l, const char *why) {
    size_t more = 0;
    while (go_on(&l)) more += read_statement(l.text, l.len).why == why;
    if (more > 0) fprintf(stderr, "  %zu more line%s end%s so\n", more, plural(more), more == 1 ? "s" : "");
}

/* Says that the box refuses a line. */
static void name_line(const line *l, unsigned number, size_t place) {
    fprintf(stderr, "%s:%u: %u %s\n", shown_file(text_name), l->number, number, refusal_words(number));
    show_line(l, place);
}

/* Says that the box refuses a line, and why, if it is read so here too. */
static void complain(const line *l, const statement *s, unsigned number) {
    const char *why;
    int agreed = s->refusal == number, torn = agreed && number == FACTBOX_STATEMENT;
    name_line(l, number, torn ? s->at : 0);
    if (torn) fprintf(stderr, "  column %zu: %s\n", column(l, s->at), s->why);
    if (torn && s->of_all) count_more(*l, s->why);
    for (size_t part = 0; agreed && s->said && part < 3; part++)
        if ((why = part_fault(s, part))) fprintf(stderr, "  the %s, %s, %s\n", FIELD_NAMES[part], token_words(s->part[part]), why);
}

/* Whether a refusal is for the form of lines, which all of them must pass before any is tried for what it says. */
static int is_of_form(unsigned refusal) { return refusal == FACTBOX_STATEMENT || refusal == FACTBOX_UNKNOWN; }

/* Why no line of the text can be read: it is not in UTF-8. NULL if it probably is. */
static const char *coding_fault(void) {
    int marked = text_len >= 2 && (!memcmp(text, "\xff\xfe", 2) || !memcmp(text, "\xfe\xff", 2));
    if (marked) return "the file is UTF-16 or UTF-32: save it as UTF-8";
    return memchr(text, '\0', text_len < 2 ? text_len : 2) ? "byte 0: the file is probably UTF-16 or UTF-32; save it as UTF-8" : NULL;
}

/* Names the line that the box refused, with a reason that holds of the whole text. */
static int refuse_coding(unsigned number, unsigned first, const char *why) {
    line l = {.number = 0};
    while (l.number < first && go_on(&l)) {}
    name_line(&l, number, 0);
    fprintf(stderr, "  %s\n", why);
    return 1;
}

/* Names the line that the box refused, and those below it that it would refuse next; of those that break as all lines do, one. */
static int refuse_lines(uint64_t result) {
    unsigned faults = 0, number = factbox_number(result), first = factbox_place(result);
    const char *coding = number == FACTBOX_STATEMENT ? coding_fault() : NULL;
    int told = 0;
    if (coding) return refuse_coding(number, first, coding);
    for (line l = {.number = 0}; faults <= FAULTS_SHOWN && go_on(&l);) {
        statement s = read_statement(l.text, l.len);
        int next = s.refusal && is_of_form(s.refusal) == is_of_form(number);
        if (l.number < first || (l.number > first && !next) || (told && s.of_all)) continue;
        if (s.of_all) told = 1;
        if (++faults <= FAULTS_SHOWN) complain(&l, &s, l.number == first ? number : s.refusal);
    }
    if (faults > FAULTS_SHOWN) fprintf(stderr, "import: more than %d lines can't be taken, the first are named\n", FAULTS_SHOWN);
    return 1;
}

static int compare(const void *a, const void *b) {
    const triple *s = a, *t = b;
    for (size_t i = 0; i < 2; i++) {
        int order = compare_tokens(s->part[i], t->part[i]);
        if (order) return order;
    }
    return compare_tokens(s->part[2], t->part[2]);
}

/* Sorts triples and drops repeats; how many are left. */
static size_t sort(triple *triples, size_t count) {
    size_t kept = 0;
    qsort(triples, count, sizeof *triples, compare);
    for (size_t i = 0; i < count; i++)
        if (kept == 0 || compare(&triples[kept - 1], &triples[i]) != 0) triples[kept++] = triples[i];
    return kept;
}

/* The statements of the text, in order; how many. */
static size_t read_all(void) {
    size_t count = 0;
    for (line l = {.number = 0}; go_on(&l);) {
        statement s = read_statement(l.text, l.len);
        if (s.said) memcpy(said[count++].part, s.part, sizeof s.part);
    }
    return count;
}

/* Says why the box refuses the text. */
static int refuse(uint64_t result) {
    unsigned number = factbox_number(result);
    const char *large = coding_fault();
    if (factbox_place(result) > 0) return refuse_lines(result);
    if (!large) large = "the text has more than 65,536 bytes: leave statements out";
    fprintf(stderr, "%s: %u %s\n", shown_file(text_name), number, text_refusal(number));
    if (number == FACTBOX_STATEMENT) fprintf(stderr, "  %s\n", large);
    else fprintf(stderr, "  the text has %zu different statements\n", sort(said, read_all()));
    return 1;
}

/* ---- names */

/* Whether the names, read from their file, turn the table back into just the statements. */
static int turns_back(const char *names, size_t names_len, size_t facts, size_t count) {
    static uint32_t row[FACTBOX_ROW_MAX];
    unsigned at;
    if (read_names(names, names_len, table, FACTBOX_TABLE_LINE * facts, &at)) return 0;
    if (factbox_number(factbox_read(table, FACTBOX_TABLE_LINE * facts, row, FACTBOX_ROW_MAX)) != FACTBOX_DONE) return 0;
    for (size_t i = 0; i < 3 * facts; i++) meant[i / 3].part[i % 3] = number_token(row[i]);
    size_t statements = sort(said, count);
    if (sort(meant, facts) != facts || statements != facts) return 0;
    for (size_t i = 0; i < facts; i++)
        if (compare(&meant[i], &said[i]) != 0) return 0;
    return 1;
}

/* The names of the text's tokens, by first appearance, as a file; its length. Names that do not turn the table back end the program. */
static size_t make_names(char *names, size_t facts) {
    size_t count = read_all(), len = 0;
    int room = 1;
    for (size_t i = 0; i < 3 * count; i++) room = token_number(said[i / 3].part[i % 3]) && room;
    if (room) len = write_names(table, FACTBOX_TABLE_LINE * facts, names);
    if (!room || !turns_back(names, len, facts, count)) fail("the names do not turn the table back into the statements", text_name);
    return len;
}

/* Writes the table, and the names if they have a file. */
static int finish(const char *table_file, const char *names_file, size_t facts) {
    static char names[NAMES_FILE_MAX];
    size_t names_len = names_file ? make_names(names, facts) : 0;
    const output outputs[] = {{table_file, table, FACTBOX_TABLE_LINE * facts}, {names_file, names, names_len}};
    put_out(outputs, names_file ? 2 : 1);
    fprintf(stderr, "import: %zu fact%s\n", facts, plural(facts));
    return 0;
}

/* Two files that may not be one: NULL, or what they are. */
static const char *same_files(const char *triples_file, const char *table_file, const char *names_file) {
    file triples = {triples_file, STDIN_FILENO}, made = {table_file, STDOUT_FILENO}, names = {names_file, -1};
    if (is_same_file(made, names)) return "the table and the names";
    if (is_same_file(triples, made)) return "the triples and the table";
    return is_same_file(triples, names) ? "the triples and the names" : NULL;
}

int main(int argc, char **argv) {
    static const struct option options[] = {{"names", required_argument, NULL, 'n'}, {NULL, 0, NULL, 0}};
    const char *table_file = NULL, *names_file = NULL;
    int wrong = asks_for_help(argc, argv);
    outlive_readers();
    for (int option; !wrong && (option = getopt_long(argc, argv, "o:", options, NULL)) != -1;) {
        if (option == 'o') table_file = optarg;
        else if (option == 'n') names_file = optarg;
        else wrong = 1;
    }
    if (wrong || argc - optind > 1) {
        fputs("usage: import [-o TABLE] [--names NAMES] [TRIPLES]     (no TRIPLES, or -: standard input)\n", stderr);
        return 2;
    }
    const char *triples = optind < argc && strcmp(argv[optind], "-") != 0 ? argv[optind] : NULL;
    const char *same = same_files(triples, table_file, names_file);
    if (same) fail("can't be in one file", same);
    text_name = triples ? triples : "standard input";
    text_len = load(triples, text, sizeof text);
    uint64_t result = factbox_import(text, text_len, table, sizeof table);
    return factbox_number(result) == FACTBOX_DONE ? finish(table_file, names_file, factbox_count(result)) : refuse(result);
}

/* Makes a table for the fact box from lines that a person writes, and prints a table as such lines.
 *
 *   table [-o TABLE] [LINES..]     makes one table of all lines of the files (or of standard input)
 *   table -w [-o LINES] TABLE      prints a table, its predicates in words, as lines that `table` reads again
 *
 * A line is one fact, subject, predicate and object, written as lines.h says; a fact has no gap. The facts are sorted,
 * repeats dropped, the numbers padded. The result goes to standard output, or to the file named with -o, which may be one of
 * those read. Standard error has how many facts it is, or, with file and line, each line that can't be taken.
 *
 * Exit status: 0 done; 1 a line or the table was refused, and nothing is written or opened for writing; 2 bad usage, a file
 * that can't be read, or a failed write, after which a file named with -o is as it was. */
#include "factbox.h"
#include "fault.h"
#include "lines.h"
#include "output.h"
#include "shown.h"
#include "triples.h"
#include "words.h"

#include <stdlib.h>
#include <string.h>
#include <unistd.h>

const char PROGRAM[] = "table";

enum { FAULTS_SHOWN = 20 };

/* A fact and the line that it was first read from. */
typedef struct {
    uint32_t fact[3];
    const char *name;
    unsigned line;
} entry;

/* The facts so far, ascending, each once. */
static entry entries[FACTBOX_FACTS_MAX];
static size_t count, repeats, faults;

/* The result, ready to be written out; a line in words has 24 bytes. */
static uint8_t result[24 * FACTBOX_FACTS_MAX + 1];

/* Counts a line that can't be taken, before it is named. After many, no more are, and the rest is not read. */
static void count_fault(void) {
    if (++faults <= FAULTS_SHOWN) return;
    fprintf(stderr, "table: more than %d lines can't be taken, the first are named\n", FAULTS_SHOWN);
    exit(1);
}

/* Says what is wrong with a line. */
static void complain(const char *name, unsigned line, const char *what) {
    count_fault();
    fprintf(stderr, "%s:%u: %s\n", shown_file(name), line, what);
}

/* Says that the box refuses a fact, where it was read, and which of its fields earn that. */
static void complain_refused(const entry *e, unsigned number) {
    count_fault();
    fprintf(stderr, "%s:%u: %u %s\n", shown_file(e->name), e->line, number, refusal_words(number));
    explain_fact(stderr, number, e->fact, "");
}

static int compare(const uint32_t *a, const uint32_t *b) {
    size_t i = 0;
    while (i < 2 && a[i] == b[i]) i++;
    return (a[i] > b[i]) - (a[i] < b[i]);
}

/* Puts the fact at its place, unless it is there. */
static void insert(const entry *e) {
    size_t low = 0, high = count;
    while (low < high) {
        size_t middle = (low + high) / 2;
        if (compare(entries[middle].fact, e->fact) < 0) low = middle + 1;
        else high = middle;
    }
    if (low < count && compare(entries[low].fact, e->fact) == 0) {
        repeats++;
        return;
    }
    if (count == FACTBOX_FACTS_MAX) {
        complain(e->name, e->line, "one different fact too many: a table has at most 1,024");
        exit(1);
    }
    memmove(&entries[low + 1], &entries[low], (count - low) * sizeof *entries);
    entries[low] = *e;
    count++;
}

/* Says what is wrong with a line. Of a file of N-Triples only the first such line is named, with what to do. */
static void complain_of(const lines *in, const char *what) {
    static const char *told;
    int triples = looks_like_triples(in->text, in->len < TEXT_MAX ? in->len : TEXT_MAX);
    if (triples && told == in->name) return;
    complain(in->name, in->line, what);
    if (!triples) return;
    told = in->name;
    advise_import(stderr, in->file == stdin ? NULL : in->name);
}

/* Takes every line of a file. The box itself judges each fact. */
static void take(lines in) {
    while (next_line(&in)) {
        entry e = {.name = in.name, .line = in.line};
        const char *wrong = line_fields(in.text, in.len, 3, e.fact);
        if (wrong) complain_of(&in, wrong);
        else if (fact_refusal(e.fact)) complain_refused(&e, fact_refusal(e.fact));
        else insert(&e);
    }
}

/* Ends the program if the box did not take the whole. */
static void demand_done(uint64_t answer) {
    unsigned place = factbox_place(answer);
    if (factbox_number(answer) == FACTBOX_DONE) return;
    complain_refused(&entries[place > 0 && place <= count ? place - 1 : 0], factbox_number(answer));
    exit(1);
}

/* The facts as a table, which the box has read without a refusal; its length. */
static size_t make(void) {
    static uint32_t row[FACTBOX_ROW_MAX];
    size_t len = count * FACTBOX_TABLE_LINE;
    for (size_t i = 0; i < count; i++) memcpy(&row[3 * i], entries[i].fact, sizeof entries[i].fact);
    demand_done(factbox_write(row, 3 * count, result, sizeof result));
    demand_done(factbox_read(result, len, row, FACTBOX_ROW_MAX));
    return len;
}

/* A table's facts as lines with words; their length. */
static size_t in_words(const char *name) {
    static uint8_t table[TABLE_LOOK];
    static uint32_t row[FACTBOX_ROW_MAX];
    size_t table_len = load(name, table, sizeof table), len = 0;
    uint64_t answer = factbox_read(table, table_len, row, FACTBOX_ROW_MAX);
    if (factbox_number(answer) != FACTBOX_DONE) {
        explain_table(stderr, name, table, table_len, answer);
        exit(1);
    }
    for (const uint32_t *f = row; f < row + 3 * factbox_count(answer); f += 3)
        len += (size_t)snprintf((char *)result + len, sizeof result - len, "%5u %-11s %5u\n", (unsigned)f[0],
                                predicate_word(f[1]), (unsigned)f[2]);
    return len;
}

int main(int argc, char **argv) {
    const char *out = NULL;
    int reverse = 0, wrong = asks_for_help(argc, argv);
    outlive_readers();
    for (int option; !wrong && (option = getopt(argc, argv, "wo:")) != -1;) {
        if (option == 'w') reverse = 1;
        else if (option == 'o') out = optarg;
        else wrong = 1;
    }
    if (wrong || (reverse && argc - optind != 1)) {
        fputs("usage: table [-o TABLE] [LINES..]\n       table -w [-o LINES] TABLE\n", stderr);
        return 2;
    }
    if (reverse) {
        put_out(&(output){out, result, in_words(argv[optind])}, 1);
        return 0;
    }
    if (optind == argc) take(open_lines(NULL));
    for (int i = optind; i < argc; i++) take(open_lines(argv[i]));
    if (faults > 0) return 1;
    put_out(&(output){out, result, make()}, 1);
    fprintf(stderr, "table: %zu fact%s, %zu repeat%s dropped\n", count, plural(count), repeats, plural(repeats));
    return 0;
}

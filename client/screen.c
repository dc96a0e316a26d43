/* The screen of the fact box: tries a table, puts questions or a derivation to it, and shows the answers in words.
 *
 *   screen [--names NAMES] TABLE [QUESTIONS]               each line of QUESTIONS (or of standard input) is a question:
 *                                                          subject, predicate, object, allowance
 *   screen [--names NAMES] -c TABLE DERIVATION SUBJECT PREDICATE OBJECT
 *                                                          checks a derivation
 *
 * The table is tried first, also where no question follows. If it is refused, the screen shows the line and what is
 * probably wrong with it, and ends. A question is written as lines.h says: numbers apart, or in the box's own layout; the
 * predicate may be a word, and `?` (or 60000 to 65535) as subject or object asks for a term that may stand there. One that
 * is refused is shown with file and line; one that can't be read is named with them on standard error. The next are answered.
 *
 * With NAMES, which `import` makes with a table, names stand in place of numbers, and a question may have a name as it is shown, or the
 * whole token as NAMES has it.
 *
 * Exit status: 0 all was answered; 1 the table, the names, a question or the derivation was refused; 2 bad usage, a question that
 * can't be read, a file that can't be read, a failed write, or a derivation of the box that its own check does not accept.
 * Where both 1 and 2 hold, it is 2. */
#include "factbox.h"
#include "fault.h"
#include "lines.h"
#include "names.h"
#include "output.h"
#include "shown.h"
#include "words.h"

#include <getopt.h>
#include <string.h>
#include <unistd.h>

const char PROGRAM[] = "screen";

enum { ANSWERED = 0, REFUSED = 1, FAILED = 2 };

static uint8_t table[TABLE_LOOK];
static size_t table_len;

/* One byte more than the most: a longer file then gets its refusal. */
static uint8_t derivation[FACTBOX_DERIVATION_MAX + 1];

static const char *const RULES[] = {
    "", "subproperty of a subproperty", "by subproperty", "subclass of a subclass", "by subclass", "by domain", "by range",
};

static const char *const GREEN = "\033[1;32m", *const RED = "\033[1;31m", *const YELLOW = "\033[1;33m";

/* The answer in one word. It stands out on a terminal. */
static void headline(const char *word, const char *colour) {
    int terminal = isatty(STDOUT_FILENO);
    printf("%s%-9s%s", terminal ? colour : "", word, terminal ? "\033[0m" : "");
}

/* The answer in one word, then what was put. */
static void answer(const char *word, const char *colour, const char *put) {
    headline(word, colour);
    printf("%s: ", put);
}

/* Brings what was shown to where it goes. If that fails, nothing was answered. */
static void flush(void) {
    if (fflush(stdout) || ferror(stdout)) fail("can't be written", "standard output");
}

/* What to do about a gap in the triple put to the check. */
static const char NAMED[] = ": put the term that the answer named";

/* Shows that a question was refused, where it stands and why. */
static int refuse_question(unsigned number, const uint32_t *question, const lines *at) {
    const char *why;
    answer("REFUSED", RED, question_words(question));
    printf("%u %s\n", number, question_refusal(number));
    for (size_t part = 0; (why = question_fault(number, question, &part));) printf("  %s:%u: %s\n", shown_file(at->name), at->line, why);
    return REFUSED;
}

/* Shows that the check refused; if the triple, why. The table was sound, so the place is a line of the derivation. */
static int refuse_derivation(uint64_t result, const uint32_t *fact) {
    unsigned number = factbox_number(result), place = factbox_place(result);
    int of_triple = number == FACTBOX_CLASS || (number >= FACTBOX_TERM && number <= FACTBOX_PART);
    int gap = number == FACTBOX_BLANK && !is_blank(fact[1]);
    answer("REFUSED", RED, fact_words(fact));
    printf("%u %s", number, refusal_words(number));
    if (place > 0) printf(" (derivation line %u)", place);
    printf("\n");
    if (of_triple) explain_fact(stdout, number, fact, gap ? NAMED : "");
    return REFUSED;
}

/* A field of a line that the library printed or accepted. */
static unsigned field(const uint8_t *at) {
    uint32_t value = 0;
    layout_field((const char *)at, &value);
    return (unsigned)value;
}

/* The columns of subject, predicate and object in a derivation: numbers stand at the right of them, words and names at the left. */
typedef struct {
    size_t width[3];
} layout;

/* A term of the fact on a derivation's line, as it is shown. */
static const char *shown_part(const uint8_t *line, size_t part) {
    unsigned term = field(line + 15 + 5 * part);
    return part == 1 ? predicate_word(term) : term_word(term);
}

/* Columns that are wide enough for every line. */
static layout laid_out(const uint8_t *at, size_t count) {
    layout l = {{5, 11, 5}};
    for (size_t i = 0; i < 3 * count; i++) {
        size_t wide = columns(shown_part(at + FACTBOX_DERIVATION_LINE * (i / 3), i % 3));
        if (wide > l.width[i % 3]) l.width[i % 3] = wide;
    }
    return l;
}

/* A term in its columns. */
static void show_part(const char *text, size_t width, int right) {
    int spaces = (int)(width - columns(text));
    printf("%*s%s%*s", right ? spaces : 0, "", text, right ? 0 : spaces, "");
}

/* One line each: its number, its fact, and why it stands there. */
static void show_derivation(const uint8_t *at, size_t count) {
    layout l = laid_out(at, count);
    for (size_t i = 1; i <= count; i++, at += FACTBOX_DERIVATION_LINE) {
        unsigned rule = field(at);
        printf("  %4zu  ", i);
        for (size_t part = 0; part < 3; part++) {
            show_part(shown_part(at, part), l.width[part], part != 1 && !has_names());
            printf(part < 2 ? " " : "   ");
        }
        if (rule == 0) printf("table\n");
        else printf("rule %u, %s, from %u and %u\n", rule, RULES[rule <= 6 ? rule : 0], field(at + 5), field(at + 10));
    }
}

/* Whether the question has a gap. */
static int has_gap(const uint32_t *question) { return is_blank(question[0]) || is_blank(question[2]); }

/* Shows a yes, after the check has accepted its derivation for the question with its gap filled. */
static int show_yes(const uint32_t *question, unsigned count, unsigned filling) {
    size_t printed = 2 * (size_t)count - 1, len = printed * FACTBOX_DERIVATION_LINE;
    uint32_t subject = is_blank(question[0]) ? filling : question[0], object = is_blank(question[2]) ? filling : question[2];
    uint64_t verdict = factbox_check(table, table_len, subject, question[1], object, derivation, len);
    if (factbox_number(verdict) != FACTBOX_ACCEPTED || factbox_count(verdict) != count) {
        answer("FAULT", RED, question_words(question));
        printf("the check does not accept the derivation\n");
        return FAILED;
    }
    answer("YES", GREEN, question_words(question));
    if (has_gap(question)) printf("%s, ", term_word(filling));
    printf("from %u table fact%s\n", count, plural(count));
    show_derivation(derivation, printed);
    return ANSWERED;
}

/* Puts the question, a triple and its allowance, that stands on this line, and shows the answer. */
static int ask(const uint32_t *question, const lines *at) {
    uint32_t allowance = question[3];
    size_t room = allowance <= FACTBOX_FACTS_MAX ? factbox_output_size(allowance) : 0;
    uint64_t result =
        factbox_question(table, table_len, question[0], question[1], question[2], allowance, derivation, room);
    unsigned number = factbox_number(result), count = factbox_count(result);
    const char *put = question_words(question);
    switch (number) {
    case FACTBOX_YES: return show_yes(question, count, factbox_filling(result));
    case FACTBOX_NO:
        answer("NO", RED, put);
        printf("%s\n", has_gap(question) ? "follows from the table for no X" : "does not follow from the table");
        return ANSWERED;
    case FACTBOX_LONG:
        answer("LONG", YELLOW, put);
        printf("%s %u table fact%s, %u allowed\n", has_gap(question) ? "every X takes at least" : "takes", count,
               plural(count), (unsigned)allowance);
        return ANSWERED;
    default: return refuse_question(number, question, at);
    }
}

static int ask_all(lines questions) {
    int status = ANSWERED;
    while (next_line(&questions)) {
        uint32_t question[4];
        const char *wrong = line_fields(questions.text, questions.len, 4, question);
        int found = wrong ? FAILED : ask(question, &questions);
        if (wrong) fprintf(stderr, "%s:%u: %s\n", shown_file(questions.name), questions.line, wrong);
        if (found > status) status = found;
        flush();
    }
    return status;
}

/* One term of the triple put to the check. What can't be read ends the program. */
static uint32_t term_put(const char *text, size_t place) {
    char why[448];
    uint32_t value = 0;
    int gap = place != 1 && strcmp(text, "?") == 0;
    const char *wrong = field_value(text, strlen(text), place, 3, &value);
    if (!wrong) return value;
    snprintf(why, sizeof why, "%s%s", wrong, gap ? NAMED : "");
    fail(why, FIELD_NAMES[place]);
}

static int check(const char *name, char **triple) {
    uint32_t fact[3];
    for (size_t i = 0; i < 3; i++) fact[i] = term_put(triple[i], i);
    size_t len = load(name, derivation, sizeof derivation);
    uint64_t result = factbox_check(table, table_len, fact[0], fact[1], fact[2], derivation, len);
    unsigned count = factbox_count(result);
    if (factbox_number(result) != FACTBOX_ACCEPTED) return refuse_derivation(result, fact);
    answer("ACCEPTED", GREEN, fact_words(fact));
    printf("%u table line%s\n", count, plural(count));
    show_derivation(derivation, len / FACTBOX_DERIVATION_LINE);
    return ANSWERED;
}

/* Loads the table and says whether it is sound. */
static int try_table(const char *name) {
    static uint32_t row[FACTBOX_ROW_MAX];
    table_len = load(name, table, sizeof table);
    uint64_t result = factbox_read(table, table_len, row, FACTBOX_ROW_MAX);
    if (factbox_number(result) != FACTBOX_DONE) {
        headline("REFUSED", RED);
        explain_table(stdout, name, table, table_len, result);
        return REFUSED;
    }
    headline("SOUND", GREEN);
    printf("%s: %u fact%s\n", shown_file(name), factbox_count(result), plural(factbox_count(result)));
    return ANSWERED;
}

/* Loads the names and says what is wrong with them, if anything is. */
static int try_names(const char *name) {
    static char names[NAMES_FILE_MAX + 1];
    unsigned line;
    size_t len = load(name, (uint8_t *)names, sizeof names);
    const char *wrong = read_names(names, len, table, table_len, &line);
    if (!wrong) return ANSWERED;
    headline("REFUSED", RED);
    printf("%s", shown_file(name));
    if (line > 0) printf(":%u", line);
    printf(": %s\n", wrong);
    return REFUSED;
}

/* Whether an option stands among the files, behind the first. */
static int has_option(char **files, int count) {
    for (int i = 1; i < count; i++)
        if (strcmp(files[i], "-c") == 0 || strncmp(files[i], "--names", 7) == 0) return 1;
    return 0;
}

/* Says how the program is used, and where an option stands behind TABLE that it is too late. */
static int show_usage(char **files, int count) {
    if (has_option(files, count)) fputs("screen: options stand before TABLE\n", stderr);
    fputs("usage: screen [--names NAMES] TABLE [QUESTIONS]\n"
          "       screen [--names NAMES] -c TABLE DERIVATION SUBJECT PREDICATE OBJECT\n", stderr);
    return FAILED;
}

int main(int argc, char **argv) {
    static const struct option options[] = {{"names", required_argument, NULL, 'n'}, {NULL, 0, NULL, 0}};
    const char *names = NULL;
    int checking = 0, wrong = asks_for_help(argc, argv);
    outlive_readers();
    for (int option; !wrong && (option = getopt_long(argc, argv, "+c", options, NULL)) != -1;) {
        if (option == 'c') checking = 1;
        else if (option == 'n') names = optarg;
        else wrong = 1;
    }
    char **files = argv + optind;
    int count = argc - optind;
    if (!checking && has_option(files, count)) wrong = 1;
    if (wrong || (checking ? count != 5 : count != 1 && count != 2)) return show_usage(files, count);
    int status = try_table(files[0]);
    if (status == ANSWERED && names) status = try_names(names);
    flush();
    if (status == ANSWERED) status = checking ? check(files[1], files + 2) : ask_all(open_lines(files[1]));
    flush();
    return status;
}

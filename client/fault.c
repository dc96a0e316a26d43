/* What is probably wrong with a table that the box refuses: see fault.h.
 *
 * Refusal 1 has no place: its line is the first that is not 16 bytes long, or line 1,025. Refusals 2 to 6 and 12 have a place. As
 * every line above it is 16 bytes long, it is the line that a person counts. */
#include "fault.h"
#include "factbox.h"
#include "lines.h"
#include "shown.h"
#include "triples.h"
#include "words.h"

#include <string.h>

enum { COLUMNS = FACTBOX_TABLE_LINE - 1 };

/* A line of the file, without its line end. */
typedef struct {
    const char *text;
    size_t len;
    unsigned number;
    int ended;              /* it has a line end */
    size_t left;            /* the file's bytes from here on */
} line;

static line line_at(const uint8_t *table, size_t len, size_t start, unsigned number) {
    const char *text = (const char *)table + start, *end = memchr(text, '\n', len - start);
    return (line){text, end ? (size_t)(end - text) : len - start, number, end != NULL, len - start};
}

/* The first line that is not 16 bytes long, or the first above 1,024. */
static line first_odd_line(const uint8_t *table, size_t len) {
    line r = line_at(table, len, 0, 1);
    for (size_t start = 0; r.number <= FACTBOX_FACTS_MAX && r.len == COLUMNS && r.ended;) {
        start += FACTBOX_TABLE_LINE;
        r = line_at(table, len, start, r.number + 1);
    }
    return r;
}

/* The first column that is not as laid out, counted from 1; the line end's is 16. */
static size_t wrong_column(const line *r) {
    for (size_t c = 0; c < COLUMNS; c++) {
        int last = c % FIELD_COLUMNS == FIELD_COLUMNS - 1, behind_digit = c % FIELD_COLUMNS > 0 && is_digit(r->text[c - 1]);
        if (c == r->len) return c + 1;
        if (!is_digit(r->text[c]) && (r->text[c] != ' ' || behind_digit || last)) return c + 1;
        if (r->text[c] == '0' && !behind_digit && !last && c + 1 < r->len && is_digit(r->text[c + 1])) return c + 1;
    }
    return COLUMNS + 1;
}

/* What a byte is that is neither a digit nor a space. */
static const char *byte_words(const line *r, size_t at) {
    switch (r->text[at]) {
    case '#': return trimmed(r->text, r->len) == 0 ? "a comment: a table has facts only" : "a comment behind the fact";
    case '\r': return r->ended && at == r->len - 1 ? WINDOWS_END : "a carriage return: a line ends with a line feed";
    case '\t': return "a tab: fields are padded with spaces";
    case ',':
    case ';': return "a comma or semicolon: fields are padded with spaces";
    case '?': return "a question mark: a table has no gaps";
    default: return "text that is no number";
    }
}

/* A byte that no table has, and its column: NULL if the line has none. */
static const char *byte_cause(const line *r, size_t *column) {
    const char *nul = memchr(r->text, '\0', r->len);
    size_t at = nul ? (size_t)(nul - r->text) : 0;
    if (!nul) while (at < r->len && (is_digit(r->text[at]) || r->text[at] == ' ')) at++;
    if (at == r->len) return NULL;
    *column = at + 1;
    if (r->number == 1 && mark_length(r->text, r->len)) return "a byte order mark before the first number";
    if (r->number == 1 && r->len >= 2 && (!memcmp(r->text, "\xff\xfe", 2) || !memcmp(r->text, "\xfe\xff", 2))) {
        *column = 1;
        return "the file is UTF-16 text: a table is plain ASCII";
    }
    return nul ? "a NUL byte (byte 0): the file is no plain text" : byte_words(r, at);
}

/* A field that is not as laid out, in a line of digits and spaces that has its 16 bytes. */
static const char *field_cause(const line *r, size_t column) {
    static char text[128];
    size_t field = (column - 1) / FIELD_COLUMNS, first = FIELD_COLUMNS * field;
    const char *what = r->text[column - 1] == '0' ? "begins with a 0" : "is missing";
    for (size_t c = first; c < column - 1; c++)
        if (is_digit(r->text[c])) what = "does not stand at the right of its columns";
    snprintf(text, sizeof text, "the %s (columns %zu to %zu) %s", FIELD_NAMES[field], first + 1, first + FIELD_COLUMNS, what);
    return text;
}

unsigned fact_refusal(const uint32_t *fact) {
    uint8_t written[FACTBOX_TABLE_LINE];
    return factbox_number(factbox_write(fact, 3, written, sizeof written));
}

void explain_fact(FILE *out, unsigned number, const uint32_t *fact, const char *more) {
    const char *why;
    for (size_t field = 0; (why = fact_fault(number, fact, &field));) fprintf(out, "  %s%s\n", why, more);
}

/* Whether a number of the fact needs more than five columns. */
static int too_wide(const uint32_t *fact) {
    enum { WIDEST = 99999 };
    return fact[0] > WIDEST || fact[1] > WIDEST || fact[2] > WIDEST;
}

/* Why a line of digits and spaces has not its 16 bytes. Where it is for a number's width, or for what can't be read of a line
 * that has its end, there is no column. */
static const char *length_cause(const line *r, size_t *column) {
    static char text[448];
    uint32_t fact[3];
    size_t len = trimmed(r->text, r->len);
    const char *why = line_fields(r->text, len, 3, fact);
    int laid_out = len == COLUMNS && wrong_column(&(line){r->text, len, r->number, 1, r->left}) > COLUMNS;
    if (laid_out && len < r->len) return "spaces at the end of the line";
    if (laid_out) return "the last line has no line end";
    int wide = !why && too_wide(fact);
    if (wide || (why && r->ended)) *column = 0;
    if (!why) why = wide ? "a number has more than five digits" : "the numbers are not padded to five columns each";
    snprintf(text, sizeof text, "%s%s", why, r->ended ? "" : "; the file ends within the line");
    return text;
}

void advise_import(FILE *out, const char *name) {
    fprintf(out, "  this looks like N-Triples: `import -o NEW%s%s` makes a table of it\n", name ? " " : "", name ? shown_file(name) : "");
}

/* What `table` makes of a line that it can read: which numbers of it may not stand so, and that such lines are taken. */
static void explain_mending(FILE *out, const char *name, const line *r) {
    uint32_t fact[3];
    unsigned refusal = 0;
    size_t mark = r->number == 1 ? mark_length(r->text, r->len) : 0, len = trimmed(r->text + mark, r->len - mark);
    if (r->len > TEXT_MAX && !memchr(r->text, '#', TEXT_MAX)) return;
    if (len > 0 && line_fields(r->text + mark, len, 3, fact)) return;
    if (len > 0) refusal = fact_refusal(fact);
    if (refusal) explain_fact(out, refusal, fact, "");
    fprintf(out, "  %s`table` takes such lines: table -o NEW %s\n", refusal ? "with that put right, " : "", shown_file(name));
}

static void show_line(FILE *out, const line *r) { fprintf(out, "  line %-5u %s\n", r->number, quoted(r->text, r->len)); }

/* The fields of a line that is laid out. */
static void line_fact(const line *r, uint32_t *fact) {
    for (size_t i = 0; i < 3; i++) layout_field(r->text + FIELD_COLUMNS * i, &fact[i]);
}

/* Refusals 1 and 2: where the line's layout breaks, and why. */
static void explain_layout(FILE *out, const char *name, const line *r) {
    size_t column = wrong_column(r);
    const char *why = byte_cause(r, &column);
    int blank = trimmed(r->text, r->len) == 0;
    if (r->number > FACTBOX_FACTS_MAX && !blank) {
        fprintf(out, "  a table has at most 1,024 lines\n");
        return;
    }
    if (!why && blank) why = "a blank line";
    if (!why) why = r->len == COLUMNS && r->ended ? field_cause(r, column) : length_cause(r, &column);
    if (column > 0) fprintf(out, "  column %zu: %s\n", column, why);
    else fprintf(out, "  %s\n", why);
    if (looks_like_triples(r->text, r->left)) advise_import(out, name);
    else explain_mending(out, name, r);
}

/* Refusal 6: whether the two lines are the same, and where not. */
static void explain_order(FILE *out, const char *name, const line *before, const line *r) {
    uint32_t above[3], fact[3];
    size_t i = 0;
    line_fact(before, above);
    line_fact(r, fact);
    while (i < 3 && fact[i] == above[i]) i++;
    if (i == 3) fprintf(out, "  the same fact as on line %u\n", before->number);
    else
        fprintf(out, "  below line %u: its %s is %u, that of line %u is %u\n", before->number, FIELD_NAMES[i],
                (unsigned)fact[i], before->number, (unsigned)above[i]);
    fprintf(out, "  `table` sorts lines and drops repeats: table -o NEW %s\n", shown_file(name));
}

void explain_table(FILE *out, const char *name, const uint8_t *table, size_t len, uint64_t result) {
    unsigned number = factbox_number(result), place = factbox_place(result);
    uint32_t fact[3];
    line r, before;
    if (number == FACTBOX_SIZE) r = first_odd_line(table, len);
    else r = line_at(table, len, (size_t)FACTBOX_TABLE_LINE * (place - 1), place);
    fprintf(out, "%s:%u: %u %s\n", shown_file(name), r.number, number, refusal_words(number));
    if (number == FACTBOX_ORDER) {
        before = line_at(table, len, (size_t)FACTBOX_TABLE_LINE * (place - 2), place - 1);
        show_line(out, &before);
    }
    show_line(out, &r);
    if (number == FACTBOX_ORDER) explain_order(out, name, &before, &r);
    else if (number <= FACTBOX_COLUMN) explain_layout(out, name, &r);
    else {
        line_fact(&r, fact);
        explain_fact(out, number, fact, "");
    }
}

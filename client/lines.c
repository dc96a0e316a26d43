/* Lines that a person writes, read from a file: see lines.h. */
#include "lines.h"
#include "factbox.h"
#include "names.h"
#include "triples.h"
#include "words.h"

#include <errno.h>
#include <string.h>

enum { FACT_FIELDS = 3, QUESTION_FIELDS = 4, PREDICATE = 1 };

const char WINDOWS_END[] = "a carriage return before the line end (Windows line ends)";

/* What went wrong last. */
static char wrong[400];

int is_digit(char c) { return c >= '0' && c <= '9'; }

static int is_separator(char c) { return c == ' ' || c == '\t' || c == ',' || c == ';'; }

static FILE *open_file(const char *name) {
    FILE *file = fopen(name, "rb");
    if (!file) fail(strerror(errno), name);
    return file;
}

lines open_lines(const char *name) {
    return (lines){.file = name ? open_file(name) : stdin, .name = name ? name : "standard input"};
}

size_t mark_length(const char *text, size_t len) { return len >= 3 && memcmp(text, "\xef\xbb\xbf", 3) == 0 ? 3 : 0; }

/* Where the field that begins here ends: at what parts fields, or for a whole IRI or literal behind it. */
static size_t field_end(const char *text, size_t len, size_t at) {
    size_t token = token_length(text + at, len - at), end = at + (token > 0 ? token : 1);
    while (end < len && !is_separator(text[end]) && text[end] != '#') end++;
    return end;
}

/* Where the comment begins; the length if there is none. */
static size_t comment_place(const char *text, size_t len) {
    size_t at = 0;
    while (at < len && text[at] != '#') at = is_separator(text[at]) ? at + 1 : field_end(text, len, at);
    return at;
}

size_t trimmed(const char *text, size_t len) {
    len = comment_place(text, len);
    while (len > 0 && (is_separator(text[len - 1]) || text[len - 1] == '\r')) len--;
    return len;
}

/* Reads one line: its first TEXT_MAX bytes, and its whole length. 0 at the file's end. */
static int read_line(lines *in) {
    int c;
    in->len = 0;
    while ((c = getc(in->file)) != EOF && c != '\n') {
        if (in->len < TEXT_MAX) in->text[in->len] = (char)c;
        if (++in->len > ENDLESS) fail("a line has no end", in->name);
    }
    if (ferror(in->file)) fail(strerror(errno), in->name);
    in->line++;
    return c != EOF || in->len > 0;
}

int next_line(lines *in) {
    do {
        if (!read_line(in)) {
            if (in->file != stdin) fclose(in->file);
            return 0;
        }
        size_t kept = in->len < TEXT_MAX ? in->len : TEXT_MAX;
        size_t mark = in->line == 1 ? mark_length(in->text, kept) : 0;
        memmove(in->text, in->text + mark, kept - mark);
        if (in->len <= TEXT_MAX || comment_place(in->text, kept - mark) < kept - mark) in->len = trimmed(in->text, kept - mark);
    } while (in->len == 0);
    return 1;
}

const char *decimal(const char *text, size_t len, uint32_t *value) {
    uint64_t n = 0;
    for (size_t i = 0; i < len; i++) {
        if (!is_digit(text[i])) return "is no number";
        if (n <= UINT32_MAX) n = 10 * n + (uint64_t)(text[i] - '0');
    }
    if (len == 0 || n > UINT32_MAX) return len == 0 ? "is no number" : "is too large";
    *value = (uint32_t)n;
    return NULL;
}

/* Whether `?` may stand at this place of a line of `count` fields. Which terms of a question may be gaps the box judges. */
static int takes_gap(size_t place, size_t count) { return count == QUESTION_FIELDS && place < FACT_FIELDS; }

/* Why a text is no field: for the reason given it is no number. In a question it may have been meant as a gap. */
static const char *no_field(const char *text, size_t len, size_t place, size_t count, const char *why) {
    int question = count == QUESTION_FIELDS, gap = len == 1 && *text == '?';
    const char *hint = question && !gap && memchr(text, '?', len) ? "; a gap is ? alone, as subject or object" : "";
    if (predicate_number(text, len)) why = "can only stand in the predicate's place";
    else if (gap && question) why = "is a gap, which can't be the allowance";
    else if (gap) why = place == PREDICATE ? "is a gap, which can't be a predicate" : "is a gap, which only a question may have";
    else if (place == PREDICATE && !is_digit(*text))
        why = has_names() ? "is neither a name nor a number nor subclass, subproperty, domain, range or type"
                          : "is neither a number nor subclass, subproperty, domain, range or type";
    else if (has_names() && place < FACT_FIELDS && !is_digit(*text)) why = "is neither a name nor a number";
    snprintf(wrong, sizeof wrong, "%s %s%s", quoted(text, len), why, hint);
    return wrong;
}

const char *field_value(const char *text, size_t len, size_t place, size_t count, uint32_t *value) {
    uint32_t vocabulary = place == PREDICATE ? predicate_number(text, len) : 0;
    const char *why = decimal(text, len, value);
    if (!why) return NULL;
    uint32_t name = place < FACT_FIELDS ? name_number(text, len) : 0;
    if (vocabulary || name) *value = vocabulary ? vocabulary : name;
    else if (len == 1 && *text == '?' && takes_gap(place, count)) *value = FACTBOX_GAP;
    else return no_field(text, len, place, count, why);
    return NULL;
}

int layout_field(const char *text, uint32_t *value) {
    size_t spaces = 0;
    while (spaces < FIELD_COLUMNS - 1 && text[spaces] == ' ') spaces++;
    if (text[spaces] == '0' && spaces < FIELD_COLUMNS - 1) return 0;
    return !decimal(text + spaces, FIELD_COLUMNS - spaces, value);
}

/* All fields in the box's layout; 0 if they are not as laid out. */
static int layout_fields(const char *text, size_t len, size_t count, uint32_t *fields) {
    if (len != FIELD_COLUMNS * count) return 0;
    for (size_t i = 0; i < count; i++, text += FIELD_COLUMNS) {
        int gap = takes_gap(i, count) && memcmp(text, "    ?", FIELD_COLUMNS) == 0;
        if (gap) fields[i] = FACTBOX_GAP;
        else if (!layout_field(text, &fields[i])) return 0;
    }
    return 1;
}

const char *line_fields(const char *text, size_t len, size_t count, uint32_t *fields) {
    if (len > TEXT_MAX) return "the line is longer than 1,000 bytes";
    if (memchr(text, '\0', len)) return "the line has a NUL byte (byte 0)";
    if (layout_fields(text, len, count, fields)) return NULL;
    size_t found = 0;
    for (size_t at = 0, end; at < len; at = end) {
        end = is_separator(text[at]) ? at + 1 : field_end(text, len, at);
        if (is_separator(text[at])) continue;
        const char *why = found < count ? field_value(text + at, end - at, found, count, &fields[found]) : NULL;
        if (why) return why;
        found++;
    }
    if (found == count) return NULL;
    const char *what = count == FACT_FIELDS ? "a fact has 3: subject, predicate, object"
                                            : "a question has 4: subject, predicate, object, allowance";
    const char *hint = count == QUESTION_FIELDS && found < count ? " (? for a gap)" : "";
    snprintf(wrong, sizeof wrong, "the line has %zu field%s, %s%s", found, plural(found), what, hint);
    return wrong;
}

size_t load(const char *name, uint8_t *bytes, size_t most) {
    FILE *file = name ? open_file(name) : stdin;
    size_t len = fread(bytes, 1, most, file);
    if (ferror(file)) fail(strerror(errno), name ? name : "standard input");
    if (name) fclose(file);
    return len;
}

/* Lines of N-Triples, read again: see triples.h. */
#include "triples.h"
#include "factbox.h"
#include "lines.h"

#include <string.h>

enum { SUBJECT, PREDICATE, OBJECT };

#define RDFS "<http://www.w3.org/2000/01/rdf-schema#"
#define RDF "<http://www.w3.org/1999/02/22-rdf-syntax-ns#"
static const char *const VOCABULARY[] = {
    "", RDFS "subClassOf>", RDFS "subPropertyOf>", RDFS "domain>", RDFS "range>", RDF "type>",
};
enum { VOCABULARY_LAST = 5 };

static const char ESCAPE[] = "a backslash: no escapes are taken, so put the character itself";
static const char BLANK_NODE[] = "a blank node is _: and a label of letters, digits, _ - . or :";
static const char TAG[] = "a language tag is @ and letters, as @en, then perhaps parts of letters and digits behind hyphens, as @en-GB or @de-1996";
static const char WINDOWS[] = "lines end with byte 13 and 10 (Windows): take byte 13 out, as by tr -d '\\r' <FILE >NEW";
static const char DATATYPE[] = "a datatype is ^^ and an IRI in < >";

/* A line, how far it is read, and what is found. */
typedef struct {
    const char *text;
    size_t len, at;
    statement *found;
} reader;

static int is_letter(char c) { return (c >= 'a' && c <= 'z') || (c >= 'A' && c <= 'Z'); }

static int is_white(char c) { return c == ' ' || c == '\t'; }

static int is_high(char c) { return (unsigned char)c > 127; }

/* Whether an IRI may have the byte. */
static int is_of_iri(char c) { return is_high(c) || (c > ' ' && !strchr("<>\"{}|^`\\", c)); }

/* Whether a blank node's label may have the byte. */
static int is_of_label(char c) { return is_letter(c) || is_digit(c) || is_high(c) || (c != '\0' && strchr("_:-.", c)); }

/* The byte to be read next; a line end at the end. */
static char next(const reader *r) { return r->at < r->len ? r->text[r->at] : '\n'; }

/* Notes why the line breaks at a place. */
static int breaks(reader *r, size_t at, const char *why) {
    r->found->at = at;
    r->found->why = why;
    return 0;
}

static void skip_white(reader *r) {
    while (is_white(next(r))) r->at++;
}

/* What a byte is that no IRI has. */
static const char *iri_byte(char c) {
    switch (c) {
    case '\\': return ESCAPE;
    case '<': return "a < in an IRI: the > before it is missing";
    case ' ':
    case '\t': return "a space or tab in an IRI, or its > is missing";
    default: return "a byte that no IRI has";
    }
}

/* Each of these reads one part from where the line is; 0 if it breaks. */
static int read_iri(reader *r) {
    size_t from = r->at++;
    while (is_of_iri(next(r))) r->at++;
    if (r->at == r->len) return breaks(r, from, "the IRI that begins here has no > at its end");
    if (next(r) != '>') return breaks(r, r->at, iri_byte(next(r)));
    r->at++;
    return 1;
}

static int read_tag(reader *r) {
    int first = 1;
    do {
        size_t from = ++r->at;
        while (is_letter(next(r)) || (!first && is_digit(next(r)))) r->at++;
        if (r->at == from) return breaks(r, from, TAG);
        first = 0;
    } while (next(r) == '-');
    return is_digit(next(r)) || next(r) == '_' || is_high(next(r)) ? breaks(r, r->at, TAG) : 1;
}

static int read_datatype(reader *r) {
    size_t from = r->at;
    r->at += 2;
    if (r->text[r->at - 1] != '^' || next(r) != '<') return breaks(r, from, DATATYPE);
    return read_iri(r);
}

static int read_literal(reader *r) {
    size_t from = r->at++;
    while (r->at < r->len && next(r) != '"' && next(r) != '\\') r->at++;
    if (r->at == r->len) return breaks(r, from, "the text that begins here has no quote at its end");
    if (next(r) == '\\') return breaks(r, r->at, ESCAPE);
    r->at++;
    if (next(r) == '@') return read_tag(r);
    if (next(r) == '^' && r->at + 1 < r->len) return read_datatype(r);
    return 1;
}

static int read_blank(reader *r) {
    size_t from = r->at, end = from + 2;
    while (end < r->len && is_of_label(r->text[end])) end++;
    while (end > from + 2 && r->text[end - 1] == '.') end--;
    if (end <= from + 2 || r->text[from + 1] != ':' || strchr("-.", r->text[from + 2])) return breaks(r, from, BLANK_NODE);
    r->at = end;
    return 1;
}

/* Why no token begins where the line is: there stands what can't be this part of a statement. */
static const char *no_part(const reader *r, size_t part) {
    static const char *const MISSING[] = {"a statement is missing before the full stop", "predicate and object are missing", "the object is missing"};
    char c = next(r);
    if (r->at == r->len || c == '#' || c == '.') return MISSING[part];
    if (c == '"') return "a literal can only be the object";
    if (c == '_') return "a blank node can't be the predicate";
    if (c == '@' && part == SUBJECT) return "a directive of Turtle: the import takes N-Triples, with every IRI in full";
    if (is_letter(c)) return "an IRI stands in < >, in full: short names and prefixes are Turtle's";
    return part == OBJECT ? "an IRI in < > or a literal in quotes belongs here" : "an IRI in < > belongs here";
}

static int read_part(reader *r, size_t part) {
    size_t from = r->at;
    char c = next(r);
    int read;
    if (c == '<') read = read_iri(r);
    else if (c == '"' && part == OBJECT) read = read_literal(r);
    else if (c == '_' && part != PREDICATE) read = read_blank(r);
    else read = breaks(r, r->at, no_part(r, part));
    r->found->part[part] = (token){r->text + from, r->at - from};
    skip_white(r);
    return read;
}

/* Why no full stop stands where it belongs. */
static const char *no_stop(const reader *r) {
    char c = next(r);
    int literal = is_literal_token(r->found->part[OBJECT]), apart = is_white(r->text[r->at - 1]);
    if (r->at == r->len || c == '#') return "no full stop at the end of the statement";
    if (literal && apart && (c == '@' || c == '^')) return "a literal's parts stand together, without a space";
    if (literal && c == '^') return DATATYPE;
    if (c == ',' || c == ';') return "one statement a line, with a full stop: , and ; are Turtle's";
    return "a full stop belongs here, behind subject, predicate and object";
}

/* Whether nothing but a comment is left. */
static int is_over(const reader *r) { return r->at == r->len || next(r) == '#'; }

static int read_triple(reader *r) {
    for (size_t part = 0; part < 3; part++)
        if (!read_part(r, part)) return 0;
    if (next(r) != '.') return breaks(r, r->at, no_stop(r));
    r->at++;
    skip_white(r);
    return is_over(r) || breaks(r, r->at, "only a comment may stand behind the full stop: one statement a line");
}

/* A fault of the whole line: NULL if there is none, or what it is and where. */
static const char *line_fault(const char *text, size_t len, size_t *at) {
    const char *r = memchr(text, '\r', len);
    if (mark_length(text, len)) return "a byte order mark: save the file as UTF-8 without it";
    if (!r) return NULL;
    *at = (size_t)(r - text);
    return *at == len - 1 ? WINDOWS : "a carriage return: a line ends with a line feed";
}

/* 14, 5 or 12, which a statement gets. */
static unsigned statement_refusal(const token *part) {
    if (*part[SUBJECT].text == '_' || *part[OBJECT].text == '_') return FACTBOX_UNKNOWN;
    if (vocabulary_number(part[SUBJECT]) || vocabulary_number(part[OBJECT])) return FACTBOX_PART;
    return vocabulary_number(part[PREDICATE]) && is_literal_token(part[OBJECT]) ? FACTBOX_CLASS : 0;
}

statement read_statement(const char *text, size_t len) {
    statement s = {.refusal = 0};
    reader r = {text, len, 0, &s};
    s.why = line_fault(text, len, &s.at);
    if (!s.why) skip_white(&r);
    if (!s.why && is_over(&r)) return s;
    if (s.why || !read_triple(&r)) {
        s.refusal = FACTBOX_STATEMENT;
        s.of_all = s.why == WINDOWS;
        return s;
    }
    s.said = 1;
    s.refusal = statement_refusal(s.part);
    return s;
}

int looks_like_triples(const char *text, size_t len) {
    size_t at = mark_length(text, len);
    for (int comment = 0; at < len && (comment || memchr(" \t\r\n#", text[at], 5)); at++)
        comment = text[at] == '#' || (comment && text[at] != '\n');
    return at < len && (text[at] == '<' || (len - at >= 2 && memcmp(text + at, "_:", 2) == 0));
}

size_t token_length(const char *text, size_t len) {
    statement s;
    reader r = {text, len, 0, &s};
    int read = next(&r) == '<' ? read_iri(&r) : next(&r) == '"' && read_literal(&r);
    return read ? r.at : 0;
}

uint32_t vocabulary_number(token t) {
    for (uint32_t i = 1; i <= VOCABULARY_LAST; i++)
        if (compare_tokens(t, vocabulary_token(i)) == 0) return i;
    return 0;
}

token vocabulary_token(uint32_t number) { return (token){VOCABULARY[number], strlen(VOCABULARY[number])}; }

int is_literal_token(token t) { return *t.text == '"'; }

int compare_tokens(token a, token b) {
    int order = memcmp(a.text, b.text, a.len < b.len ? a.len : b.len);
    return order ? order : (a.len > b.len) - (a.len < b.len);
}

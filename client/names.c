/* Which number stands for which token: see names.h. */
#include "names.h"
#include "lines.h"
#include "shown.h"
#include "words.h"

#include <inttypes.h>
#include <stdio.h>
#include <string.h>

enum { VOCABULARY_LAST = 5, NAME_FIRST = 6, LITERAL_FIRST = 40000 };

/* The longest token that is shown whole, and the part of a longer one that is shown, in bytes. */
enum { WHOLE_MAX = 60, PART_SHOWN = 48 };

/* IRIs and literals, in the order of their numbers, and of each IRI its short form, of no length where that is not shown. */
static token tokens[2][NAMES_MAX], shorts[NAMES_MAX];
static size_t counts[2];

static const uint32_t FIRST[] = {NAME_FIRST, LITERAL_FIRST};

int has_names(void) { return counts[0] + counts[1] > 0; }

uint32_t token_number(token t) {
    int kind = is_literal_token(t);
    uint32_t number = vocabulary_number(t);
    size_t i = 0;
    if (number) return number;
    while (i < counts[kind] && compare_tokens(tokens[kind][i], t) != 0) i++;
    if (i == NAMES_MAX) return 0;
    tokens[kind][i] = t;
    if (i == counts[kind]) counts[kind]++;
    return FIRST[kind] + (uint32_t)i;
}

token number_token(uint32_t number) {
    int kind = number >= LITERAL_FIRST;
    if (number >= 1 && number <= VOCABULARY_LAST) return vocabulary_token(number);
    return number >= FIRST[kind] && number - FIRST[kind] < counts[kind] ? tokens[kind][number - FIRST[kind]] : (token){"", 0};
}

/* ---- the file */

/* A sum of bytes (FNV-1a): another text has another one, but for one in four thousand million. */
static uint32_t sum(const void *bytes, size_t len) {
    uint32_t s = 2166136261u;
    for (const unsigned char *b = bytes; len > 0; b++, len--) s = (s ^ *b) * 16777619u;
    return s;
}

static size_t put_name(char *at, uint32_t number) {
    token t = number_token(number);
    int digits = sprintf(at, "%" PRIu32 " ", number);
    memcpy(at + digits, t.text, t.len);
    at[(size_t)digits + t.len] = '\n';
    return (size_t)digits + t.len + 1;
}

size_t write_names(const uint8_t *table, size_t table_len, char *file) {
    size_t len = 0;
    for (uint32_t n = 1; n <= VOCABULARY_LAST; n++) len += put_name(file + len, n);
    for (size_t kind = 0; kind < 2; kind++)
        for (uint32_t i = 0; i < counts[kind]; i++) len += put_name(file + len, FIRST[kind] + i);
    return len + (size_t)sprintf(file + len, "end %08" PRIx32 " %08" PRIx32 "\n", sum(file, len), sum(table, table_len));
}

/* Takes one line: NULL, or what is wrong with it. Its number is the next of the vocabulary, of the IRIs or of the literals. */
static const char *take_name(const char *text, size_t len, unsigned line) {
    const char *space = memchr(text, ' ', len);
    size_t digits = space ? (size_t)(space - text) : len, rest = space ? len - digits - 1 : 0;
    uint32_t number = 0, given;
    token t = {space ? space + 1 : "", rest};
    if (len > 0 && text[len - 1] == '\r') return WINDOWS_END;
    if (decimal(text, digits, &number) || *text == '0') return "the line has no number and token";
    if (rest == 0 || token_length(t.text, rest) != rest) return "behind the number stands neither an IRI in < > nor a literal in quotes";
    if (line > VOCABULARY_LAST && (vocabulary_number(t) || (!is_literal_token(t) && counts[1] > 0))) return "the line is out of order";
    given = line <= VOCABULARY_LAST && vocabulary_number(t) != line ? 0 : token_number(t);
    return given == number ? NULL : "the number is not the one that the token has";
}

/* Whether the last line begins here. */
static int is_last(const char *text, size_t len) { return len >= 4 && memcmp(text, "end ", 4) == 0; }

/* Tries the last line, `end` and the sums. */
static const char *try_sums(const char *file, size_t names_len, size_t len, const uint8_t *table, size_t table_len) {
    char expected[32];
    size_t begin = 13;      /* "end 01234567 " */
    snprintf(expected, sizeof expected, "end %08" PRIx32 " %08" PRIx32 "\n", sum(file, names_len), sum(table, table_len));
    if (len - names_len != strlen(expected) || memcmp(file + names_len, expected, begin) != 0)
        return "the file is torn or was changed: the lines have not the sum that the last one says";
    if (memcmp(file + names_len, expected, strlen(expected)) != 0) return "the names belong to another table";
    return NULL;
}

/* The bytes behind the last # or / of an IRI, without its >. */
static token short_form(token t) {
    size_t from = t.len - 1;
    while (t.text[from - 1] != '#' && t.text[from - 1] != '/' && t.text[from - 1] != '<') from--;
    return (token){t.text + from, t.len - 1 - from};
}

/* Whether a question may have the text as a field: it is no number and no word, and nothing in it parts fields. */
static int can_be_typed(token t) {
    int number = 1;
    for (size_t at = 0, n; at < t.len; at += n) {
        n = character_length(t.text + at, t.len - at);
        if (n == 0 || t.text[at] == ',' || t.text[at] == ';') return 0;
        if (!is_digit(t.text[at])) number = 0;
    }
    return !number && t.len <= WHOLE_MAX && !predicate_number(t.text, t.len) && *t.text != '?';
}

/* Finds the short forms that can be typed and are no other IRI's. */
static void find_short_forms(void) {
    static char shared[NAMES_MAX];
    memset(shared, 0, sizeof shared);
    for (size_t i = 0; i < counts[0]; i++) {
        shorts[i] = short_form(tokens[0][i]);
        for (size_t j = 0; j < i; j++)
            if (compare_tokens(shorts[i], shorts[j]) == 0) shared[i] = shared[j] = 1;
    }
    for (size_t i = 0; i < counts[0]; i++)
        if (shared[i] || !can_be_typed(shorts[i])) shorts[i].len = 0;
}

const char *read_names(const char *file, size_t len, const uint8_t *table, size_t table_len, unsigned *line) {
    size_t at = 0;
    counts[0] = counts[1] = 0;
    for (*line = 1; at < len && !is_last(file + at, len - at); (*line)++) {
        const char *end = memchr(file + at, '\n', len - at);
        if (!end) return "the file is torn: it ends within this line";
        const char *wrong = take_name(file + at, (size_t)(end - file) - at, *line);
        if (wrong) return wrong;
        at = (size_t)(end - file) + 1;
    }
    if (at == len) return "the file is torn: its last line, `end` and two sums, is missing";
    *line = 0;
    const char *wrong = try_sums(file, at, len, table, table_len);
    if (!wrong) find_short_forms();
    return wrong;
}

/* ---- on the screen */

/* A token as it is, or of a long one a part, of an IRI the end, and the number. */
static void show_token(char *out, token t, uint32_t number) {
    int literal = is_literal_token(t);
    if (t.len <= WHOLE_MAX) {
        put_shown(out, t.text, t.len);
        return;
    }
    size_t from = literal ? 0 : character_place(t.text, t.len, t.len - PART_SHOWN);
    size_t to = literal ? character_place(t.text, t.len, PART_SHOWN) : t.len;
    out += sprintf(out, "%s", literal ? "" : "<..");
    out = put_shown(out, t.text + from, to - from);
    sprintf(out, "%s (%" PRIu32 ")", literal ? "..\"" : "", number);
}

const char *shown_name(uint32_t number) {
    static char texts[4][4 * WHOLE_MAX + 32];
    static size_t next;
    token t = number_token(number), brief = number >= NAME_FIRST && number - NAME_FIRST < counts[0] ? shorts[number - NAME_FIRST] : (token){"", 0};
    char *out = texts[next++ % 4];
    if (number < NAME_FIRST || t.len == 0) return NULL;
    if (brief.len > 0) put_shown(out, brief.text, brief.len);
    else show_token(out, t, number);
    return out;
}

/* Whether a number's name is shown so. */
static int is_shown_so(uint32_t number, token text) {
    const char *name;
    if (number < LITERAL_FIRST && shorts[number - NAME_FIRST].len > 0) return compare_tokens(shorts[number - NAME_FIRST], text) == 0;
    name = shown_name(number);
    return compare_tokens((token){name, strlen(name)}, text) == 0;
}

uint32_t name_number(const char *text, size_t len) {
    token t = {text, len};
    for (size_t kind = 0; kind < 2; kind++)
        for (uint32_t i = 0; i < counts[kind]; i++)
            if (compare_tokens(tokens[kind][i], t) == 0 || is_shown_so(FIRST[kind] + i, t)) return FIRST[kind] + i;
    return has_names() ? vocabulary_number(t) : 0;
}

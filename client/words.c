/* Words that the C programs share: see words.h. */
#include "words.h"
#include "factbox.h"
#include "names.h"
#include "shown.h"

#include <stdio.h>
#include <stdlib.h>
#include <string.h>

/* Texts with three terms have room for their names. */
enum { TEXT_ROOM = 1024 };

enum { VOCABULARY_LAST = 5, LITERAL_FIRST = 40000, BLANK_FIRST = FACTBOX_GAP, TERM_LAST = 65535 };

static const char *const VOCABULARY[] = {"", "subclass", "subproperty", "domain", "range", "type"};

/* The same as the planning office writes them. */
static const char *const OFFICE_WORDS[] = {"", "subClassOf", "subPropertyOf", "domain", "range", "type"};

/* The same as verbs, before an object and before a gap. */
static const char *const VERBS[] = {"", "is a subclass of", "is a subproperty of", "has domain", "has range", "is of type"};
static const char *const GAP_VERBS[] = {
    "", "is a subclass of some X", "is a subproperty of some X", "has some domain X", "has some range X", "is of some type X",
};

const char *const FIELD_NAMES[3] = {"subject", "predicate", "object"};

static const char *const REFUSALS[] = {
    "",
    "size: the table is torn or has more than 1,024 lines",
    "column: a field or the line end is not as laid out",
    "term: a number is 0 or above 65535",
    "blank: a number is 60000 to 65535 where none may stand",
    "part: vocabulary as subject or object, or a literal as predicate",
    "order: not above the line before, or the same",
    "allowance: above 1,024",
    "short: the memory lent is too short",
    "form: the derivation is empty, torn, too long or not laid out as lines",
    "step: neither a table line nor what the rule gives",
    "end: the last line is not the fact put",
    "class: a literal as subject or object of subclass, subproperty, domain or range, or as object of type",
    "statement: not in the form that the import takes",
    "unknown node: a blank node as subject or object",
    "crowd: more than 1,024 different facts",
};

/* What belongs in the fields of a fact with each predicate of the vocabulary, where no literal may stand. */
static const char *const BELONGS[][3] = {
    {NULL, NULL, NULL}, {"class", NULL, "class"}, {"property", NULL, "property"}, {"property", NULL, "class"},
    {"property", NULL, "class"}, {NULL, NULL, "class"},
};

int asks_for_help(int argc, char **argv) {
    return argc > 1 && (strcmp(argv[1], "-h") == 0 || strcmp(argv[1], "--help") == 0);
}

void fail(const char *what, const char *name) {
    fprintf(stderr, "%s: %s: %s\n", PROGRAM, shown_file(name), what);
    exit(2);
}

const char *term_word(uint32_t term) {
    static char numbers[4][16];
    static size_t next;
    const char *name = shown_name(term);
    if (name) return name;
    char *number = numbers[next++ % 4];
    snprintf(number, sizeof *numbers, "%u", (unsigned)term);
    return number;
}

const char *predicate_word(uint32_t predicate) {
    return predicate >= 1 && predicate <= VOCABULARY_LAST ? VOCABULARY[predicate] : term_word(predicate);
}

static int is_word(const char *word, const char *text, size_t len) { return strlen(word) == len && memcmp(word, text, len) == 0; }

uint32_t predicate_number(const char *word, size_t len) {
    for (uint32_t i = 1; i <= VOCABULARY_LAST; i++)
        if (is_word(VOCABULARY[i], word, len) || is_word(OFFICE_WORDS[i], word, len)) return i;
    return 0;
}

const char *belonging(uint32_t predicate, size_t field) { return predicate <= VOCABULARY_LAST ? BELONGS[predicate][field] : NULL; }

const char *refusal_words(unsigned number) {
    return number < sizeof REFUSALS / sizeof *REFUSALS ? REFUSALS[number] : "";
}

const char *question_refusal(unsigned number) {
    return number == FACTBOX_BLANK ? "blank: a gap (? or 60000 to 65535) where none may stand" : refusal_words(number);
}

const char *text_refusal(unsigned number) {
    return number == FACTBOX_STATEMENT ? "statement: above 65,536 bytes" : refusal_words(number);
}

int is_blank(uint32_t term) { return term >= BLANK_FIRST && term <= TERM_LAST; }

static int is_literal(uint32_t term) { return term >= LITERAL_FIRST && term < BLANK_FIRST; }

/* Why the fact's number in this field earns refusal 12, and what belongs there; NULL if it does not. */
static const char *class_fault(const uint32_t *fact, size_t field) {
    static char text[192];
    uint32_t predicate = fact[1];
    const char *what = belonging(predicate, field);
    if (!what || !is_literal(fact[field])) return NULL;
    snprintf(text, sizeof text,
             "is a literal (40000 to 59999); the %s of %s must be a %s: put the %s's number, a name (6 to 39999)",
             FIELD_NAMES[field], VOCABULARY[predicate], what, what);
    return text;
}

/* Why the fact's number in this field earns this refusal; NULL if it does not. */
static const char *number_fault(unsigned number, const uint32_t *fact, size_t field) {
    uint32_t value = fact[field];
    int vocabulary = value >= 1 && value <= VOCABULARY_LAST;
    switch (number) {
    case FACTBOX_TERM: return value == 0 ? "is no term" : value > TERM_LAST ? "is above 65535" : NULL;
    case FACTBOX_BLANK:
        if (!is_blank(value)) return NULL;
        return field == 1 ? "is a blank node (60000 to 65535), which can't be a predicate"
                          : "is a blank node (60000 to 65535), which only a question may have";
    case FACTBOX_CLASS: return class_fault(fact, field);
    default:
        if (field == 1) return is_literal(value) ? "is a literal (40000 to 59999): a predicate is a name or 1 to 5" : NULL;
        return vocabulary ? "is vocabulary (1 to 5), which can only be a predicate" : NULL;
    }
}

const char *fact_fault(unsigned number, const uint32_t *fact, size_t *field) {
    static char text[TEXT_ROOM];
    while (*field < 3) {
        size_t at = (*field)++;
        const char *why = number_fault(number, fact, at);
        if (!why) continue;
        snprintf(text, sizeof text, "the %s, %s, %s", FIELD_NAMES[at], term_word(fact[at]), why);
        return text;
    }
    return NULL;
}

/* Why a question's gaps earn refusal 4. */
static const char *gap_fault(const uint32_t *question) {
    static const char *const GAPS[] = {"", "a gap", "two gaps", "three gaps"};
    static char text[96];
    int gaps = is_blank(question[0]) + is_blank(question[1]) + is_blank(question[2]);
    const char *where = !is_blank(question[1]) ? "" : gaps == 1 ? " as predicate" : ", one of them as predicate";
    snprintf(text, sizeof text, "%s%s: a question may have one, as subject or object", GAPS[gaps], where);
    return text;
}

const char *question_fault(unsigned number, const uint32_t *question, size_t *field) {
    static char text[64];
    if (number != FACTBOX_BLANK && number != FACTBOX_ALLOWANCE) return fact_fault(number, question, field);
    if ((*field)++ > 0) return NULL;
    if (number == FACTBOX_BLANK) return gap_fault(question);
    snprintf(text, sizeof text, "the allowance, %u, is above 1,024", (unsigned)question[3]);
    return text;
}

const char *fact_words(const uint32_t *fact) {
    static char text[TEXT_ROOM];
    snprintf(text, sizeof text, "%s %s %s", term_word(fact[0]), predicate_word(fact[1]), term_word(fact[2]));
    return text;
}

/* A subject or object as a term, `?` for a gap. */
static const char *end_word(uint32_t term) { return is_blank(term) ? "?" : term_word(term); }

const char *question_words(const uint32_t *question) {
    static char text[TEXT_ROOM];
    uint32_t s = question[0], p = question[1], o = question[2];
    int known = p >= 1 && p <= VOCABULARY_LAST, one = is_blank(s) + is_blank(p) + is_blank(o) == 1;
    const char *subject = end_word(s), *predicate = is_blank(p) ? "?" : predicate_word(p), *object = end_word(o);
    if (one && is_blank(s)) snprintf(text, sizeof text, "some X %s %s", known ? VERBS[p] : predicate, object);
    else if (one && is_blank(o) && known) snprintf(text, sizeof text, "%s %s", subject, GAP_VERBS[p]);
    else if (one && is_blank(o)) snprintf(text, sizeof text, "%s %s some X", subject, predicate);
    else snprintf(text, sizeof text, "%s %s %s", subject, predicate, object);
    return text;
}

const char *quoted(const char *text, size_t len) {
    enum { SHOWN = 48 };
    static char out[4 * SHOWN + 8];
    char *at = out;
    size_t i = 0, n;
    *at++ = '"';
    for (; i < len && i < SHOWN; i += n) {
        char c = text[i];
        n = character_length(text + i, len - i);
        if (n == 0) n = 1;
        if (c == '\t') at += sprintf(at, "\\t");
        else if (c == '\r') at += sprintf(at, "\\r");
        else if (c == '\\' || c == '"') at += sprintf(at, "\\%c", c);
        else at = put_shown(at, text + i, n);
    }
    strcpy(at, i < len ? "\".." : "\"");
    return out;
}

const char *plural(size_t n) { return n == 1 ? "" : "s"; }

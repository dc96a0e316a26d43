/* The import of N-Triples in plain C, written for speed: one pass over the text, tokens numbered through a hash table, facts
 * gathered through another and sorted at the end, no allocation, no copy of the text. Nothing here is proved; the differential
 * test in tests/ can be run on it as on the proved library. */
#include "plain.h"

#include <string.h>

enum { TYPE = 5, NAME_FIRST = 6, LITERAL_FIRST = 40000 };
enum { FACTS = 1024, TEXT_MAX = 65536, TOKENS = 3 * (FACTS + 1), TOKEN_SLOTS = 4096, FACT_SLOTS = 2048 };
enum { LETTER = 1, DIGIT = 2, WHITE = 4, IRI = 8, QUOTED = 16, COMMENT = 32, LABEL = 64 };

/* A fact is one number, in the table's order. */
typedef uint64_t fact;

/* The bytes from one place to another. */
typedef struct { const uint8_t *at, *end; } span;

/* Each byte's classes. */
#define IS_LETTER(c) (((c) >= 'a' && (c) <= 'z') || ((c) >= 'A' && (c) <= 'Z'))
#define IS_DIGIT(c) ((c) >= '0' && (c) <= '9')
#define IS_IRI(c) ((c) > ' ' && (c) != '<' && (c) != '>' && (c) != '"' && (c) != '{' && (c) != '}' && (c) != '|' && (c) != '^' && (c) != '`' && (c) != '\\')
#define IS_COMMENT(c) ((c) != '\n' && (c) != '\r')
#define IS_LABEL(c) (IS_LETTER(c) || IS_DIGIT(c) || (c) == '_' || (c) == ':' || (c) == '-' || (c) == '.' || (c) > 127)
#define CLASS(c) \
    ((IS_LETTER(c) ? LETTER : 0) | (IS_DIGIT(c) ? DIGIT : 0) | ((c) == ' ' || (c) == '\t' ? WHITE : 0) | (IS_IRI(c) ? IRI : 0) \
     | (IS_COMMENT(c) && (c) != '"' && (c) != '\\' ? QUOTED : 0) | (IS_COMMENT(c) ? COMMENT : 0) | (IS_LABEL(c) ? LABEL : 0))
#define FOUR(c) CLASS(c), CLASS(c + 1), CLASS(c + 2), CLASS(c + 3)
#define SIXTEEN(c) FOUR(c), FOUR(c + 4), FOUR(c + 8), FOUR(c + 12)
#define QUARTER(c) SIXTEEN(c), SIXTEEN(c + 16), SIXTEEN(c + 32), SIXTEEN(c + 48)
static const uint8_t classes[256] = {QUARTER(0), QUARTER(64), QUARTER(128), QUARTER(192)};

static uint64_t answer(uint64_t number, uint64_t place, uint64_t count) { return number | place << 8 | count << 32; }

/* Where the bytes of these classes end. */
static const uint8_t *run(const uint8_t *at, const uint8_t *end, unsigned class) {
    while (at < end && classes[*at] & class) at++;
    return at;
}

static int is_at(const uint8_t *at, const uint8_t *end, uint8_t byte) { return at < end && *at == byte; }

/* Where the token ends that begins here; NULL where none does. */
static const uint8_t *iri_end(const uint8_t *at, const uint8_t *end) {
    if (!is_at(at, end, '<')) return NULL;
    at = run(at + 1, end, IRI);
    return is_at(at, end, '>') ? at + 1 : NULL;
}

static const uint8_t *tag_end(const uint8_t *at, const uint8_t *end) {
    for (unsigned class = LETTER;; class = LETTER | DIGIT) {
        const uint8_t *part = run(at, end, class);
        if (part == at || !is_at(part, end, '-')) return part == at ? NULL : part;
        at = part + 1;
    }
}

static const uint8_t *literal_end(const uint8_t *at, const uint8_t *end) {
    at = run(at + 1, end, QUOTED);
    if (!is_at(at, end, '"')) return NULL;
    if (is_at(++at, end, '@')) return tag_end(at + 1, end);
    if (!is_at(at, end, '^')) return at;
    return is_at(at + 1, end, '^') ? iri_end(at + 2, end) : NULL;
}

static const uint8_t *blank_end(const uint8_t *at, const uint8_t *end) {
    if (end - at < 3 || at[1] != ':' || !(classes[at[2]] & LABEL) || at[2] == '-' || at[2] == '.') return NULL;
    at = run(at + 3, end, LABEL);
    while (at[-1] == '.') at--;
    return at;
}

static const uint8_t *subject_end(const uint8_t *at, const uint8_t *end) {
    return is_at(at, end, '_') ? blank_end(at, end) : iri_end(at, end);
}

static const uint8_t *object_end(const uint8_t *at, const uint8_t *end) {
    return is_at(at, end, '"') ? literal_end(at, end) : subject_end(at, end);
}

/* Whether the line ends here, or with a comment. */
static int ends(const uint8_t *at, const uint8_t *end) {
    return at == end || (*at == '#' && run(at, end, COMMENT) == end);
}

enum { OUTSIDE = 13, UNKNOWN = 14, NOTHING = 1, TRIPLE = 0 };

/* What a line is, and the tokens of a triple. */
static int parse(const uint8_t *at, const uint8_t *end, span *tokens) {
    at = run(at, end, WHITE);
    if (ends(at, end)) return NOTHING;
    for (int i = 0; i < 3; i++) {
        tokens[i].at = at;
        at = i == 0 ? subject_end(at, end) : i == 1 ? iri_end(at, end) : object_end(at, end);
        if (!at) return OUTSIDE;
        tokens[i].end = at;
        at = run(at, end, WHITE);
    }
    if (!is_at(at, end, '.') || !ends(run(at + 1, end, WHITE), end)) return OUTSIDE;
    return *tokens[0].at == '_' || *tokens[2].at == '_' ? UNKNOWN : TRIPLE;
}

/* A token of the vocabulary as its number, any other as 0. */
static uint32_t vocabulary(span t) {
#define RDFS "<http://www.w3.org/2000/01/rdf-schema#"
#define RDF "<http://www.w3.org/1999/02/22-rdf-syntax-ns#"
    static const char *const words[] = {RDFS "subClassOf>", RDFS "subPropertyOf>", RDFS "domain>", RDFS "range>", RDF "type>"};
    static const uint8_t lengths[] = {sizeof RDFS "subClassOf>" - 1, sizeof RDFS "subPropertyOf>" - 1, sizeof RDFS "domain>" - 1,
                                      sizeof RDFS "range>" - 1, sizeof RDF "type>" - 1};
    size_t len = (size_t)(t.end - t.at);
    if (len < sizeof RDFS "range>" - 1 || len > sizeof RDFS "subPropertyOf>" - 1) return 0;
    for (uint32_t i = 0; i < TYPE; i++)
        if (len == lengths[i] && memcmp(t.at, words[i], len) == 0) return i + 1;
    return 0;
}

/* The tokens and the facts so far. A slot has a place in the list, from 1, or 0. */
typedef struct {
    const uint8_t *text;
    fact *facts;
    size_t facts_len, tokens_len;
    uint32_t names, literals;
    struct { uint16_t at, len, hash, number; } tokens[TOKENS];
    uint16_t token_slots[TOKEN_SLOTS], fact_slots[FACT_SLOTS];
} gathered;

static uint64_t mixed(uint64_t h, uint64_t word) {
    h = (h ^ word) * 0x9e3779b97f4a7c15u;
    return h ^ h >> 32;
}

static uint64_t hash(const uint8_t *at, size_t len) {
    uint64_t h = len, word = 0;
    if (len < sizeof word) {
        for (size_t i = 0; i < len; i++) word = word << 8 | at[i];
        return mixed(h, word);
    }
    const uint8_t *last = at + len - sizeof word;
    for (; at < last; at += sizeof word) {
        memcpy(&word, at, sizeof word);
        h = mixed(h, word);
    }
    memcpy(&word, last, sizeof word);
    return mixed(h, word);
}

/* The number of a token that is not of the vocabulary. */
static uint32_t number(gathered *g, span t) {
    size_t len = (size_t)(t.end - t.at);
    uint64_t h = hash(t.at, len);
    size_t slot = h % TOKEN_SLOTS, i;
    for (; (i = g->token_slots[slot]); slot = (slot + 1) % TOKEN_SLOTS) {
        i--;
        if (g->tokens[i].hash == (uint16_t)(h >> 16) && g->tokens[i].len == len && memcmp(g->text + g->tokens[i].at, t.at, len) == 0)
            return g->tokens[i].number;
    }
    uint32_t n = *t.at == '"' ? LITERAL_FIRST + g->literals++ : NAME_FIRST + g->names++;
    i = g->tokens_len++;
    g->tokens[i].at = (uint16_t)(t.at - g->text), g->tokens[i].len = (uint16_t)len;
    g->tokens[i].hash = (uint16_t)(h >> 16), g->tokens[i].number = (uint16_t)n;
    g->token_slots[slot] = (uint16_t)(i + 1);
    return n;
}

/* Puts the fact among the others, unless it is there. */
static void add(gathered *g, fact f) {
    size_t slot = mixed(0, f) % FACT_SLOTS, i;
    for (; (i = g->fact_slots[slot]); slot = (slot + 1) % FACT_SLOTS)
        if (g->facts[i - 1] == f) return;
    g->facts[g->facts_len++] = f;
    g->fact_slots[slot] = (uint16_t)g->facts_len;
}

/* Takes a triple: 5 or 12, or 0. Where there are too many facts, or there is a refusal, no more are gathered. */
static unsigned take(gathered *g, const span *tokens, int refused) {
    uint32_t term[3];
    for (int i = 0; i < 3; i++) term[i] = vocabulary(tokens[i]);
    if (term[0] || term[2]) return 5;
    if (term[1] && *tokens[2].at == '"') return 12;
    if (refused || g->facts_len > FACTS) return 0;
    for (int i = 0; i < 3; i++)
        if (!term[i]) term[i] = number(g, tokens[i]);
    add(g, (fact)term[0] << 32 | term[1] << 16 | term[2]);
    return 0;
}

/* The facts of the text, each once, at most one more than a table has: how many, or the refusal. */
static __attribute__((noinline)) uint64_t gather(const uint8_t *text, size_t text_len, fact *facts) {
    gathered g;
    g.text = text, g.facts = facts;
    g.facts_len = g.tokens_len = g.names = g.literals = 0;
    memset(g.token_slots, 0, sizeof g.token_slots);
    memset(g.fact_slots, 0, sizeof g.fact_slots);
    uint64_t refusal = 0, line = 1;
    const uint8_t *end = text + text_len, *stop;
    for (const uint8_t *at = text; at < end; at = stop + 1, line++) {
        span tokens[3];
        stop = memchr(at, '\n', (size_t)(end - at));
        if (!stop) stop = end;
        int kind = parse(at, stop, tokens);
        if (kind >= OUTSIDE) return answer((uint64_t)kind, line, 0);
        unsigned fault = kind == TRIPLE ? take(&g, tokens, refusal != 0) : 0;
        if (fault && !refusal) refusal = answer(fault, line, 0);
    }
    if (!refusal && g.facts_len > FACTS) return answer(15, 0, 0);
    return refusal ? refusal : answer(0, 0, g.facts_len);
}

/* Merges two rows of ascending facts that stand one behind the other. */
static void merge(const fact *from, size_t first, size_t second, fact *to) {
    const fact *a = from, *b = from + first, *a_end = b, *b_end = b + second;
    while (a < a_end && b < b_end) *to++ = *a < *b ? *a++ : *b++;
    while (a < a_end) *to++ = *a++;
    while (b < b_end) *to++ = *b++;
}

static const fact *sorted(fact *facts, fact *spare, size_t n) {
    for (size_t width = 1; width < n; width *= 2) {
        for (size_t at = 0; at < n; at += 2 * width) {
            size_t first = n - at < width ? n - at : width, second = n - at - first < width ? n - at - first : width;
            merge(facts + at, first, second, spare + at);
        }
        fact *t = facts;
        facts = spare, spare = t;
    }
    return facts;
}

static __attribute__((noinline)) uint64_t write_facts(fact *facts, size_t n, uint8_t *table, size_t table_len) {
    fact spare[FACTS];
    uint32_t row[3 * FACTS];
    const fact *f = sorted(facts, spare, n);
    for (size_t i = 0; i < n; i++)
        row[3 * i] = (uint32_t)(f[i] >> 32), row[3 * i + 1] = (uint32_t)f[i] >> 16, row[3 * i + 2] = (uint32_t)f[i] & 0xffff;
    return plain_write(row, 3 * n, table, table_len);
}

uint64_t plain_import(const uint8_t *text, size_t text_len, uint8_t *table, size_t table_len) {
    fact facts[FACTS + 1];
    if (text_len > TEXT_MAX) return answer(OUTSIDE, 0, 0);
    uint64_t found = gather(text, text_len, facts);
    return found & 0xff ? found : write_facts(facts, (size_t)(found >> 32), table, table_len);
}

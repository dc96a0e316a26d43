/* Families of texts in N-Triples: what a planning office exports, and what is hard for an import. Where tokens are kept in order,
 * these are tokens that come in the wrong one, look-ups of many, and tokens that differ late; where lines are read, many short
 * ones, long ones, and ones that say nothing; and texts that end in a refusal. */
#include "texts.h"

#include <stdarg.h>
#include <stdio.h>
#include <stdlib.h>
#include <string.h>

enum { MOST = 65536, FACTS = 1024 };

#define RDFS "<http://www.w3.org/2000/01/rdf-schema#"
#define RDF_TYPE "<http://www.w3.org/1999/02/22-rdf-syntax-ns#type>"

static text *made;
static size_t wanted;
static uint64_t state;

static unsigned below(unsigned n) {
    state = state * 6364136223846793005u + 1442695040888963407u;
    return (unsigned)((state >> 33) % n);
}

/* Adds a line, if there is room for it; 0 if there is none. */
static __attribute__((format(printf, 1, 2))) int add(const char *format, ...) {
    char line[2048];
    va_list values;
    va_start(values, format);
    size_t len = (size_t)vsnprintf(line, sizeof line, format, values);
    va_end(values);
    if (len >= sizeof line || made->len + len > wanted) return 0;
    memcpy(made->bytes + made->len, line, len);
    made->len += len;
    return 1;
}

/* A part of the number that goes with a text of 65,536 bytes. */
static unsigned share(unsigned most) { return (unsigned)(most * wanted / MOST); }

/* Two bytes for a number below 4,096; the second one weighs more. */
static const char *pair(unsigned n) {
    static const char digits[] = "-0123456789ABCDEFGHIJKLMNOPQRSTUVWXYZ_abcdefghijklmnopqrstuvwxyz";
    static char texts[4][3];
    static unsigned next;
    char *t = texts[next++ % 4];
    t[0] = digits[n % 64], t[1] = digits[n / 64 % 64];
    return t;
}

/* IRIs of a class, a property, and a thing, which has 60 bytes. */
#define CLASS "<http://depot.example/%u>"
#define PROPERTY "<http://depot/p/%u>"
#define THING "<http://depot.example/plan/2026/week-47/parcels/parcel-%06u>"

/* Classes and properties, and things with a type and a few properties: some 590 facts in 65,536 bytes. */
static void typical(void) {
    unsigned thing = 100000 + below(800000), classes = 10 + share(30), properties = 6 + share(10);
    for (unsigned i = 1; i < classes; i++) add(CLASS " " RDFS "subClassOf> " CLASS " .\n", i, i / 3);
    for (unsigned i = 1; i < properties; i++) add(PROPERTY " " RDFS "domain> " CLASS " .\n", i, below(classes));
    add("\n# parcels\n");
    for (int room = 1; room; thing += 1 + below(9)) {
        room = add(THING " " RDF_TYPE " " CLASS " .\n", thing, below(classes));
        for (unsigned i = 3 + below(4); room && i > 0; i--)
            room = below(3) ? add(THING " " PROPERTY " " CLASS " .\n", thing, below(properties), 1000 + below(400))
                            : add(THING " " PROPERTY " \"%u.%u\"@en .\n", thing, below(properties), below(40), below(10));
    }
}

/* The shortest statement, again and again: 8,192 lines. */
static void equal(void) {
    while (add("<><><>.\n")) {}
}

/* Tokens that each come before all tokens so far, up to a full table; then statements that are there, at random. */
static void descending(void) {
    unsigned facts = share(FACTS), token = 3 * facts;
    for (; token >= 3; token -= 3) add("<%s><%s><%s>.\n", pair(token), pair(token - 1), pair(token - 2));
    for (int room = 1; room;) {
        token = 3 * (1 + below(facts));
        room = add("<%s><%s><%s>.\n", pair(token), pair(token - 1), pair(token - 2));
    }
}

/* The same tokens as literals, which are objects alone: one predicate, one subject. */
static void literals_descending(void) {
    unsigned facts = share(FACTS), token = facts;
    for (; token >= 1; token--) add("<><>\"%s\".\n", pair(token));
    while (add("<><>\"%s\".\n", pair(1 + below(facts)))) {}
}

/* Tokens that come after all tokens so far. */
static void ascending(void) {
    unsigned facts = share(FACTS);
    for (unsigned token = 0; token < 3 * facts; token += 3) add("<%s><%s><%s>.\n", pair(token), pair(token + 1), pair(token + 2));
    while (add("<%s><%s><%s>.\n", pair(0), pair(1), pair(2))) {}
}

/* IRIs of one length that differ in the first bytes alone. */
static void first_bytes(void) {
    static const char tail[] = "http://depot.example/plan/2026/week-47/parcels/the-same-for-all";
    for (unsigned token = below(64); add("<%s%s> <%s%s> <%s%s> .\n", pair(token), tail, pair(token + 1), tail, pair(token + 2), tail); token += 3) {}
}

/* IRIs that differ in the last bytes alone, at random. */
static void last_bytes(void) {
    static const char head[] = "http://depot.example/plan/2026/week-47/parcels/the-same-for-all";
    while (add("<%s%s> <%s%s> <%s%s> .\n", head, pair(below(4096)), head, pair(below(64)), head, pair(below(4096)))) {}
}

/* One statement in sixteen lines; the others are comments. */
static void comments(void) {
    for (unsigned i = 0, room = 1; room; i++)
        room = i % 16 ? (unsigned)add("# parcel %06u was taken out of the plan of week 47, see below\n", i)
                      : (unsigned)add(THING " " PROPERTY " " CLASS " . # new\n", 100000 + i, i % 7, i % 40);
}

static void empty_lines(void) {
    while (add("\n")) {}
}

/* Literals of 1,000 bytes, with a language tag. */
static void long_literals(void) {
    char words[1001];
    for (unsigned i = 0; i < sizeof words - 1; i++) words[i] = "this side up, "[i % 14];
    words[sizeof words - 1] = '\0';
    for (unsigned i = 0; add(THING " " PROPERTY " \"%s%u\"@en-GB .\n", 100000 + i, i % 7, words, below(10000)); i++) {}
}

/* More facts than a table has: the lines behind the 1,025th fact are judged alone. */
static void crowd(void) {
    for (unsigned i = 0; add("<%s><%s><%s>.\n", pair(below(4096)), pair(below(64)), pair(i)); i++) {}
}

/* A typical export whose last line breaks. */
static void refused(void) {
    wanted -= 4;
    typical();
    wanted += 4;
    add("<a>\n");
}

static const struct {
    const char *name;
    void (*make)(void);
} families[] = {
    {"typical export", typical},
    {"equal statements", equal},
    {"descending tokens, then look-ups", descending},
    {"descending literals, then look-ups", literals_descending},
    {"ascending tokens", ascending},
    {"IRIs equal but for their first bytes", first_bytes},
    {"IRIs equal but for their last bytes", last_bytes},
    {"many comments", comments},
    {"empty lines", empty_lines},
    {"long literals", long_literals},
    {"too many facts", crowd},
    {"typical export, last line refused", refused},
};
const int text_family_count = sizeof families / sizeof *families;

const char *text_family_name(int at) { return families[at].name; }

/* What is left of the size is one comment. */
void make_text(int at, size_t size, uint32_t seed, text *t) {
    made = t, wanted = size;
    state = seed * 2654435761u + 12345;
    t->len = 0;
    families[at].make();
    if (size > MOST || t->len > size) {
        fprintf(stderr, "%s: %zu bytes where %zu were asked for\n", families[at].name, t->len, size);
        exit(2);
    }
    memset(t->bytes + t->len, '#', size - t->len);
    t->len = size;
}

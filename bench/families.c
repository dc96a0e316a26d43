/* Families of tables with a question each: what a box holds, and what is hard for a search. First those without a gap in the
 * question, then those with one: long derivations, tables where nearly every fact is a start, and tables where no filling
 * follows, so that all of it is searched. */
#include "families.h"

#include <stdio.h>
#include <stdlib.h>
#include <string.h>

enum { SC = 1, SP, DOM, RANGE, TYPE };
enum { FACTS = 1024, NAMES = 2048, LITERAL = 40000, GAP = 60000 };

static uint32_t facts[FACTS][3];
static unsigned count;
static uint64_t state;

static uint32_t below(uint32_t n) {
    state = state * 6364136223846793005u + 1442695040888963407u;
    return (uint32_t)((state >> 33) % n);
}

static int compare(const void *a, const void *b) {
    const uint32_t *x = a, *y = b;
    for (int i = 0; i < 3; i++)
        if (x[i] != y[i]) return x[i] < y[i] ? -1 : 1;
    return 0;
}

static void add(uint32_t s, uint32_t p, uint32_t o) {
    for (unsigned i = 0; i < count; i++)
        if (facts[i][0] == s && facts[i][1] == p && facts[i][2] == o) return;
    facts[count][0] = s, facts[count][1] = p, facts[count][2] = o;
    count++;
}

/* name[from] to name[from + steps], each led to the next */
static uint32_t chain(const uint32_t *name, unsigned from, unsigned steps, uint32_t predicate) {
    for (unsigned i = from; i < from + steps; i++) add(name[i], predicate, name[i + 1]);
    return name[from + steps];
}

static void put(sample *s, uint32_t subject, uint32_t predicate, uint32_t object) {
    s->subject = subject, s->predicate = predicate, s->object = object;
}

static void chain_in_order(const uint32_t *name, unsigned n, sample *s) {
    (void)name;
    uint32_t first = 6 + below(30000);
    for (uint32_t i = 0; i < n; i++) add(first + i, SC, first + i + 1);
    put(s, first, SC, first + n);
}

static void chain_in_no_order(const uint32_t *name, unsigned n, sample *s) { put(s, name[0], SC, chain(name, 0, n, SC)); }

/* a data fact, sp facts, a dom fact, sc facts: all of them used */
static void mix(const uint32_t *name, unsigned n, sample *s) {
    unsigned half = (n - 2) / 2;
    add(name[NAMES - 1], name[0], name[NAMES - 2]);
    add(chain(name, 0, half, SP), DOM, name[half + 1]);
    put(s, name[NAMES - 1], TYPE, chain(name, half + 1, n - 2 - half, SC));
}

/* the same with nothing that leads to the class put */
static void no_answer(const uint32_t *name, unsigned n, sample *s) {
    mix(name, n, s);
    s->object = name[NAMES - 3];
}

/* a class with many classes above it; one of them leads on */
static void star(const uint32_t *name, unsigned n, sample *s) {
    for (unsigned i = 1; i < n; i++) add(name[0], SC, name[i]);
    add(name[1 + below(n - 1)], SC, name[n]);
    put(s, name[0], SC, name[n]);
}

/* many types of one thing, all with the same class above them */
static void many_types(const uint32_t *name, unsigned n, sample *s) {
    for (unsigned i = 3; count + 2 < n; i++) {
        add(name[0], TYPE, name[i]);
        add(name[i], SC, name[1]);
    }
    if (count + 1 < n) add(name[0], TYPE, name[1]);
    add(name[1], SC, name[2]);
    put(s, name[0], TYPE, name[2]);
}

/* every class below every other, and one of them below the one put */
static void dense(const uint32_t *name, unsigned n, sample *s) {
    unsigned nodes = 2;
    while (nodes * (nodes - 1) < n - 1) nodes++;
    for (unsigned i = 0; i < nodes; i++)
        for (unsigned j = 0; j < nodes; j++)
            if (i != j && count < n - 1) add(name[i], SC, name[j]);
    add(name[nodes - 2], SC, name[nodes]);
    put(s, name[0], SC, name[nodes]);
}

/* a literal for each name */
static uint32_t literal(uint32_t name) { return LITERAL + name % 20000; }

/* a fact with a literal as object, and sp facts: all of them used */
static void literal_by_sp(const uint32_t *name, unsigned n, sample *s) {
    const uint32_t thing = name[NAMES - 1], value = literal(name[NAMES - 2]);
    add(thing, name[0], value);
    put(s, thing, chain(name, 0, n - 1, SP), value);
}

/* half of the facts have literals: values of things, and types of literals; one value has its class by an sp chain, a range and
 * an sc chain */
static void literal_values(const uint32_t *name, unsigned n, sample *s) {
    const uint32_t *class = name, *property = name + 500, *thing = name + 1000;
    const unsigned things = n / 4, links = n - 2 * things - 1;
    for (unsigned i = 0; i < things; i++) {
        add(thing[i], property[i % 8 ? 400 + i % 8 : 0], literal(thing[i % 4]));
        add(literal(thing[i]), TYPE, class[400 + i % 8]);
    }
    add(chain(property, 0, links / 2, SP), RANGE, class[0]);
    put(s, literal(thing[0]), TYPE, chain(class, 0, links - links / 2, SC));
}

/* things with properties and types, properties with domains and ranges, a tree of classes, a tree of properties */
static void ordinary(const uint32_t *name, unsigned n, sample *s) {
    const uint32_t *class = name, *property = name + 200, *thing = name + 300;
    unsigned classes = 4 + n / 16, properties = 3 + n / 64;
    for (unsigned i = 1; i < classes; i++) add(class[i], SC, class[i / 3]);
    for (unsigned i = 1; i < properties; i++) add(property[i], SP, property[i / 2]);
    for (unsigned i = 0; i < properties; i++) {
        add(property[i], DOM, class[below(classes)]);
        if (i % 2) add(property[i], RANGE, class[below(classes)]);
    }
    add(thing[0], property[properties - 1], thing[1]);
    while (count < n) {
        if (below(4)) add(thing[below(n)], property[below(properties)], below(3) ? thing[below(n)] : LITERAL + below(5000));
        else add(thing[below(n)], TYPE, class[below(classes)]);
    }
    put(s, thing[0], TYPE, class[0]);
}

/* (? type c): a data fact, a dom or range fact, sc facts: all of them used */
static void some_by(const uint32_t *name, unsigned n, sample *s, uint32_t predicate) {
    add(name[NAMES - 1], name[0], name[NAMES - 2]);
    add(name[0], predicate, name[1]);
    put(s, GAP, TYPE, chain(name, 1, n - 2, SC));
}
static void some_by_domain(const uint32_t *name, unsigned n, sample *s) { some_by(name, n, s, DOM); }
static void some_by_range(const uint32_t *name, unsigned n, sample *s) { some_by(name, n, s, RANGE); }

/* the same with sp facts before, without a subject */
static void some_mixed(const uint32_t *name, unsigned n, sample *s) {
    mix(name, n, s);
    s->subject = GAP;
}

/* (? type c): a data fact, sp facts, a range fact: all of them used */
static void some_by_sp(const uint32_t *name, unsigned n, sample *s) {
    add(name[NAMES - 1], name[0], name[NAMES - 2]);
    add(chain(name, 0, n - 2, SP), RANGE, name[n]);
    put(s, GAP, TYPE, name[n]);
}

/* facts with a few predicates, each of another subject; only the last predicate leads on */
static uint32_t data(const uint32_t *name, unsigned facts) {
    unsigned predicates = 2 + facts / 32;
    for (unsigned i = 0; i < facts; i++) add(name[i], name[1600 + i % predicates], name[1100 + i % 400]);
    return name[1600 + predicates - 1];
}

/* (? type c): nearly every fact is a start, and few facts are used */
static void some_of_many(const uint32_t *name, unsigned n, sample *s) {
    uint32_t predicate = data(name, n - 3);
    add(predicate, SP, name[1700]);
    add(name[1700], RANGE, name[1701]);
    add(name[1701], SC, name[1702]);
    put(s, GAP, TYPE, name[1702]);
}

/* (? type c): half of the facts are starts, half an sc chain */
static void some_half(const uint32_t *name, unsigned n, sample *s) {
    uint32_t predicate = data(name, n / 2);
    add(predicate, DOM, name[n / 2]);
    put(s, GAP, TYPE, chain(name, n / 2, n - count, SC));
}

/* Facts with a predicate each, of one subject or into one object (the names put) or of different ones (where they are 0); all
 * predicates are subproperties of one, and that of the property given. */
static uint32_t predicate_each(const uint32_t *name, unsigned facts, uint32_t subject, uint32_t object) {
    for (unsigned i = 0; count + 2 < facts; i++) {
        add(subject ? subject : name[i], name[520 + i], object ? object : name[1040 + i]);
        add(name[520 + i], SP, name[1600]);
    }
    if (count + 1 < facts) add(name[1601], SP, name[1600]);
    add(name[1600], SP, name[1602]);
    return name[1602];
}

/* (? type c): a predicate for each fact */
static void some_predicate_each(const uint32_t *name, unsigned n, sample *s) {
    uint32_t property = predicate_each(name, n - 1, 0, 0);
    add(property, DOM, name[1700]);
    put(s, GAP, TYPE, name[1700]);
}
static void some_predicate_each_no(const uint32_t *name, unsigned n, sample *s) {
    some_predicate_each(name, n, s);
    s->object = name[1701];
}

/* (? type c): a class for each thing, all with the same class above them */
static void some_class_each(const uint32_t *name, unsigned n, sample *s) {
    for (unsigned i = 3; count + 2 < n; i++) {
        add(name[NAMES - i], TYPE, name[i]);
        add(name[i], SC, name[1]);
    }
    if (count + 1 < n) add(name[NAMES - 1], TYPE, name[1]);
    add(name[1], SC, name[2]);
    put(s, GAP, TYPE, name[2]);
}

/* (? type c): things of one class, and every class below every other */
static void some_dense(const uint32_t *name, unsigned n, sample *s) {
    unsigned things = n / 8;
    dense(name, n - things, s);
    for (unsigned i = 0; i < things; i++) add(name[NAMES - 1 - i], TYPE, name[0]);
    put(s, GAP, TYPE, s->object);
}

static void some_ordinary(const uint32_t *name, unsigned n, sample *s) {
    ordinary(name, n, s);
    s->subject = GAP;
}
static void some_ordinary_no(const uint32_t *name, unsigned n, sample *s) {
    ordinary(name, n, s);
    put(s, GAP, TYPE, name[NAMES - 1]);
}

/* (x type ?): a data fact, sp facts, a dom or range fact: all of them used */
static void class_by_domain(const uint32_t *name, unsigned n, sample *s) {
    add(name[NAMES - 1], name[0], name[NAMES - 2]);
    add(chain(name, 0, n - 2, SP), DOM, name[n]);
    put(s, name[NAMES - 1], TYPE, GAP);
}
static void class_by_range(const uint32_t *name, unsigned n, sample *s) {
    some_by_sp(name, n, s);
    put(s, name[NAMES - 2], TYPE, GAP);
}

/* (x type ?): a predicate for each fact of the subject */
static void class_predicate_each(const uint32_t *name, unsigned n, sample *s) {
    uint32_t property = predicate_each(name, n - 1, name[1700], 0);
    add(property, DOM, name[1701]);
    put(s, name[1700], TYPE, GAP);
}
/* the same with a range in place of the domain: no class; and for facts into one object with a domain: no class of that */
static void class_of_subject_no(const uint32_t *name, unsigned n, sample *s) {
    uint32_t property = predicate_each(name, n - 1, name[1700], 0);
    add(property, RANGE, name[1701]);
    put(s, name[1700], TYPE, GAP);
}
static void class_of_object_no(const uint32_t *name, unsigned n, sample *s) {
    uint32_t property = predicate_each(name, n - 1, 0, name[1700]);
    add(property, DOM, name[1701]);
    put(s, name[1700], TYPE, GAP);
}

/* (? p y): half of the facts lead into the object, half are an sp chain */
static void subject_by_chain(const uint32_t *name, unsigned n, sample *s) {
    for (unsigned i = 0; i < n / 2; i++) add(name[NAMES - 1 - i], name[i % 8], name[1000]);
    put(s, GAP, chain(name, 7, n - count, SP), name[1000]);
}
static void subject_predicate_each(const uint32_t *name, unsigned n, sample *s) {
    put(s, GAP, predicate_each(name, n, 0, name[1700]), name[1700]);
}
static void subject_no(const uint32_t *name, unsigned n, sample *s) {
    predicate_each(name, n, 0, name[1700]);
    put(s, GAP, name[1701], name[1700]);
}

/* (x p ?) */
static void object_literal(const uint32_t *name, unsigned n, sample *s) {
    literal_by_sp(name, n, s);
    s->object = GAP;
}
static void object_predicate_each(const uint32_t *name, unsigned n, sample *s) {
    put(s, name[1700], predicate_each(name, n, name[1700], 0), GAP);
}
static void object_no(const uint32_t *name, unsigned n, sample *s) {
    predicate_each(name, n, name[1700], 0);
    put(s, name[1700], name[1701], GAP);
}

/* (? sc c) and (c sc ?): the last fact of the table; no fact */
static void subclass(const uint32_t *name, unsigned n, sample *s) {
    chain_in_order(name, n, s);
    s->subject = GAP;
}
static void superclass(const uint32_t *name, unsigned n, sample *s) {
    chain_in_order(name, n, s);
    put(s, s->object - 1, SC, GAP);
}
static void subclass_no(const uint32_t *name, unsigned n, sample *s) {
    chain_in_order(name, n, s);
    put(s, GAP, SC, s->subject);
}

typedef struct {
    const char *name;
    void (*make)(const uint32_t *, unsigned, sample *);
} family;

static const family without_gap[] = {
    {"chain, names in order", chain_in_order},
    {"chain, names in no order", chain_in_no_order},
    {"sp, dom and sc mixed", mix},
    {"star", star},
    {"many types, one class", many_types},
    {"dense graph", dense},
    {"no answer", no_answer},
    {"sp chain, literal value", literal_by_sp},
    {"literal values, range", literal_values},
    {"ordinary data", ordinary},
};
static const family with_gap[] = {
    {"? type c, domain and sc chain", some_by_domain},
    {"? type c, range and sc chain", some_by_range},
    {"? type c, sp chain and range", some_by_sp},
    {"? type c, sp, dom and sc mixed", some_mixed},
    {"? type c, half data, half chain", some_half},
    {"? type c, few predicates", some_of_many},
    {"? type c, a predicate each", some_predicate_each},
    {"? type c, a class each", some_class_each},
    {"? type c, dense graph", some_dense},
    {"? type c, ordinary data", some_ordinary},
    {"? type c, ordinary data, no answer", some_ordinary_no},
    {"? type c, a predicate each, no answer", some_predicate_each_no},
    {"x type ?, sp chain and domain", class_by_domain},
    {"x type ?, sp chain and range", class_by_range},
    {"x type ?, a predicate each", class_predicate_each},
    {"x type ?, a predicate each, no domain", class_of_subject_no},
    {"x type ?, a predicate each, no range", class_of_object_no},
    {"? p y, half data, half chain", subject_by_chain},
    {"? p y, a predicate each", subject_predicate_each},
    {"? p y, no answer", subject_no},
    {"x p ?, sp chain, literal value", object_literal},
    {"x p ?, a predicate each", object_predicate_each},
    {"x p ?, no answer", object_no},
    {"? sc c", subclass},
    {"c sc ?", superclass},
    {"? sc c, no answer", subclass_no},
};
enum { FIRST_GAP = sizeof without_gap / sizeof *without_gap, COUNT = FIRST_GAP + sizeof with_gap / sizeof *with_gap };
const int family_count = COUNT, first_gap_family = FIRST_GAP;

static const family *family_at(int at) { return at < FIRST_GAP ? &without_gap[at] : &with_gap[at - FIRST_GAP]; }

const char *family_name(int at) { return family_at(at)->name; }

void make_sample(int at, unsigned n, uint32_t seed, sample *s) {
    static uint32_t name[NAMES];
    state = seed * 2654435761u + 12345;
    count = 0;
    uint32_t first = 6 + below(30000);
    for (uint32_t i = 0; i < NAMES; i++) name[i] = first + i;
    for (uint32_t i = NAMES - 1; i > 0; i--) {
        uint32_t j = below(i + 1), t = name[i];
        name[i] = name[j], name[j] = t;
    }
    family_at(at)->make(name, n, s);
    if (count != n) {
        fprintf(stderr, "%s: %u facts where %u were asked for\n", family_name(at), count, n);
        exit(2);
    }
    qsort(facts, count, sizeof *facts, compare);
    s->table_len = 16 * (size_t)n;
    for (unsigned i = 0; i < n; i++) {
        char line[40];
        snprintf(line, sizeof line, "%5u%5u%5u\n", (unsigned)facts[i][0], (unsigned)facts[i][1], (unsigned)facts[i][2]);
        memcpy(s->table + 16 * i, line, 16);
    }
}

/* The fact box's calls in plain C, written for speed: one pass over the table's bytes, breadth-first search over the
 * table's facts with one visit of each part of the sorted table, no allocation, no copies. A question with a gap is one
 * search as well, from the starts of all fillings at once. Nothing here is proved; the differential test in tests/ can be run
 * on it as on the proved library.
 *
 * With TUNED, it takes three shortcuts that the proved code takes: a field is read and written without a loop, and a
 * well-formed fact is told by three ranges. */
#include "plain.h"

#include <string.h>

enum { SC = 1, SP, DOM, RANGE, TYPE };
enum { NAME_FIRST = 6, LITERAL_FIRST = 40000, BLANK_FIRST = 60000, TERM_LAST = 65535 };
enum { FACTS = 1024, LINES = 2047, TABLE_LINE = 16, LINE = 31 };

/* A fact is one number, so that facts are compared in the table's order at once. */
typedef uint64_t fact;

static fact make(uint32_t s, uint32_t p, uint32_t o) { return (fact)s << 32 | p << 16 | o; }
static uint32_t subject_of(fact f) { return (uint32_t)(f >> 32); }
static uint32_t predicate_of(fact f) { return (uint32_t)f >> 16; }
static uint32_t object_of(fact f) { return (uint32_t)f & 0xffff; }

static uint64_t answer(uint64_t number, uint64_t place, uint64_t count) { return number | place << 8 | count << 32; }

static int is_name(uint32_t t) { return t - NAME_FIRST < LITERAL_FIRST - NAME_FIRST; }

static int is_blank(uint32_t t) { return t >= BLANK_FIRST; }

/* The first of refusals 3, 4, 5, 12, or 0. */
static unsigned fault(uint32_t s, uint32_t p, uint32_t o) {
#ifdef TUNED
    const uint32_t names = LITERAL_FIRST - NAME_FIRST, nodes = BLANK_FIRST - NAME_FIRST;
    if (s - NAME_FIRST < names && p - 1 < LITERAL_FIRST - 1 && o - NAME_FIRST < names) return 0;
    if (s - NAME_FIRST < nodes && is_name(p) && o - NAME_FIRST < nodes) return 0;
#endif
    if (s - 1 >= TERM_LAST || p - 1 >= TERM_LAST || o - 1 >= TERM_LAST) return 3;
    if (s >= BLANK_FIRST || p >= BLANK_FIRST || o >= BLANK_FIRST) return 4;
    if (s < NAME_FIRST || o < NAME_FIRST || p >= LITERAL_FIRST) return 5;
    return (o >= LITERAL_FIRST && p <= TYPE) || (s >= LITERAL_FIRST && p < TYPE) ? 12 : 0;
}

/* The same for a question, where one of subject and object may be a gap: a name in its place tells of the other two terms. */
static unsigned question_fault(uint32_t s, uint32_t p, uint32_t o) {
    unsigned number = fault(s, p, o);
    if (number != 4 || (is_blank(s) && is_blank(o))) return number;
    return fault(is_blank(s) ? NAME_FIRST : s, p, is_blank(o) ? NAME_FIRST : o);
}

#ifdef TUNED

/* Puts a digit behind a number; 0 where the byte is none. */
static int digit(uint8_t byte, uint32_t *number) {
    uint32_t d = (uint32_t)byte - '0';
    *number = 10 * *number + d;
    return d <= 9;
}

/* Reads a five-column field; 0 where it is not laid out well. One case for each column of the first digit. */
static int field(const uint8_t *at, uint32_t *number) {
    uint32_t n = 0;
    int good;
    if (at[0] != ' ') good = digit(at[0], &n) && n && digit(at[1], &n) && digit(at[2], &n) && digit(at[3], &n) && digit(at[4], &n);
    else if (at[1] != ' ') good = digit(at[1], &n) && n && digit(at[2], &n) && digit(at[3], &n) && digit(at[4], &n);
    else if (at[2] != ' ') good = digit(at[2], &n) && n && digit(at[3], &n) && digit(at[4], &n);
    else if (at[3] != ' ') good = digit(at[3], &n) && n && digit(at[4], &n);
    else good = digit(at[4], &n);
    *number = n;
    return good;
}

static void put_field(uint8_t *at, uint32_t n) {
    memcpy(at, "    ", 4);
    at[4] = (uint8_t)('0' + n % 10);
    if (n < 10) return;
    at[3] = (uint8_t)('0' + n / 10 % 10);
    if (n < 100) return;
    at[2] = (uint8_t)('0' + n / 100 % 10);
    if (n < 1000) return;
    at[1] = (uint8_t)('0' + n / 1000 % 10);
    if (n >= 10000) at[0] = (uint8_t)('0' + n / 10000);
}

#else

/* Reads a five-column field; 0 where it is not laid out well. */
static int field(const uint8_t *at, uint32_t *number) {
    int i = 0;
    while (i < 4 && at[i] == ' ') i++;
    if (at[i] == '0' && i < 4) return 0;
    uint32_t n = 0;
    for (; i < 5; i++) {
        uint32_t digit = (uint32_t)at[i] - '0';
        if (digit > 9) return 0;
        n = 10 * n + digit;
    }
    *number = n;
    return 1;
}

static void put_field(uint8_t *at, uint32_t n) {
    memcpy(at, "     ", 5);
    at += 4;
    do *at-- = (uint8_t)('0' + n % 10);
    while (n /= 10);
}

#endif

/* Reads a table into facts; 0, or its refusal. */
static uint64_t load(const uint8_t *table, size_t len, fact *facts) {
    if (len % TABLE_LINE || len > TABLE_LINE * FACTS) return answer(1, 0, 0);
    for (size_t i = 0; i < len / TABLE_LINE; i++) {
        const uint8_t *at = table + TABLE_LINE * i;
        uint32_t s, p, o;
        if (!field(at, &s) || !field(at + 5, &p) || !field(at + 10, &o) || at[15] != '\n') return answer(2, i + 1, 0);
        unsigned number = fault(s, p, o);
        if (number) return answer(number, i + 1, 0);
        facts[i] = make(s, p, o);
        if (i && facts[i] <= facts[i - 1]) return answer(6, i + 1, 0);
    }
    return 0;
}

/* The first fact not below f. */
static size_t lower(const fact *facts, size_t n, fact f) {
    size_t low = 0;
    while (n) {
        size_t half = n / 2;
        if (facts[low + half] < f) low += half + 1, n -= half + 1;
        else n = half;
    }
    return low;
}

/* Search. A node is a table fact, twice over where it is a data or sp fact: for a data fact's subject (side 0) or object
 * (side 1), since by domain and by range must not mix. */
typedef struct {
    const fact *facts;
    size_t n, from, to;
    uint16_t mark[2 * FACTS];  /* the queue's place that led here, from 2; 1 for a start; 0 for none */
    uint16_t queue[2 * FACTS];
    fact triple;
    uint32_t goal;  /* the object of a derivation's last fact */
} search;

/* Adds the facts (subject predicate _), all in one part of the table; gives the node of the goal, or -1. */
static int visit(search *x, uint32_t subject, uint32_t predicate, unsigned side, uint16_t from, int ends) {
    fact first = make(subject, predicate, 0);
    size_t i = lower(x->facts, x->n, first);
    if (i == x->n || x->mark[i + side * FACTS]) return -1;
    for (; i < x->n && x->facts[i] >> 16 == first >> 16; i++) {
        size_t node = i + side * FACTS;
        x->mark[node] = from;
        if (ends && object_of(x->facts[i]) == x->goal) return (int)node;
        x->queue[x->to++] = (uint16_t)node;
    }
    return -1;
}

static void start(search *x, size_t node) {
    x->mark[node] = 1;
    x->queue[x->to++] = (uint16_t)node;
}

/* The last node of a shortest derivation of a triple without a gap, or -1. */
static int find(search *x) {
    const fact *f = x->facts, t = x->triple;
    uint32_t subject = subject_of(t), p = predicate_of(t), object = object_of(t);
    size_t n = x->n, i;
    if (p == DOM || p == RANGE) {
        i = lower(f, n, t);
        if (i == n || f[i] != t) return -1;
        x->mark[i] = 1;
        return (int)i;
    }
    for (i = lower(f, n, make(subject, 0, 0)); i < n && subject_of(f[i]) == subject; i++) {
        uint32_t q = predicate_of(f[i]), o = object_of(f[i]);
        if (is_name(p) ? is_name(q) && o == object : q == p || (p == TYPE && is_name(q))) {
            start(x, i);
            if (q == p && o == object) return (int)i;
        }
    }
    if (p == TYPE)
        for (i = 0; i < n; i++)
            if (object_of(f[i]) == subject && is_name(predicate_of(f[i]))) start(x, i + FACTS);
    while (x->from < x->to) {
        size_t node = x->queue[x->from];
        uint16_t from = (uint16_t)(x->from++ + 2);
        unsigned side = node >= FACTS;
        uint32_t q = predicate_of(f[node - side * FACTS]), o = object_of(f[node - side * FACTS]);
        int goal;
        if (is_name(q) || q == SP) {
            uint32_t link = q == SP ? o : q;
            if (p == TYPE && (goal = visit(x, link, side ? RANGE : DOM, 0, from, 1)) >= 0) return goal;
            if ((goal = visit(x, link, SP, side, from, p != TYPE)) >= 0) return goal;
        } else if ((goal = visit(x, o, SC, 0, from, 1)) >= 0) {
            return goal;
        }
    }
    return -1;
}

/* With a gap nearly every fact may be a start, so each costs one look into the table. Adds the facts that may follow one which
 * leads to the property `link`: sp facts, and for a type the facts that give one on this side. They stand together in the
 * table. Gives the node of the goal, or -1; where the goal is the gap, any class will do. */
static int visit_property(search *x, uint32_t link, unsigned side, uint16_t from) {
    const fact *f = x->facts;
    uint32_t end = predicate_of(x->triple) != TYPE ? SP : side ? RANGE : DOM;
    fact behind = make(link, end + 1, 0);
    for (size_t i = lower(f, x->n, make(link, SP, 0)); i < x->n && f[i] < behind; i++) {
        uint32_t q = predicate_of(f[i]);
        if (q != SP && q != end) continue;
        size_t node = q == SP ? i + side * FACTS : i;
        if (x->mark[node]) return -1;
        x->mark[node] = from;
        if (q == end && (object_of(f[i]) == x->goal || is_blank(x->goal))) return (int)node;
        x->queue[x->to++] = (uint16_t)node;
    }
    return -1;
}

/* From the starts to the goal: the last node of a shortest derivation, or -1. */
static int spread(search *x) {
    while (x->from < x->to) {
        size_t node = x->queue[x->from];
        uint16_t from = (uint16_t)(x->from++ + 2);
        unsigned side = node >= FACTS;
        fact f = x->facts[node - side * FACTS];
        uint32_t q = predicate_of(f);
        int goal = q == SP || q > TYPE ? visit_property(x, q == SP ? object_of(f) : q, side, from) : visit(x, object_of(f), SC, 0, from, 1);
        if (goal >= 0) return goal;
    }
    return -1;
}

/* The one node of a derivation that is a table fact. */
static int alone(search *x, size_t node) {
    x->mark[node] = 1;
    return (int)node;
}

/* Terms met of late, each at its remainder. */
enum { LATE = 512 };
typedef struct { uint16_t late[LATE]; } terms;

/* Whether the term is not among those met of late; then it is put there. */
static int is_new(terms *met, uint32_t t) {
    uint16_t *at = &met->late[t % LATE];
    if (*at == t) return 0;
    *at = (uint16_t)t;
    return 1;
}

/* The last node of a shortest derivation of a filling of (? p o), or -1. A type's start is every data fact, for its subject and
 * its object; one for each predicate and each class is enough, so most of the others are left out. The other terms of the
 * vocabulary need no start: a chain to the object ends in a fact that fits. */
static int find_subject(search *x) {
    const fact *f = x->facts;
    uint32_t p = predicate_of(x->triple), object = object_of(x->triple);
    terms predicates = {0}, classes = {0};
    for (size_t i = 0; i < x->n; i++) {
        uint32_t q = predicate_of(f[i]), o = object_of(f[i]);
        if (q == p && o == object) return alone(x, i);
        if (p < TYPE || q < TYPE) continue;
        if (p != TYPE) {
            if (q != TYPE && o == object && is_new(&predicates, q)) start(x, i);
        } else if (q == TYPE) {
            if (is_new(&classes, o)) start(x, i);
        } else if (is_new(&predicates, q)) {
            start(x, i);
            start(x, i + FACTS);
        }
    }
    return spread(x);
}

/* The same for (s p ?): the first fact that fits, or else from data facts of the subject, for a type also into it, one for each
 * predicate. */
static int find_object(search *x) {
    const fact *f = x->facts, t = x->triple;
    uint32_t subject = subject_of(t), p = predicate_of(t);
    size_t n = x->n, i = lower(f, n, make(subject, p, 0));
    if (i < n && f[i] >> 16 == t >> 16) return alone(x, i);
    if (p < TYPE) return -1;
    i = lower(f, n, make(subject, NAME_FIRST, 0));
    for (fact before = 0; i < n && subject_of(f[i]) == subject; before = f[i++])
        if (f[i] >> 16 != before >> 16) start(x, i);
    terms met = {0};
    for (i = 0; p == TYPE && i < n; i++)
        if (object_of(f[i]) == subject && predicate_of(f[i]) > TYPE && is_new(&met, predicate_of(f[i]))) start(x, i + FACTS);
    return spread(x);
}

/* The last node of a shortest derivation of a filling, or -1. Not inlined: a question without a gap is to cost no more by it. */
static __attribute__((noinline)) int find_filling(search *x) {
    return is_blank(subject_of(x->triple)) ? find_subject(x) : find_object(x);
}

static uint8_t *put_line(uint8_t *at, uint32_t rule, uint32_t first, uint32_t second, fact f) {
    put_field(at, rule);
    put_field(at + 5, first);
    put_field(at + 10, second);
    put_field(at + 15, subject_of(f));
    put_field(at + 20, predicate_of(f));
    put_field(at + 25, object_of(f));
    at[30] = '\n';
    return at + LINE;
}

/* Prints the derivation of the facts, which are in printed order; gives its last fact. */
static fact print(const fact *used, size_t count, uint8_t *at) {
    fact r = used[0];
    at = put_line(at, 0, 0, 0, r);
    for (size_t k = 1; k < count; k++) {
        fact f = used[k];
        uint32_t p = predicate_of(f), o = object_of(f), before = predicate_of(r), result = (uint32_t)(2 * k - 1), new = result + 1;
        at = put_line(at, 0, 0, 0, f);
        if (p == SP || (p == SC && before == SC)) {
            r = make(subject_of(r), p, o);
            at = put_line(at, p == SP ? 1 : 3, result, new, r);
        } else if (before == SP) {
            r = make(subject_of(f), object_of(r), o);
            at = put_line(at, 2, result, new, r);
        } else {
            r = make(p == RANGE ? object_of(r) : subject_of(r), TYPE, o);
            at = put_line(at, p == SC ? 4 : p == DOM ? 5 : 6, new, result, r);
        }
    }
    return r;
}

/* Writes the facts from a start to the node, the last one before `end`; gives the place of the first. */
static fact *path(const search *x, int node, fact *end) {
    for (;;) {
        *--end = x->facts[node % FACTS];
        if (x->mark[node] == 1) return end;
        node = x->queue[x->mark[node] - 2];
    }
}

/* A path visits the data fact first, the print puts it behind the sp facts. */
static void put_in_order(fact *first, size_t count) {
    if (!is_name(predicate_of(*first))) return;
    fact data = *first;
    size_t k = 0;
    for (; k + 1 < count && predicate_of(first[k + 1]) == SP; k++) first[k] = first[k + 1];
    first[k] = data;
}

uint64_t plain_question(const uint8_t *table, size_t table_len, uint32_t subject, uint32_t predicate, uint32_t object,
                        uint32_t limit, uint8_t *output, size_t output_len) {
    fact facts[FACTS], used[FACTS];
    uint64_t refusal = load(table, table_len, facts);
    if (refusal) return refusal;
    unsigned number = question_fault(subject, predicate, object);
    if (number) return answer(number, 0, 0);
    if (limit > FACTS) return answer(7, 0, 0);
    if (limit && output_len < LINE * (2 * (size_t)limit - 1)) return answer(8, 0, 0);
    search x;
    x.facts = facts;
    x.n = table_len / TABLE_LINE;
    x.from = x.to = 0;
    x.triple = make(subject, predicate, object);
    x.goal = is_name(predicate) ? predicate : object;
    for (size_t i = 0; i < x.n; i++) x.mark[i] = x.mark[i + FACTS] = 0;
    int node = is_blank(subject) || is_blank(object) ? find_filling(&x) : find(&x);
    if (node < 0) return answer(91, 0, 0);
    fact *first = path(&x, node, used + FACTS);
    size_t count = (size_t)(used + FACTS - first);
    if (count > limit) return answer(92, 0, count);
    put_in_order(first, count);
    fact filled = print(first, count, output);
    uint64_t filling = is_blank(subject) ? subject_of(filled) : is_blank(object) ? object_of(filled) : 0;
    return answer(90, 0, count) | filling << 48;
}

typedef struct { uint32_t rule, first, second, s, p, o; } line;

static int read_line(const uint8_t *at, line *l) {
    return field(at, &l->rule) && field(at + 5, &l->first) && field(at + 10, &l->second) && field(at + 15, &l->s)
        && field(at + 20, &l->p) && field(at + 25, &l->o) && at[30] == '\n';
}

/* Rule l->rule gives l from p and q. These are well-formed, and so is then what they give. */
static int gives(const line *l, const line *p, const line *q) {
    switch (l->rule) {
    case 1:
    case 3: {
        uint32_t chain = l->rule == 1 ? SP : SC;
        return p->p == chain && q->p == chain && l->p == chain && p->o == q->s && l->s == p->s && l->o == q->o;
    }
    case 2: return p->p == SP && p->s == q->p && l->s == q->s && l->p == p->o && l->o == q->o;
    case 4: return p->p == SC && q->p == TYPE && p->s == q->o && l->s == q->s && l->p == TYPE && l->o == p->o;
    case 5: return p->p == DOM && p->s == q->p && l->s == q->s && l->p == TYPE && l->o == p->o;
    case 6: return p->p == RANGE && p->s == q->p && l->s == q->o && l->p == TYPE && l->o == p->o;
    default: return 0;
    }
}

uint64_t plain_check(const uint8_t *table, size_t table_len, uint32_t subject, uint32_t predicate, uint32_t object,
                     const uint8_t *derivation, size_t derivation_len) {
    fact facts[FACTS];
    line lines[LINES];
    uint64_t refusal = load(table, table_len, facts);
    if (refusal) return refusal;
    unsigned number = fault(subject, predicate, object);
    if (number) return answer(number, 0, 0);
    size_t n = table_len / TABLE_LINE, count = derivation_len / LINE, table_lines = 0;
    if (!count || derivation_len % LINE || count > LINES) return answer(9, 0, 0);
    for (size_t i = 0; i < count; i++)
        if (!read_line(derivation + LINE * i, &lines[i])) return answer(9, i + 1, 0);
    for (size_t i = 0; i < count; i++) {
        const line *l = &lines[i];
        if (l->rule == 0) {
            if (l->first || l->second || l->s > TERM_LAST || l->p > TERM_LAST || l->o > TERM_LAST) return answer(10, i + 1, 0);
            size_t j = lower(facts, n, make(l->s, l->p, l->o));
            if (j == n || facts[j] != make(l->s, l->p, l->o)) return answer(10, i + 1, 0);
            table_lines++;
        } else if (l->first - 1 >= i || l->second - 1 >= i || !gives(l, &lines[l->first - 1], &lines[l->second - 1])) {
            return answer(10, i + 1, 0);
        }
    }
    const line *last = &lines[count - 1];
    if (last->s != subject || last->p != predicate || last->o != object) return answer(11, count, 0);
    return answer(93, 0, table_lines);
}

uint64_t plain_read(const uint8_t *table, size_t table_len, uint32_t *row, size_t row_len) {
    fact facts[FACTS];
    uint64_t refusal = load(table, table_len, facts);
    if (refusal) return refusal;
    size_t n = table_len / TABLE_LINE;
    if (row_len < 3 * n) return answer(8, 0, 0);
    for (size_t i = 0; i < n; i++) row[3 * i] = subject_of(facts[i]), row[3 * i + 1] = predicate_of(facts[i]), row[3 * i + 2] = object_of(facts[i]);
    return answer(0, 0, n);
}

uint64_t plain_write(const uint32_t *row, size_t row_len, uint8_t *output, size_t output_len) {
    if (row_len % 3 || row_len > 3 * FACTS) return answer(1, 0, 0);
    size_t n = row_len / 3;
    fact before = 0;
    for (size_t i = 0; i < n; i++) {
        unsigned number = fault(row[3 * i], row[3 * i + 1], row[3 * i + 2]);
        if (number) return answer(number, i + 1, 0);
        fact f = make(row[3 * i], row[3 * i + 1], row[3 * i + 2]);
        if (f <= before) return answer(6, i + 1, 0);
        before = f;
    }
    if (output_len < TABLE_LINE * n) return answer(8, 0, 0);
    for (size_t i = 0; i < 3 * n; i++) put_field(output + TABLE_LINE * (i / 3) + 5 * (i % 3), row[i]);
    for (size_t i = 0; i < n; i++) output[TABLE_LINE * i + 15] = '\n';
    return answer(0, 0, n);
}

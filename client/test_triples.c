/* The values of factbox_import: what a text in N-Triples may have, byte by byte; numbers by first appearance; every refusal, its place
 * and its order; and that a table is written whole or not at all. */
#include "factbox.h"
#include "test.h"

#include <string.h>

#define RDFS "<http://www.w3.org/2000/01/rdf-schema#"
#define SC RDFS "subClassOf>"
#define SP RDFS "subPropertyOf>"
#define DOM RDFS "domain>"
#define RANGE RDFS "range>"
#define TYPE "<http://www.w3.org/1999/02/22-rdf-syntax-ns#type>"

enum { ROOM = 64 };

static uint64_t result(uint64_t number, uint64_t place, uint64_t count) { return number | place << 8 | count << 32; }

static uint64_t import(const char *text, size_t len, uint8_t *table, size_t room) {
    return factbox_import((const uint8_t *)text, len, table, room);
}

/* A text and what becomes of it: a table, or a refusal with its place. */
typedef struct {
    const char *text;
    uint64_t number, place;
    const char *table;
} example;

#define ONE "    6    7    8\n"

static const example TABLES[] = {
    {"", 0, 0, ""},
    {"\n", 0, 0, ""},
    {" \t \n\n\t# <a> <b> <c> .\n#\n  #", 0, 0, ""},
    /* white space: any, also none; the last line end may be missing */
    {"<a> <b> <c> .\n", 0, 0, ONE},
    {"<a> <b> <c> .", 0, 0, ONE},
    {"<a><b><c>.", 0, 0, ONE},
    {"\t <a>\t\t<b>  <c> \t. \t\n", 0, 0, ONE},
    {"<a><b><c>.#", 0, 0, ONE},
    {"<a> <b> <c> . # \"x\\u0041 <d> .\n \n", 0, 0, ONE},
    /* relative and empty IRIs, and bytes in them */
    {"<> <#> <//?=&;%20@'()*+,!$[]_~-.:> .", 0, 0, ONE},
    {"<a#b> <a.b> <a\x7f" "b> .", 0, 0, ONE},
    {"<\xff> <\xc3\xa4> <\x80\x80> .", 0, 0, ONE},
    /* the vocabulary, as predicates and as whole tokens, byte by byte */
    {"<a> " SC " <b> .", 0, 0, "    6    1    7\n"},
    {"<a> " SP " <b> .", 0, 0, "    6    2    7\n"},
    {"<a> " DOM " <b> .", 0, 0, "    6    3    7\n"},
    {"<a> " RANGE " <b> .", 0, 0, "    6    4    7\n"},
    {"<a> " TYPE " <b> .", 0, 0, "    6    5    7\n"},
    {"<a> " RDFS "subclassOf> <b> .", 0, 0, ONE},
    {"<a> " RDFS "subClassOf/> <b> .", 0, 0, ONE},
    {"<a> <http://www.w3.org/1999/02/22-rdf-syntax-ns#Type> <b> .", 0, 0, ONE},
    {RDFS "label> <b> \"" TYPE "\" .", 0, 0, "    6    740000\n"},
    /* numbers by first appearance, lines by number */
    {"<z> <y> <x> .", 0, 0, ONE},
    {"<a> <b> <b> .", 0, 0, "    6    7    7\n"},
    {"<a> <a> <a> .", 0, 0, "    6    6    6\n"},
    {"<b> <p> <a> .\n<a> <p> <b> .\n<b> <a> <c> .\n", 0, 0, "    6    7    8\n    6    8    9\n    8    7    6\n"},
    {"# c\n<a> <p> \"1\" .\n\n<a> <p> <b> .\n", 0, 0, "    6    7    8\n    6    740000\n"},
    /* equal facts become one */
    {"<a> <b> <c> .\n<a><b><c>. # again\n\t<a> <b> <c>.", 0, 0, ONE},
    /* a literal is its full token; its datatype's IRI gets no number of its own */
    {"<a> <b> \"\" .", 0, 0, "    6    740000\n"},
    {"<a> <b> \"x\" .\n<a> <b> \"x\"@en .\n<a> <b> \"x\"@EN .\n", 0, 0, "    6    740000\n    6    740001\n    6    740002\n"},
    {"<a> <b> \"x\"^^<t> .\n<t> <b> \"x\"^^<T> .\n<a> <b> \"x\" .", 0, 0, "    6    740000\n    6    740002\n    8    740001\n"},
    {"<a> <b> \"x\"@en-GB-x-1a2 .", 0, 0, "    6    740000\n"},
    {"<a> <b> \"x\"@a.", 0, 0, "    6    740000\n"},
    {"<a> <b> \"x\"^^<>.", 0, 0, "    6    740000\n"},
    {"<a> <b> \"# . <c> '\t\x01\x7f\xff\".#", 0, 0, "    6    740000\n"},
};

static const example REFUSED[] = {
    /* 13: lines that are no statement */
    {"<a> <b> <c>", 13, 1, NULL}, {"<a> <b> .", 13, 1, NULL}, {"<a> .", 13, 1, NULL}, {".", 13, 1, NULL}, {"<a> <b> <c> ..", 13, 1, NULL},
    {"<a> <b> <c> . <d> <e> <f> .", 13, 1, NULL}, {"<a> <b> <c> <d> .", 13, 1, NULL}, {"<a> <b> <c> , <d> .", 13, 1, NULL},
    {"a b c .", 13, 1, NULL}, {"<a> a <c> .", 13, 1, NULL}, {"@prefix a: <a> .", 13, 1, NULL}, {"x", 13, 1, NULL},
    {"<a <b> <c> .", 13, 1, NULL}, {"<a> <b> <c .", 13, 1, NULL}, {"<a b> <b> <c> .", 13, 1, NULL}, {"<a> <b> <c> .\f", 13, 1, NULL},
    {"\xef\xbb\xbf<a> <b> <c> .", 13, 1, NULL}, {"<a>\xa0<b> <c> .", 13, 1, NULL},
    /* literals: as objects only, closed, their parts together */
    {"\"x\" <b> <c> .", 13, 1, NULL}, {"<a> \"x\" <c> .", 13, 1, NULL}, {"<a> <b> \"x .", 13, 1, NULL}, {"<a> <b> 'x' .", 13, 1, NULL},
    {"<a> <b> \"x\"y .", 13, 1, NULL}, {"<a> <b> \"x\" @en .", 13, 1, NULL}, {"<a> <b> \"x\"@ en .", 13, 1, NULL},
    {"<a> <b> \"x\"@ .", 13, 1, NULL}, {"<a> <b> \"x\"@en- .", 13, 1, NULL}, {"<a> <b> \"x\"@1n .", 13, 1, NULL}, {"<a> <b> \"x\"@e1 .", 13, 1, NULL},
    {"<a> <b> \"x\"@en--a .", 13, 1, NULL}, {"<a> <b> \"x\"@-en .", 13, 1, NULL}, {"<a> <b> \"x\"@e\xc3\xa4 .", 13, 1, NULL},
    {"<a> <b> \"x\" ^^<t> .", 13, 1, NULL}, {"<a> <b> \"x\"^^ <t> .", 13, 1, NULL}, {"<a> <b> \"x\"^<t> .", 13, 1, NULL},
    {"<a> <b> \"x\"^ ^<t> .", 13, 1, NULL}, {"<a> <b> \"x\"^^t .", 13, 1, NULL}, {"<a> <b> \"x\"^^_:t .", 13, 1, NULL},
    {"<a> <b> \"x\"@en^^<t> .", 13, 1, NULL}, {"<a> <b> \"x\"^^<t>@en .", 13, 1, NULL}, {"<a> <b> \"x\"^^<t", 13, 1, NULL},
    {"<a> <b> \"x\"^", 13, 1, NULL}, {"<a> <b> \"x\"^^", 13, 1, NULL}, {"<a> <b> \"x\"@", 13, 1, NULL}, {"<a> <b> \"", 13, 1, NULL},
    {"<a> <b> \"x\"^^\"t\" .", 13, 1, NULL},
    /* no escapes */
    {"<a> <b> \"x\\n\" .", 13, 1, NULL}, {"<a> <b> \"\\u0041\" .", 13, 1, NULL}, {"<a> <b> \"\\\"\" .", 13, 1, NULL},
    {"<a> <b> <\\u0041> .", 13, 1, NULL},
    /* byte 13, anywhere */
    {"<a> <b> <c> .\r\n", 13, 1, NULL}, {"# x\r\n", 13, 1, NULL}, {"\r", 13, 1, NULL}, {"<a> <b> \"x\ry\" .", 13, 1, NULL},
    {"\n<a> <b> <c> .\n\n# x \r y", 13, 4, NULL},
    /* 14: a blank node as subject or object, on a line that is sound otherwise */
    {"_:x <b> <c> .", 14, 1, NULL}, {"<a> <b> _:x .", 14, 1, NULL}, {"_:x <b> _:x .", 14, 1, NULL}, {"_:x<b>_:y.", 14, 1, NULL},
    {"_:x <b> \"x\"@en .#", 14, 1, NULL}, {"<a> <b> _:x.y.", 14, 1, NULL}, {"<a> <b> _:0-:_.\xff . #", 14, 1, NULL}, {"_::a <b> <c> .", 14, 1, NULL},
    {"_:\xff <b> <c> .", 14, 1, NULL}, {"_:a.. <b> <c> .", 13, 1, NULL}, {"<a> <b> _:x.y", 13, 1, NULL}, {"_:x _:y <c> .", 13, 1, NULL},
    {"<a> _:y <c> .", 13, 1, NULL}, {"_: <b> <c> .", 13, 1, NULL}, {"_x <b> <c> .", 13, 1, NULL}, {"_:-x <b> <c> .", 13, 1, NULL},
    {"_:.x <b> <c> .", 13, 1, NULL}, {"_:x <b> <c>", 13, 1, NULL}, {"<a> <b> _:x ..", 13, 1, NULL}, {"<a> <b> _:x..", 13, 1, NULL}, {"<a> <b> _:x.. .", 13, 1, NULL},
     {"_:x <b> \"x\\n\" .", 13, 1, NULL},
    /* line by line, 13 and then 14; the place is the line, with comments and blank lines counted */
    {"_:x <b> <c> .\nx\n", 14, 1, NULL}, {"x\n_:x <b> <c> .\n", 13, 1, NULL}, {"# 1\n\n<a> <b> <c> .\n_:x <b> <c> .\nx", 14, 4, NULL},
    {"<a> <b> <c> .\n<a> <b> <c> .\n\n<a> <b> .\n", 13, 4, NULL},
    /* 5 and 12 when all lines have passed, statement by statement, repeats too; 5 before 12 on each */
    {SC " <b> <c> .", 5, 1, NULL}, {"<a> <b> " TYPE " .", 5, 1, NULL}, {RANGE " " DOM " " SP " .", 5, 1, NULL}, {"\n<a> " SC " " SC " .", 5, 2, NULL},
    {"<a> " SC " \"x\" .", 12, 1, NULL}, {"<a> " SP " \"x\"@en .", 12, 1, NULL}, {"<a> " DOM " \"x\" .", 12, 1, NULL},
    {"<a> " RANGE " \"x\"^^<t> .", 12, 1, NULL}, {"#\n<a> " TYPE " \"x\" .", 12, 2, NULL}, {SC " " SC " \"x\" .", 5, 1, NULL},
    {"<a> " TYPE " \"x\" .\n" SC " <b> <c> .", 12, 1, NULL}, {SC " <b> <c> .\n<a> " TYPE " \"x\" .", 5, 1, NULL},
    {SC " <b> <c> .\n<a> <b> <c> .\nx", 13, 3, NULL}, {"<a> " TYPE " \"x\" .\n<a> <b> _:x .", 14, 2, NULL},
    {"<a> <b> <c> .\n<a> " SC " \"x\" .\n<a> " SC " \"x\" .", 12, 2, NULL},
};

/* The text becomes this table, in memory that is just enough or more; one byte short is too short. */
static void becomes(const example *e) {
    uint8_t memory[ROOM], before[ROOM];
    size_t len = strlen(e->table);
    memset(before, 0x5a, ROOM);
    for (size_t room = len > 0 ? len - 1 : 0; room <= len + 2; room++) {
        memset(memory, 0x5a, ROOM);
        uint64_t r = import(e->text, strlen(e->text), memory, room);
        size_t written = room < len ? 0 : len;
        int right = r == (room < len ? result(FACTBOX_SHORT, 0, 0) : result(FACTBOX_DONE, 0, len / 16))
            && memcmp(memory, e->table, written) == 0 && memcmp(memory + written, before + written, ROOM - written) == 0;
        if (!right) fprintf(stderr, "text \"%s\", room %zu: number %u, place %u\n", e->text, room, factbox_number(r), factbox_place(r));
        EXPECT(right);
    }
}

/* The text gets this refusal, also where there is no memory, and nothing is written. */
static void is_refused(const example *e) {
    uint8_t memory[ROOM], before[ROOM];
    memset(before, 0x5a, ROOM);
    memcpy(memory, before, ROOM);
    uint64_t r = import(e->text, strlen(e->text), memory, ROOM), again = import(e->text, strlen(e->text), memory, 0);
    int right = r == result(e->number, e->place, 0) && again == r && memcmp(memory, before, ROOM) == 0;
    if (!right) fprintf(stderr, "text \"%s\": number %u, place %u\n", e->text, factbox_number(r), factbox_place(r));
    EXPECT(right);
}

static int is_letter(int b) { return (b >= 'a' && b <= 'z') || (b >= 'A' && b <= 'Z'); }
static int is_alphanumeric(int b) { return is_letter(b) || (b >= '0' && b <= '9'); }
static int is_of_iri(int b) { return b > 32 && !strchr("<>\"{}|^`\\", b); }
static int is_of_comment(int b) { return b != '\n' && b != '\r'; }
static int is_of_quotes(int b) { return is_of_comment(b) && b != '"' && b != '\\'; }
static int is_white(int b) { return b == ' ' || b == '\t'; }
static int begins_label(int b) { return is_alphanumeric(b) || b == '_' || b == ':' || b > 127; }
static int is_of_label(int b) { return begins_label(b) || b == '-' || b == '.'; }
static int ends_label(int b) { return (is_of_label(b) && b != '.') || is_white(b); }
static int is_of_tag(int b) { return is_letter(b) || is_white(b); }
static int is_before(int b) { return is_white(b) || b == '\n' || b == '#'; }
static int ends_comment(int b) { return b != '\r'; }

/* Every byte at a place of a text (its ~): where the test holds, the text gets the first number, else 13 on line 1. */
static void each_byte(const char *text, int (*holds)(int), unsigned number) {
    uint8_t table[16];
    size_t len = strlen(text), at = (size_t)(strchr(text, '~') - text);
    for (int b = 0; b < 256; b++) {
        char changed[64];
        memcpy(changed, text, len);
        changed[at] = (char)b;
        uint64_t r = import(changed, len, table, sizeof table), other = result(FACTBOX_STATEMENT, 1, 0);
        uint64_t right = !holds(b) ? other : number ? result(number, 1, 0) : result(0, 0, factbox_count(r));
        if (r != right) fprintf(stderr, "text \"%s\", byte %d: number %u, place %u\n", text, b, factbox_number(r), factbox_place(r));
        EXPECT(r == right);
    }
}

static void bytes(void) {
    each_byte("<a~b> <b> <c> .", is_of_iri, 0);
    each_byte("<a> <~> <c> .", is_of_iri, 0);
    each_byte("<a> <b> <c~> .", is_of_iri, 0);
    each_byte("<a> <b> \"x\"^^<~> .", is_of_iri, 0);
    each_byte("<a> <b> \"x~y\" .", is_of_quotes, 0);
    each_byte("<a> <b> \"x\"@~n .", is_letter, 0);
    each_byte("<a> <b> \"x\"@en-~n .", is_alphanumeric, 0);
    each_byte("<a> <b> <c> . #~", ends_comment, 0);
    each_byte(" #~", ends_comment, 0);
    each_byte("_:~ <b> <c> .", begins_label, 14);
    each_byte("_:a~z <b> <c> .", is_of_label, 14);
    each_byte("<a> <b> _:a~ .", ends_label, 14);
    each_byte("~<a> <b> <c> .", is_before, 0);
    each_byte("<a>~<b> <c> .", is_white, 0);
    each_byte("<a> <b>~<c> .", is_white, 0);
    each_byte("<a> <b> <c>~.", is_white, 0);
    each_byte("<a> <b> \"x\"@en~ .", is_of_tag, 0);
    each_byte("<a> <b> \"x\"^^<t>~.", is_white, 0);
}

/* So many different facts, as a text of lines of 19 bytes; its length. */
static size_t many(char *text, unsigned facts) {
    size_t len = 0;
    for (unsigned i = 0; i < facts; i++) len += (size_t)sprintf(text + len, "<%05u> <b> \"%u\" .\n", i / 3, i % 3);
    return len;
}

/* 1,024 different facts pass, with any number of repeats; one more is a crowd, which comes behind 13, 14, 5 and 12 and before 8. */
static void crowd(void) {
    static char text[FACTBOX_IMPORT_MAX];
    static uint8_t table[FACTBOX_TABLE_MAX];
    size_t len = many(text, 1024);
    memcpy(text + len, text, len);
    EXPECT(import(text, 2 * len, table, sizeof table) == result(FACTBOX_DONE, 0, 1024));
    EXPECT(memcmp(table, "    6    740000\n", 16) == 0 && memcmp(table + 16 * 1023, "  348    740000\n", 16) == 0);
    EXPECT(import(text, 2 * len, table, sizeof table - 1) == result(FACTBOX_SHORT, 0, 0));
    len = many(text, 1025);
    EXPECT(import(text, len, table, sizeof table) == result(FACTBOX_CROWD, 0, 0));
    EXPECT(import(text, len, table, 0) == result(FACTBOX_CROWD, 0, 0));
    const example behind[] = {
        {"<a> " SC " \"x\" .", 12, 1026, NULL}, {SC " <b> <c> .\n", 5, 1026, NULL}, {"\n_:x <b> <c> .", 14, 1027, NULL}, {"\nx", 13, 1027, NULL},
    };
    for (size_t i = 0; i < sizeof behind / sizeof *behind; i++) {
        strcpy(text + len, behind[i].text);
        EXPECT(import(text, len + strlen(behind[i].text), table, sizeof table) == result(behind[i].number, behind[i].place, 0));
    }
}

/* 65,536 bytes pass; one more gets 13 with place 0, before anything else. */
static void size(void) {
    static char text[FACTBOX_IMPORT_MAX + 1];
    static uint8_t table[FACTBOX_TABLE_MAX];
    memset(text, '#', sizeof text);
    memcpy(text, "<a> <b> <c> .", 13);
    EXPECT(import(text, FACTBOX_IMPORT_MAX, table, 16) == result(FACTBOX_DONE, 0, 1));
    EXPECT(import(text, FACTBOX_IMPORT_MAX + 1, table, 16) == result(FACTBOX_STATEMENT, 0, 0));
    *text = 'x';
    EXPECT(import(text, FACTBOX_IMPORT_MAX, table, 16) == result(FACTBOX_STATEMENT, 1, 0));
    EXPECT(import(text, FACTBOX_IMPORT_MAX + 1, table, 0) == result(FACTBOX_STATEMENT, 0, 0));
    EXPECT(import(text, SIZE_MAX, table, 0) == result(FACTBOX_STATEMENT, 0, 0));
}

/* The largest place, and the largest numbers: 8,192 statements of 8 bytes; blank lines up to the last byte. */
static void limits(void) {
    static char text[FACTBOX_IMPORT_MAX];
    static uint8_t table[FACTBOX_TABLE_MAX];
    memset(text, '\n', sizeof text);
    EXPECT(import(text, sizeof text, table, 0) == result(FACTBOX_DONE, 0, 0));
    text[sizeof text - 1] = 'x';
    EXPECT(import(text, sizeof text, table, 0) == result(FACTBOX_STATEMENT, 65536, 0));
    for (size_t at = 0; at < sizeof text; at += 8) memcpy(text + at, "<><><>.\n", 8);
    EXPECT(import(text, sizeof text, table, 16) == result(FACTBOX_DONE, 0, 1) && memcmp(table, "    6    6    6\n", 16) == 0);
    memcpy(text + sizeof text - 8, "<><><>x\n", 8);
    EXPECT(import(text, sizeof text, table, 16) == result(FACTBOX_STATEMENT, 8192, 0));
    size_t len = 0;
    for (unsigned i = 0; i < 1024; i++) len += (size_t)sprintf(text + len, "<s%u> <p%u> \"%u\" .\n", i, i, i);
    EXPECT(import(text, len, table, sizeof table) == result(FACTBOX_DONE, 0, 1024));
    EXPECT(memcmp(table + sizeof table - 16, " 2052 205341023\n", 16) == 0);
}

int main(void) {
    for (size_t i = 0; i < sizeof TABLES / sizeof *TABLES; i++) becomes(&TABLES[i]);
    for (size_t i = 0; i < sizeof REFUSED / sizeof *REFUSED; i++) is_refused(&REFUSED[i]);
    bytes();
    crowd();
    size();
    limits();
    return finish("test_triples");
}

/* Damages a file for the tests: damage SEED < FILE > DAMAGED makes one to three small changes. The same seed makes the
 * same ones. With `damage SEED nt` some of them are of what N-Triples have. */
#include <stdint.h>
#include <stdio.h>
#include <stdlib.h>
#include <string.h>

enum { ROOM = 1 << 16 };

static uint64_t state;
static char bytes[ROOM];
static size_t len;

/* What may be put in or over. */
static const char *const TABLE_TEXTS[] = {" ", "\n", "\r", "\t", "#", "0", "9", "x", "\xef\xbb\xbf", "\xff", ",", ";",
                                          "\r\n", "    0", "65536", "type", "?", "60000"};
static const char *const TRIPLE_TEXTS[] = {" ", "\n", "\r", "\t", "#", "<", ">", "\"", ".", "\\", "\xc3\xa4", "\xff", "_:x ", "@en", "^^<t>",
                                           "<a>", "\"a\"", " .\n", "\x01"};
static int triples;

/* A number below n. */
static size_t below(size_t n) {
    state ^= state << 13, state ^= state >> 7, state ^= state << 17;
    return (size_t)(state % n);
}

static void replace(size_t at, size_t old, const char *text, size_t new) {
    memmove(bytes + at + new, bytes + at + old, len - at - old);
    memcpy(bytes + at, text, new);
    len += new - old;
}

/* Repeats the line from `at` to its end. */
static void repeat(size_t at) {
    char piece[64];
    size_t n = 0;
    while (at + n < len && n < sizeof piece && (n == 0 || bytes[at + n - 1] != '\n')) n++;
    memcpy(piece, bytes + at, n);
    replace(at, 0, piece, n);
}

static int has_digit(size_t at) { return at < len && bytes[at] >= '0' && bytes[at] <= '9'; }

/* Puts a literal for the number at `at` or the next one behind it; where that has five columns, the literal takes them. */
static void put_literal(size_t at) {
    while (at < len && !has_digit(at)) at++;
    while (at > 0 && has_digit(at) && has_digit(at - 1)) at--;
    size_t end = at, column = at;
    while (has_digit(end)) end++;
    while (column > 0 && end - column < 5 && bytes[column - 1] == ' ') column--;
    if (end - column == 5) at = column;
    if (at < end) replace(at, end - at, "40001", 5);
}

/* Puts another token for the IRI at `at` or the next one behind it: vocabulary, a literal, a blank node or an IRI. */
static void put_token(size_t at) {
    static const char *const tokens[] = {"<http://www.w3.org/2000/01/rdf-schema#range>", "\"a\"@en", "_:a", "<a>"};
    const char *text = tokens[below(4)];
    while (at < len && bytes[at] != '<') at++;
    size_t end = at;
    while (end < len && bytes[end] != '>') end++;
    if (end < len) replace(at, end + 1 - at, text, strlen(text));
}

/* One change: text put in or over, bytes taken away, the end cut off, a byte 0, a line or its rest repeated, a literal in a
 * number's place or another token in an IRI's, another digit. */
static void change(void) {
    size_t at = below(len + 1), rest = len - at, few = rest < 4 ? rest : 4;
    const char *text = triples ? TRIPLE_TEXTS[below(sizeof TRIPLE_TEXTS / sizeof *TRIPLE_TEXTS)]
                               : TABLE_TEXTS[below(sizeof TABLE_TEXTS / sizeof *TABLE_TEXTS)];
    switch (below(10)) {
    case 0: replace(at, 0, text, strlen(text)); break;
    case 1: replace(at, strlen(text) < rest ? strlen(text) : rest, text, strlen(text)); break;
    case 2: replace(at, below(few + 1), "", 0); break;
    case 3: if (below(4) == 0) len = at; break;
    case 4: if (below(4) == 0) replace(at, few > 0, "\0", 1); break;
    case 5: repeat(at); break;
    case 6:
        while (at > 0 && bytes[at - 1] != '\n') at--;
        repeat(at);
        break;
    case 7: triples ? put_token(at) : put_literal(at); break;
    default:
        while (at < len && (bytes[at] < '1' || bytes[at] > '9')) at++;
        if (at < len) bytes[at] = (char)('0' + below(10));
        break;
    }
}

int main(int argc, char **argv) {
    if (argc != 2 && argc != 3) return 2;
    triples = argc == 3;
    state = 0x9e3779b97f4a7c15u * (strtoull(argv[1], NULL, 10) + 1);
    len = fread(bytes, 1, sizeof bytes / 2, stdin);
    for (size_t n = 1 + below(3); n > 0; n--) change();
    return fwrite(bytes, 1, len, stdout) != len || fclose(stdout) ? 2 : 0;
}

/* Lines of N-Triples as factbox_import takes them (factbox.h), read again to say what is wrong with one, and which tokens it has. */
#ifndef TRIPLES_H
#define TRIPLES_H

#include <stddef.h>
#include <stdint.h>

/* An IRI with its < >, a literal with its quotes, tag and datatype, or a blank node: bytes of the text. */
typedef struct {
    const char *text;
    size_t len;
} token;

/* What a line is. */
typedef struct {
    unsigned refusal;       /* 13, 14, 5, 12 or 0 */
    int said;               /* it has a statement; without a refusal it is blank or a comment if not */
    token part[3];          /* subject, predicate, object, of 14, 5, 12 and 0 */
    size_t at;              /* of 13: the place where the line breaks, from 0 */
    const char *why;        /* of 13: why */
    int of_all;             /* of 13: the other lines of the file probably break for the same reason */
} statement;

/* Reads a line, without its line end. */
statement read_statement(const char *text, size_t len);

/* Whether a text is probably N-Triples: its first line that is neither blank nor a comment begins with < or _: */
int looks_like_triples(const char *text, size_t len);

/* The length of the token that begins a text, if it is an IRI or a literal; 0 if not. */
size_t token_length(const char *text, size_t len);

/* The number of a token of the vocabulary; 0 for any other. And the token of a number from 1 to 5. */
uint32_t vocabulary_number(token t);
token vocabulary_token(uint32_t number);

int is_literal_token(token t);

/* Which is first, byte by byte: below 0, 0 if they are the same, above 0. */
int compare_tokens(token a, token b);

#endif

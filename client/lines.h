/* Lines that a person writes, read from a file.
 *
 * A line has fields: numbers, or names where they are known (names.h), or in the predicate's place one of the words subclass,
 * subproperty, domain, range, type, or subClassOf, subPropertyOf.
 * A question's triple may have `?` for a gap. Between the fields stand spaces, tabs, commas or semicolons. A line as the box
 * lays it out, in fields of five columns that may touch, is read as well, also with `?` at the right of its columns. `#`
 * begins a comment. A whole IRI in < > or literal in quotes is one field, whatever stands in it. Blank lines, a carriage return
 * before the line end, and a byte order mark before the first line are passed over. */
#ifndef LINES_H
#define LINES_H

#include <stddef.h>
#include <stdint.h>
#include <stdio.h>

enum { TEXT_MAX = 1000, FIELD_COLUMNS = 5, ENDLESS = 1 << 20 };

/* A file, and the line of it that was read last. */
typedef struct {
    FILE *file;
    const char *name;
    unsigned line;            /* counted from 1 */
    size_t len;               /* of the text, without comment and line end; above TEXT_MAX for a line that is too long */
    char text[TEXT_MAX];
} lines;

/* Opens a file, or standard input for NULL, before its first line. A file that can't be opened ends the program. */
lines open_lines(const char *name);

/* Goes to the next line that has more than a comment; 0 at the file's end, where the file is closed. A file that can't be
 * read ends the program. */
int next_line(lines *in);

/* The `count` fields of a line's text: 3 are a fact's, 4 a question's. A gap is FACTBOX_GAP. Gives NULL, or what is wrong;
 * that holds until the next call. */
const char *line_fields(const char *text, size_t len, size_t count, uint32_t *fields);

/* One of the `count` fields, the one at `place`, from 0. Gives NULL, or what is wrong; that holds until the next call. */
const char *field_value(const char *text, size_t len, size_t place, size_t count, uint32_t *value);

/* The length of a line's text without its comment and what may stand at its end. */
size_t trimmed(const char *text, size_t len);

/* The length of the byte order mark at the front of a text, 0 or 3. */
size_t mark_length(const char *text, size_t len);

/* What is wrong with a line that ends as in Windows, where it may not. */
extern const char WINDOWS_END[];

int is_digit(char c);

/* A decimal number of 32 bits: NULL, or why it is none. */
const char *decimal(const char *text, size_t len, uint32_t *value);

/* One field of five columns in the box's layout; 0 if it is not as laid out. */
int layout_field(const char *text, uint32_t *value);

/* Reads at most `most` bytes of a file, or of standard input for NULL. One that can't be read ends the program. */
size_t load(const char *name, uint8_t *bytes, size_t most);

#endif

/* Which number stands for which token in a table that was imported, and the file that keeps it.
 *
 * The file has a line for each number, ascending: the number, a space, the token as it stood in the text. First come the five of
 * the vocabulary, then IRIs from 6, then literals from 40000. The last line is "end" and two sums: of the lines above it, and of the
 * table that was made with them. So a torn file, a changed one and one that belongs to another table are told. */
#ifndef NAMES_H
#define NAMES_H

#include "factbox.h"
#include "triples.h"

/* The vocabulary, and three terms a fact. */
enum { NAMES_MAX = 5 + 3 * FACTBOX_FACTS_MAX };

/* A file of names has less: the tokens of a text, a number of five digits, a space and a line end for each name, and the last line. */
enum { NAMES_FILE_MAX = FACTBOX_IMPORT_MAX + 512 + 8 * NAMES_MAX };

/* The number of a token, by the import's rule: 1 to 5 for the vocabulary, else the one it has, else the next of its kind. 0 if
 * there is no room for it. */
uint32_t token_number(token t);

/* The token of a number; of no length if it has none. */
token number_token(uint32_t number);

/* The names so far as a file for this table; its length. */
size_t write_names(const uint8_t *table, size_t table_len, char *file);

/* Takes the names from a file for this table. Gives NULL, or what is wrong with it and on which line (0 for the whole). The file is
 * kept, and must stay as it is. */
const char *read_names(const char *file, size_t len, const uint8_t *table, size_t table_len, unsigned *line);

/* A number's name, as a terminal may show it: of an IRI what stands behind its last # or /, if no other name ends so and a
 * question may have it; else the token, of a long one a part and the number. NULL if the number has none. Holds for four calls. */
const char *shown_name(uint32_t number);

/* The number whose name is shown so, or whose whole token it is, with its < > or quotes; 0 if there is none. */
uint32_t name_number(const char *text, size_t len);

/* Whether there are names. */
int has_names(void);

#endif

/* Text from a file, made safe for a terminal. */
#ifndef SHOWN_H
#define SHOWN_H

#include <stddef.h>

/* The length of the character that begins a text, 1 to 4 bytes of UTF-8, if a terminal shows it and does nothing else; 0 for a
 * control character, one that turns the direction or takes no room, and a byte that is no UTF-8. */
size_t character_length(const char *text, size_t len);

/* Puts a text at `out`: characters as they are, every other byte as \xNN. `out` has 4 bytes for each of the text's and one for the
 * end. Gives the end, where byte 0 stands. */
char *put_shown(char *out, const char *text, size_t len);

/* The last place up to this one that is not inside such a character: there a text can be cut. */
size_t character_place(const char *text, size_t len, size_t at);

/* A file's name, put so. The text holds until the next call. */
const char *shown_file(const char *name);

/* How many columns a text takes that was put so: its characters. */
size_t columns(const char *text);

#endif

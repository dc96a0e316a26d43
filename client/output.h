/* What a program has made, written out so that a failure leaves no half file: the first lines of a table may be a sound table too. */
#ifndef OUTPUT_H
#define OUTPUT_H

#include <stddef.h>

/* Bytes and the file that they are for; NULL is standard output. */
typedef struct {
    const char *name;
    const void *bytes;
    size_t len;
} output;

/* Lets the program outlive a pipe that nobody reads: writing to it then fails as writing elsewhere does. To be called first. */
void outlive_readers(void);

/* How many can be written at once. */
enum { OUTPUTS_MAX = 2 };

/* Writes them, to standard output, a file, or what else there is of that name, as a device. Files are written in a directory beside
 * the old ones, of a name that no file has (.PROGRAM.XXXXXX), and put in their places when all that is to be written is; a link is
 * followed, and an old file's mode is kept. If a file can't be written or may not be, the program ends with status 2, nothing is left
 * beside, and the old files are as they were; if one can't even be put back, standard error says where it is kept. */
void put_out(const output *outputs, size_t count);

/* A file by its name, or where that is NULL by the descriptor that it is open as. */
typedef struct {
    const char *name;
    int open;
} file;

/* Whether two files are one: named ones be they there or not, open ones where they are regular files. */
int is_same_file(file a, file b);

#endif

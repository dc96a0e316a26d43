/* What a program has made, written out: see output.h. */
#include "output.h"
#include "shown.h"
#include "words.h"

#include <errno.h>
#include <limits.h>
#include <signal.h>
#include <stdio.h>
#include <stdlib.h>
#include <string.h>
#include <sys/stat.h>
#include <unistd.h>

enum { NAME_ROOM = PATH_MAX + 32 };

static const char UNWRITTEN[] = "can't be written";

/* Where an output goes. */
typedef struct {
    FILE *open;                 /* standard output or error, if it is one of these */
    int file;                   /* it goes to a file that is there as a whole or not at all */
    int there;                  /* there is an old file */
    struct stat old;
    char name[NAME_ROOM];       /* of the file itself, links followed */
    char beside[NAME_ROOM];     /* a directory beside it, for the two below; empty if there is none */
    char fresh[NAME_ROOM];      /* the new file, until it is put in its place */
    char held[NAME_ROOM];       /* the old file, until all new ones are in their places; empty where it can't be put back */
} place;

static place places[OUTPUTS_MAX];

void outlive_readers(void) { signal(SIGPIPE, SIG_IGN); }

/* ---- names */

/* What stands behind a name's last slash. */
static const char *last_part(const char *name) {
    const char *slash = strrchr(name, '/');
    return slash ? slash + 1 : name;
}

/* Puts the directory of a name, with a slash at its end, into NAME_ROOM bytes. A name that is too long ends the program. */
static void put_directory(char *out, const char *name) {
    size_t len = (size_t)(last_part(name) - name);
    if (len >= PATH_MAX) fail("the name is too long", name);
    memcpy(out, name, len);
    strcpy(out + len, len == 0 ? "./" : "");
}

static int is_same(const struct stat *a, const struct stat *b) { return a->st_dev == b->st_dev && a->st_ino == b->st_ino; }

/* Looks at a file; 0 if it is not there. A terminal or a pipe that is open twice is no file. */
static int look(file f, struct stat *of) {
    return f.name ? stat(f.name, of) == 0 : fstat(f.open, of) == 0 && S_ISREG(of->st_mode);
}

int is_same_file(file a, file b) {
    char directory_a[NAME_ROOM], directory_b[NAME_ROOM];
    struct stat of_a, of_b;
    int there_a = look(a, &of_a), there_b = look(b, &of_b);
    if (there_a || there_b) return there_a && there_b && is_same(&of_a, &of_b);
    if (!a.name || !b.name) return 0;
    if (strcmp(a.name, b.name) == 0) return 1;
    put_directory(directory_a, a.name);
    put_directory(directory_b, b.name);
    if (strcmp(last_part(a.name), last_part(b.name)) != 0) return 0;
    return stat(directory_a, &of_a) == 0 && stat(directory_b, &of_b) == 0 && is_same(&of_a, &of_b);
}

/* ---- the place */

/* Standard output or error, if a file that is there is one of them; else NULL. */
static FILE *standing(const struct stat *there) {
    struct stat of;
    if (fstat(STDOUT_FILENO, &of) == 0 && is_same(there, &of)) return stdout;
    return fstat(STDERR_FILENO, &of) == 0 && is_same(there, &of) ? stderr : NULL;
}

/* Finds where an output goes: NULL, or why it can go nowhere. */
static const char *find_place(const output *o, place *p) {
    struct stat at;
    *p = (place){.open = o->name ? NULL : stdout};
    if (!o->name) return NULL;
    p->there = stat(o->name, &p->old) == 0;
    if (!p->there && (errno != ENOENT || *last_part(o->name) == '\0')) return strerror(errno);
    if (!p->there && lstat(o->name, &at) == 0) return "is a link that leads nowhere";
    if (p->there) p->open = standing(&p->old);
    p->file = !p->open && (!p->there || S_ISREG(p->old.st_mode));
    if (!p->file) return NULL;
    if (p->there) return realpath(o->name, p->name) && access(p->name, W_OK) == 0 ? NULL : strerror(errno);
    if (strlen(o->name) >= PATH_MAX) return "the name is too long";
    strcpy(p->name, o->name);
    return NULL;
}

/* Why no directory can be made beside a file: where an old one is, it may be writable itself. */
static const char *no_beside(const place *p) {
    static char why[5 * NAME_ROOM];
    char directory[NAME_ROOM];
    if (!p->there) return strerror(errno);
    int number = errno;
    put_directory(directory, p->name);
    snprintf(why, sizeof why, "the new file is first written beside it, in %s: %s", shown_file(directory), strerror(number));
    return why;
}

/* Makes the directory beside a file: NULL, or why that fails. */
static const char *make_beside(place *p) {
    char name[NAME_ROOM];
    put_directory(name, p->name);
    if (strlen(name) + strlen(PROGRAM) + sizeof "..XXXXXX/new" > sizeof name) return "the name is too long";
    sprintf(name + strlen(name), ".%s.XXXXXX", PROGRAM);
    if (!mkdtemp(name)) return no_beside(p);
    strcpy(p->beside, name);
    strcat(strcpy(p->fresh, name), "/new");
    strcat(strcpy(p->held, name), "/old");
    return NULL;
}

/* Takes away what is beside the files. */
static void clear_beside(void) {
    for (place *p = places; p < places + OUTPUTS_MAX; p++) {
        if (*p->beside == '\0') continue;
        remove(p->fresh);
        if (*p->held != '\0') remove(p->held);
        rmdir(p->beside);
    }
}

/* Ends the program for an output that failed. */
_Noreturn static void give_up(const output *failed, const char *why) {
    clear_beside();
    fail(why, failed->name ? failed->name : "standard output");
}

/* ---- writing */

/* Gives the new file the old one's mode, and its owner and group where that is allowed. */
static int keep_mode(FILE *fresh, const struct stat *old) {
    int owned = fchown(fileno(fresh), old->st_uid, old->st_gid) == 0;
    return fchmod(fileno(fresh), old->st_mode & (owned ? 07777 : 0777)) == 0;
}

/* Each of these writes an output: NULL, or why that fails. A file is written beside its place. */
static const char *write_file(const output *o, place *p) {
    const char *why = make_beside(p);
    FILE *out = why ? NULL : fopen(p->fresh, "wbx");
    if (!out) return why ? why : strerror(errno);
    int whole = fwrite(o->bytes, 1, o->len, out) == o->len && (!p->there || keep_mode(out, &p->old));
    return fclose(out) == 0 && whole ? NULL : UNWRITTEN;
}

static const char *write_other(const output *o, place *p) {
    FILE *out = p->open ? p->open : fopen(o->name, "wb");
    if (!out) return strerror(errno);
    int whole = fwrite(o->bytes, 1, o->len, out) == o->len && fflush(out) == 0;
    int closed = (p->open ? close(dup(fileno(out))) : fclose(out)) == 0;
    return closed && whole ? NULL : UNWRITTEN;
}

/* Writes those that are files, or the others. */
static void write_all(const output *outputs, size_t count, int files) {
    for (size_t i = 0; i < count; i++) {
        if (places[i].file != files) continue;
        const char *why = (files ? write_file : write_other)(&outputs[i], &places[i]);
        if (why) give_up(&outputs[i], why);
    }
}

/* Puts the old file back, or takes the new one away where there was none. If that fails, says where the old one is, and keeps it. */
static void put_back(place *p) {
    if ((p->there ? rename(p->held, p->name) : remove(p->name)) == 0) return;
    if (p->there) fprintf(stderr, "%s: the old file can't be put back, it is %s\n", PROGRAM, shown_file(p->held));
    *p->held = '\0';
}

/* Puts the new file in its place; the old one is held if a further one may fail. 0 if that fails: then the place is as it was. */
static int put_in_place(place *p, int hold) {
    int held = hold && p->there;
    if (held && link(p->name, p->held) != 0 && rename(p->name, p->held) != 0) return 0;
    if (rename(p->fresh, p->name) == 0) return 1;
    if (held) put_back(p);
    return 0;
}

void put_out(const output *outputs, size_t count) {
    const char *why;
    for (size_t i = 0; i < count; i++)
        if ((why = find_place(&outputs[i], &places[i]))) give_up(&outputs[i], why);
    write_all(outputs, count, 1);
    write_all(outputs, count, 0);
    for (size_t i = 0; i < count; i++) {
        if (!places[i].file || put_in_place(&places[i], i + 1 < count)) continue;
        for (size_t j = 0; j < i; j++)
            if (places[j].file) put_back(&places[j]);
        give_up(&outputs[i], UNWRITTEN);
    }
    clear_beside();
}

/* An import that goes wrong, for the tests: the box's own, and then a change to its table. The variable WRONG says which: `object` puts
 * another object in the first fact, `fewer` leaves out the last fact, `more` adds one, `torn` spoils a column, `numbers` exchanges the
 * numbers 6 and 7. Or a call on files goes wrong: `rename` lets the second renaming fail, `renames` all but the first,
 * `link` every link and the third renaming, `place` every link and the second, `access` every question whether a file may be written,
 * `beside` every new directory. */
#include "factbox.h"

#include <errno.h>
#include <stdio.h>
#include <stdlib.h>
#include <string.h>
#include <unistd.h>

int wrong_rename(const char *from, const char *to);
int wrong_link(const char *from, const char *to);
int wrong_access(const char *name, int how);
char *wrong_mkdtemp(char *name);

uint64_t wrong_import(const uint8_t *text, size_t text_len, uint8_t *table, size_t table_len);

static int compare(const void *a, const void *b) { return memcmp(a, b, FACTBOX_TABLE_LINE); }

static void exchange(uint8_t *table, size_t facts) {
    for (size_t at = 0; at < facts * FACTBOX_TABLE_LINE; at++) {
        int alone = at % FACTBOX_TABLE_LINE % 5 == 4 && table[at - 1] == ' ';
        if (alone && (table[at] == '6' || table[at] == '7')) table[at] ^= 1;
    }
    qsort(table, facts, FACTBOX_TABLE_LINE, compare);
}

uint64_t wrong_import(const uint8_t *text, size_t text_len, uint8_t *table, size_t table_len) {
    static const char added[] = "39999    6    7\n";
    uint64_t result = factbox_import(text, text_len, table, table_len), one = 1ull << 32;
    size_t facts = factbox_count(result);
    const char *how = getenv("WRONG");
    if (!how || facts == 0) return result;
    if (strcmp(how, "object") == 0) table[14] = table[14] == '9' ? '8' : '9';
    if (strcmp(how, "fewer") == 0) return result - one;
    if (strcmp(how, "torn") == 0) table[4] = 'x';
    if (strcmp(how, "numbers") == 0) exchange(table, facts);
    if (strcmp(how, "more") != 0) return result;
    memcpy(table + facts * FACTBOX_TABLE_LINE, added, FACTBOX_TABLE_LINE);
    return result + one;
}

static int is_wrong(const char *how) {
    const char *set = getenv("WRONG");
    return set && strcmp(set, how) == 0;
}

/* A call that fails. */
static int failed(void) {
    errno = EACCES;
    return -1;
}

int wrong_rename(const char *from, const char *to) {
    static int calls;
    calls++;
    if ((calls == 2 && (is_wrong("rename") || is_wrong("place"))) || (calls >= 2 && is_wrong("renames"))) return failed();
    return calls == 3 && is_wrong("link") ? failed() : rename(from, to);
}

int wrong_link(const char *from, const char *to) { return is_wrong("link") || is_wrong("place") ? failed() : link(from, to); }

char *wrong_mkdtemp(char *name) { return is_wrong("beside") && failed() ? NULL : mkdtemp(name); }

int wrong_access(const char *name, int how) { return is_wrong("access") ? failed() : access(name, how); }

/* Text from a file, made safe for a terminal: see shown.h. */
#include "shown.h"

#include <stdint.h>
#include <stdio.h>
#include <string.h>

/* A byte that is not the first of its character. */
static int is_inner(char c) { return ((unsigned char)c & 0xc0) == 0x80; }

/* How many bytes a character has by its first one, and the bits of that one; 0 if it begins none. */
static size_t begun(unsigned char first, uint32_t *bits) {
    size_t n = first < 0x80 ? 1 : first >= 0xc2 && first < 0xe0 ? 2 : first >= 0xe0 && first < 0xf0 ? 3 : first >= 0xf0 && first < 0xf5 ? 4 : 0;
    *bits = n < 2 ? first : first & (0x7fu >> n);
    return n;
}

/* Whether a character is seen and does nothing else. Left out: controls, marks of direction and of no width, halves of pairs. */
static int is_seen(uint32_t c) {
    static const uint32_t unseen[][2] = {
        {0, 0x1f}, {0x7f, 0x9f}, {0xad, 0xad}, {0x61c, 0x61c}, {0x180e, 0x180e}, {0x200b, 0x200f}, {0x2028, 0x202e},
        {0x2060, 0x206f}, {0xd800, 0xdfff}, {0xfeff, 0xfeff}, {0xfff0, 0xfffb}, {0xe0000, 0xe0fff}, {0x110000, UINT32_MAX},
    };
    for (size_t i = 0; i < sizeof unseen / sizeof *unseen; i++)
        if (c >= unseen[i][0] && c <= unseen[i][1]) return 0;
    return 1;
}

size_t character_length(const char *text, size_t len) {
    static const uint32_t least[] = {0, 0, 0x80, 0x800, 0x10000};
    uint32_t c = 0;
    size_t n = len > 0 ? begun((unsigned char)*text, &c) : 0;
    if (n > len) return 0;
    for (size_t i = 1; i < n; i++) {
        if (!is_inner(text[i])) return 0;
        c = c << 6 | ((unsigned char)text[i] & 0x3f);
    }
    return c >= least[n] && is_seen(c) ? n : 0;
}

size_t character_place(const char *text, size_t len, size_t at) {
    for (size_t back = 1; back < 4 && back <= at; back++)
        if (character_length(text + at - back, len - at + back) > back) return at - back;
    return at;
}

char *put_shown(char *out, const char *text, size_t len) {
    for (size_t at = 0, n; at < len; at += n > 0 ? n : 1) {
        n = character_length(text + at, len - at);
        memcpy(out, text + at, n);
        out += n;
        if (n == 0) out += sprintf(out, "\\x%02x", (unsigned char)text[at]);
    }
    *out = '\0';
    return out;
}

const char *shown_file(const char *name) {
    enum { SHOWN = 4096 };
    static char out[4 * SHOWN + 1];
    size_t len = strlen(name);
    put_shown(out, name, len < SHOWN ? len : SHOWN);
    return out;
}

size_t columns(const char *text) {
    size_t n = 0;
    for (; *text; text++) n += !is_inner(*text);
    return n;
}

/* Families of texts in N-Triples, for the import. */
#ifndef TEXTS_H
#define TEXTS_H
#include <stddef.h>
#include <stdint.h>

typedef struct {
    uint8_t bytes[65536];
    size_t len;
} text;

/* The first family is a typical export. */
extern const int text_family_count;
const char *text_family_name(int at);

/* A text of `size` bytes, 4,096 to 65,536. Other seeds give other names and another order of them. */
void make_text(int at, size_t size, uint32_t seed, text *t);

#endif

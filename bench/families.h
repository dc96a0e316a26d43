/* Families of tables with a question each. */
#ifndef FAMILIES_H
#define FAMILIES_H
#include <stddef.h>
#include <stdint.h>

typedef struct {
    uint8_t table[16384];
    size_t table_len;
    uint32_t subject, predicate, object;
} sample;

/* The families whose questions have no gap come first; the last of those is ordinary data. */
extern const int family_count, first_gap_family;
const char *family_name(int at);

/* A table of `facts` facts, 16 to 1,024, and a question over it. Other seeds give other names and another order of them. */
void make_sample(int at, unsigned facts, uint32_t seed, sample *s);

#endif

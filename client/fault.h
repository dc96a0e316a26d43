/* What is probably wrong with a table that the box refuses, and whether it refuses a single fact. */
#ifndef FAULT_H
#define FAULT_H

#include <stddef.h>
#include <stdint.h>
#include <stdio.h>

/* The bytes of a table's file that are looked at: more than a table has, so that a fault behind its end is seen too. */
enum { TABLE_LOOK = 1 << 20 };

/* Says of a table refused by factbox_read with 1 to 6 or 12: file, line and refusal, then the line itself (for 6 also the one
 * before it), the column or the fields, and the likely cause. */
void explain_table(FILE *out, const char *name, const uint8_t *table, size_t len, uint64_t result);

/* Says what to do with a file of N-Triples, given by its name, or NULL for standard input, where no such text is taken. */
void advise_import(FILE *out, const char *name);

/* The refusal 3, 4, 5 or 12 that the fact by itself gets from the box; 0 if none. */
unsigned fact_refusal(const uint32_t *fact);

/* Says which fields of the fact earn refusal 3, 4, 5 or 12, and why: a line each, with `more` at its end. */
void explain_fact(FILE *out, unsigned number, const uint32_t *fact, const char *more);

#endif

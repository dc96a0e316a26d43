/* The fact box's calls in plain C, as client/factbox.h declares them, to measure the proved ones against. */
#ifndef PLAIN_H
#define PLAIN_H
#include <stddef.h>
#include <stdint.h>

uint64_t plain_question(const uint8_t *table, size_t table_len, uint32_t subject, uint32_t predicate, uint32_t object,
                        uint32_t limit, uint8_t *output, size_t output_len);
uint64_t plain_check(const uint8_t *table, size_t table_len, uint32_t subject, uint32_t predicate, uint32_t object,
                     const uint8_t *derivation, size_t derivation_len);
uint64_t plain_read(const uint8_t *table, size_t table_len, uint32_t *row, size_t row_len);
uint64_t plain_write(const uint32_t *row, size_t row_len, uint8_t *output, size_t output_len);
uint64_t plain_import(const uint8_t *text, size_t text_len, uint8_t *table, size_t table_len);

#endif

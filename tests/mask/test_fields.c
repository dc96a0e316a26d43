/* Every number of up to five digits, in each place of a line, as the compiled `put_line` prints it, against C's own printf: the line's
   bytes, and those behind it, which keep their values. */
#include <stdint.h>
#include <stdio.h>
#include <string.h>

void factbox_probe_line(const uint32_t *numbers, size_t numbers_len, uint8_t *out, size_t out_len);

enum { FIELDS = 6, LINE = 5 * FIELDS + 1, BEHIND = 8, NUMBERS = 100000 };

/* Prints a line of `fields` numbers in both ways; 1 where they differ. */
static int differs(const uint32_t *numbers, size_t fields) {
    uint8_t printed[LINE + BEHIND], expected[LINE + BEHIND];
    char text[LINE + 1];
    size_t size = 5 * fields + 1;
    memset(printed, 0xa5, sizeof printed);
    memset(expected, 0xa5, sizeof expected);
    for (size_t i = 0; i < fields; i++) snprintf(text + 5 * i, 6, "%5u", (unsigned)numbers[i]);
    memcpy(expected, text, size - 1);
    expected[size - 1] = '\n';
    factbox_probe_line(numbers, fields, printed, size + BEHIND);
    return memcmp(printed, expected, sizeof printed) != 0;
}

int main(void) {
    unsigned long lines = 0;
    for (uint32_t n = 0; n < NUMBERS; n++) {
        uint32_t numbers[FIELDS];
        for (size_t i = 0; i < FIELDS; i++) numbers[i] = (n + (uint32_t)i * 16661) % NUMBERS;
        for (size_t fields = 0; fields <= FIELDS; fields++, lines++) {
            if (!differs(numbers, fields)) continue;
            printf("test_fields: a line of %zu fields that begins with %u is printed otherwise\n", fields, (unsigned)n);
            return 1;
        }
    }
    printf("test_fields: %lu lines, each number of up to five digits in each place, are printed as C prints them\n", lines);
    return 0;
}

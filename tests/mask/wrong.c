/* A printer that is right but for one number, 65536, as a number cut to 16 bits is printed. The test must catch it. */
#include <stdint.h>
#include <stdio.h>
#include <string.h>

void factbox_probe_line(const uint32_t *numbers, size_t numbers_len, uint8_t *out, size_t out_len);

void factbox_probe_line(const uint32_t *numbers, size_t numbers_len, uint8_t *out, size_t out_len) {
    char field[6];
    (void)out_len;
    for (size_t i = 0; i < numbers_len; i++) {
        snprintf(field, sizeof field, "%5u", numbers[i] == 65536 ? 0u : (unsigned)numbers[i]);
        memcpy(out + 5 * i, field, 5);
    }
    out[5 * numbers_len] = '\n';
}

/* Measures the proved calls against the plain ones: same process, same buffers, one after the other. callgrind is told to
 * collect inside the functions factbox_* and plain_* alone.
 *
 *   bench time KIND    times by family, facts and call, with the same table at every call and with another one
 *   bench count KIND   one call each, for callgrind: each call's instructions are dumped under its name
 *   bench input N M    input for the program: a table of N facts, M questions
 *   bench sum N M      the questions of that input by the call, for callgrind and a clock
 *
 * KIND is "whole" for the families whose questions have no gap, or "gap" for those with one. Of these the question alone is
 * measured: a check never has a gap. Or it is "import", for the import of texts, by their bytes in place of facts. */
#include "../client/factbox.h"
#include "families.h"
#include "plain.h"
#include "texts.h"

#include <stdio.h>
#include <stdlib.h>
#include <string.h>
#include <time.h>
#include <valgrind/callgrind.h>

enum { SAMPLES = 16, PAIRS = 512, IMPORT_PAIRS = 64, LIMIT = FACTBOX_FACTS_MAX, GAP_FIRST = 60000 };

static sample samples[SAMPLES];
static text texts[SAMPLES];
static uint8_t derivations[SAMPLES][FACTBOX_DERIVATION_MAX];
static size_t derivation_len[SAMPLES];
static uint8_t output[FACTBOX_DERIVATION_MAX];
static const unsigned sizes[] = {64, 128, 256, 512, 1024}, text_sizes[] = {4096, 8192, 16384, 32768, 65536};
enum { SIZES = sizeof sizes / sizeof *sizes };

static uint64_t proved_question(int i) {
    const sample *s = &samples[i];
    return factbox_question(s->table, s->table_len, s->subject, s->predicate, s->object, LIMIT, output, sizeof output);
}
static uint64_t plainly_question(int i) {
    const sample *s = &samples[i];
    return plain_question(s->table, s->table_len, s->subject, s->predicate, s->object, LIMIT, output, sizeof output);
}
static uint64_t proved_check(int i) {
    const sample *s = &samples[i];
    return factbox_check(s->table, s->table_len, s->subject, s->predicate, s->object, derivations[i], derivation_len[i]);
}
static uint64_t plainly_check(int i) {
    const sample *s = &samples[i];
    return plain_check(s->table, s->table_len, s->subject, s->predicate, s->object, derivations[i], derivation_len[i]);
}
static uint64_t proved_import(int i) { return factbox_import(texts[i].bytes, texts[i].len, output, FACTBOX_TABLE_MAX); }
static uint64_t plainly_import(int i) { return plain_import(texts[i].bytes, texts[i].len, output, FACTBOX_TABLE_MAX); }

typedef uint64_t call(int sample);
enum { QUESTION, CHECK, IMPORT };
static const struct { const char *name; call *proved, *plain; int pairs; } calls[] = {
    {"question", proved_question, plainly_question, PAIRS},
    {"check", proved_check, plainly_check, PAIRS},
    {"import", proved_import, plainly_import, IMPORT_PAIRS},
};

/* The term that a result names for the gap, bits 48 to 63, or 0; and the result without it, since a tie is free. */
static uint32_t filling(uint64_t result) { return (uint32_t)(result >> 48); }
static uint64_t without_filling(uint64_t result) { return result << 16 >> 16; }

/* The call's answer to the sample, or 0 where not both checks accept its derivation, for the filled triple and with its count.
 * The derivation is kept. */
static uint64_t confirmed(call *question, int i) {
    sample *s = &samples[i];
    const uint32_t subject = s->subject, object = s->object;
    uint64_t result = question(i), count = factbox_count(result);
    derivation_len[i] = factbox_number(result) == FACTBOX_YES ? factbox_output_size((uint32_t)count) : 0;
    memcpy(derivations[i], output, derivation_len[i]);
    if (filling(result)) *(subject >= GAP_FIRST ? &s->subject : &s->object) = filling(result);
    uint64_t proved = proved_check(i), plain = plainly_check(i), accepted = FACTBOX_ACCEPTED | count << 32;
    s->subject = subject, s->object = object;
    return proved == plain && (derivation_len[i] == 0 || plain == accepted) ? result : 0;
}

/* Both implementations say the same of the sample, and name a filling or none. The plain one's derivation is kept. */
static int agree(int i) {
    uint64_t proved = confirmed(proved_question, i), plain = confirmed(plainly_question, i);
    return plain && without_filling(proved) == without_filling(plain) && !filling(proved) == !filling(plain);
}

/* Makes the samples. Gives how many of the calls there are to measure: none without a derivation has a check. */
static int prepare(int family, unsigned facts) {
    for (int i = 0; i < SAMPLES; i++) {
        make_sample(family, facts, (uint32_t)i + 1, &samples[i]);
        if (!agree(i)) {
            fprintf(stderr, "bench: %s, %u facts, sample %d: the two do not agree\n", family_name(family), facts, i);
            exit(1);
        }
    }
    return derivation_len[0] && family < first_gap_family ? 2 : 1;
}

/* Makes texts for the import, one for counting. Both implementations make the same of them. */
static void prepare_texts(int family, unsigned size, int counting) {
    static uint8_t table[FACTBOX_TABLE_MAX];
    for (int i = 0; i < (counting ? 1 : SAMPLES); i++) {
        make_text(family, size, (uint32_t)i + 1, &texts[i]);
        uint64_t plain = plainly_import(i);
        memcpy(table, output, sizeof table);
        memset(output, 0, sizeof table);
        if (proved_import(i) == plain && memcmp(output, table, 16 * (size_t)factbox_count(plain)) == 0) continue;
        fprintf(stderr, "bench: %s, %u bytes, text %d: the two do not agree\n", text_family_name(family), size, i);
        exit(1);
    }
}

static double now(void) {
    struct timespec t;
    clock_gettime(CLOCK_MONOTONIC, &t);
    return (double)t.tv_sec * 1e9 + (double)t.tv_nsec;
}

static double timed(call *c, int i) {
    double start = now();
    c(i);
    return now() - start;
}

static int by_value(const void *a, const void *b) {
    double x = *(const double *)a, y = *(const double *)b;
    return (x > y) - (x < y);
}

static double median(double *values, int count) {
    qsort(values, (size_t)count, sizeof *values, by_value);
    return values[count / 2];
}

/* Medians over pairs of calls, nanoseconds a call; which of the two comes first changes from pair to pair. Every pair has
 * another sample than the one before, or all have the first. */
static void time_call(const char *family, unsigned size, int which, int differ) {
    static double ratio[PAIRS], proved[PAIRS], plain[PAIRS];
    int pairs = calls[which].pairs;
    for (int i = 0; i < pairs; i++) {
        int at = differ ? i % SAMPLES : 0;
        if (i / SAMPLES % 2) plain[i] = timed(calls[which].plain, at);
        proved[i] = timed(calls[which].proved, at);
        if (i / SAMPLES % 2 == 0) plain[i] = timed(calls[which].plain, at);
        ratio[i] = proved[i] / plain[i];
    }
    printf("%s\t%u\t%s\t%s\t%.4f\t%.0f\t%.0f\n", family, size, calls[which].name, differ ? "other" : "same", median(ratio, pairs),
           median(proved, pairs), median(plain, pairs));
}

static void count_call(const char *family, unsigned size, int which, int proved) {
    char name[128];
    snprintf(name, sizeof name, "%s\t%u\t%s\t%s", family, size, calls[which].name, proved ? "proved" : "plain");
    call *c = proved ? calls[which].proved : calls[which].plain;
    CALLGRIND_ZERO_STATS;
    c(0);
    CALLGRIND_DUMP_STATS_AT(name);
}

/* One call, proved and plain, or with the same input and another one. */
static void measure(int counting, const char *family, unsigned size, int which) {
    for (int k = 0; k < 2; k++) {
        if (counting) count_call(family, size, which, k);
        else time_call(family, size, which, k);
    }
}

static void all(int counting, int gap) {
    for (int family = gap ? first_gap_family : 0; family < (gap ? family_count : first_gap_family); family++) {
        for (int size = 0; size < SIZES; size++) {
            int measured = prepare(family, sizes[size]);
            for (int which = 0; which < measured; which++) measure(counting, family_name(family), sizes[size], which);
        }
    }
}

static void all_texts(int counting) {
    for (int family = 0; family < text_family_count; family++) {
        for (int size = 0; size < SIZES; size++) {
            prepare_texts(family, text_sizes[size], counting);
            measure(counting, text_family_name(family), text_sizes[size], IMPORT);
        }
    }
}

/* Questions over ordinary data: each the type of a subject or an object of the table, or another name. */
static void question_of(const sample *s, unsigned facts, unsigned i, uint32_t *triple) {
    char digits[6] = {0};
    memcpy(digits, s->table + 16 * (i * 7 % facts) + (i % 2 ? 10 : 0), 5);
    triple[0] = (uint32_t)strtoul(digits, NULL, 10), triple[1] = 5, triple[2] = s->object;
}

static void program_questions(unsigned facts, unsigned questions, int print) {
    sample *s = &samples[0];
    make_sample(first_gap_family - 1, facts, 1, s);
    if (print) {
        fwrite(s->table, 1, s->table_len, stdout);
        printf("    0    0    0\n");
    }
    double start = now();
    for (unsigned i = 0; i < questions; i++) {
        uint32_t t[3];
        question_of(s, facts, i, t);
        if (print) printf("%5u%5u%5u%5u\n", (unsigned)t[0], (unsigned)t[1], (unsigned)t[2], (unsigned)LIMIT);
        else factbox_question(s->table, s->table_len, t[0], t[1], t[2], LIMIT, output, sizeof output);
    }
    if (!print) printf("%.0f\n", now() - start);
}

int main(int argc, char **argv) {
    if (argc == 3 && strcmp(argv[2], "import") == 0) all_texts(strcmp(argv[1], "count") == 0);
    else if (argc == 3) all(strcmp(argv[1], "count") == 0, strcmp(argv[2], "gap") == 0);
    else if (argc == 4) program_questions((unsigned)atoi(argv[2]), (unsigned)atoi(argv[3]), strcmp(argv[1], "input") == 0);
    else return 2;
    return 0;
}

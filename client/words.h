/* Words that the C programs share: terms and predicates, refusals, which field of a fact earns one, and questions with a gap;
 * and whether help is asked for. */
#ifndef WORDS_H
#define WORDS_H

#include <stddef.h>
#include <stdint.h>

/* Each program's own name, for its messages. */
extern const char PROGRAM[];

/* "subject", "predicate", "object". */
extern const char *const FIELD_NAMES[3];

/* Whether a program is asked how it is used: its first argument is -h or --help. */
int asks_for_help(int argc, char **argv);

/* Says on standard error what is wrong with the thing named, and ends the program with status 2. */
_Noreturn void fail(const char *what, const char *name);

/* A term by its name, if names are known (names.h), or else by its number. The text holds for four calls. */
const char *term_word(uint32_t term);

/* A predicate of the vocabulary as its word, any other as a term. */
const char *predicate_word(uint32_t predicate);

/* The number of a vocabulary word, as subclass or subClassOf, of `len` bytes; 0 for any other word. */
uint32_t predicate_number(const char *word, size_t len);

/* What belongs in a field of a fact with a predicate of the vocabulary, "class" or "property", where no literal may stand; NULL
 * where one may. */
const char *belonging(uint32_t predicate, size_t field);

/* What a refusal means: its word, then a sentence. */
const char *refusal_words(unsigned number);

/* The same of a question, where a blank node is a gap. */
const char *question_refusal(unsigned number);

/* The same of a whole text to import, which is too large where a line would not be in the form. */
const char *text_refusal(unsigned number);

/* Which field of the fact earns refusal 3, 4, 5 or 12, and why: the first one from *field on, which is then the one behind
 * it; NULL if there is none. The text holds until the next call. */
const char *fact_fault(unsigned number, const uint32_t *fact, size_t *field);

/* Whether a term is blank: in a question, a gap. */
int is_blank(uint32_t term);

/* The same of a question, a triple and its allowance, and of 7. Of 4 and 7 there is one text for the whole. */
const char *question_fault(unsigned number, const uint32_t *question, size_t *field);

/* A fact in words: "10 type 12". The text holds until the next call. */
const char *fact_words(const uint32_t *fact);

/* A question in words: "10 type 12" without a gap; "some X is of type 12", "10 is of some type X" with one that it may have;
 * else "10 ? 12". The text holds until the next call. */
const char *question_words(const uint32_t *question);

/* Text of `len` bytes in quotation marks, so that every byte can be seen; the rest of a long one is left out. The text holds
 * until the next call. */
const char *quoted(const char *text, size_t len);

const char *plural(size_t n);

#endif

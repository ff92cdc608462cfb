/* The words of a command, one after another: options with their values, and what is no option. */
#ifndef HOST_WORDS_H
#define HOST_WORDS_H

#include <stdint.h>

struct words {
    char **words;
    int count;
    int at;               /* the next word */
    int ended;            /* -- has come: no option follows */
    const char *word;     /* the word that was taken last */
    char name[24];        /* an option's name, without =VALUE */
    const char *attached; /* the VALUE of --name=VALUE; NULL where there is none */
};

enum word_kind { WORD_NONE, WORD_OPTION, WORD_PLAIN };

/* Takes the next word. A single - is no option: it names standard input. */
enum word_kind next_word(struct words *words);

/* Whether the word taken is the option of this name. */
int word_is(const struct words *words, const char *name);

/* The value of the option taken, --name=VALUE or the next word; NULL if it has said what is wrong.
 */
const char *word_value(struct words *words);

/* Returns 0 if the option taken has no =VALUE, or has said what is wrong. */
int word_alone(const struct words *words);

/* The option taken, which has no value and may come once, to *flag; returns as below. */
int word_flag(const struct words *words, int *flag);

/* The value of an option that may come once, to *value; returns 0, or has said what is wrong. */
int word_once(struct words *words, const char **value);

/* What a function that takes some of a command's options says of another one. */
enum { NO_SUCH_OPTION = -1 };

/* Decimal, or hexadecimal behind 0x or where base is 16. Returns 0, or -1 where it is no number. */
int parse_number(const char *text, int base, uint32_t max, uint32_t *number);

#endif

#include "words.h"

#include <stdlib.h>
#include <string.h>

#include "files.h"

enum word_kind next_word(struct words *words)
{
    if (words->at < words->count && !words->ended && strcmp(words->words[words->at], "--") == 0) {
        words->ended = 1;
        words->at++;
    }
    if (words->at == words->count)
        return WORD_NONE;
    words->word = words->words[words->at++];
    words->attached = NULL;
    if (words->ended || words->word[0] != '-' || words->word[1] == '\0')
        return WORD_PLAIN;

    size_t length = strlen(words->word);
    if (words->word[1] == '-' && strchr(words->word, '=') != NULL) {
        words->attached = strchr(words->word, '=') + 1;
        length = (size_t)(words->attached - words->word) - 1;
    }
    /* No option has a name as long as the room for one. */
    if (length >= sizeof words->name)
        length = sizeof words->name - 1;
    memcpy(words->name, words->word, length);
    words->name[length] = '\0';
    return WORD_OPTION;
}

int word_is(const struct words *words, const char *name)
{
    return strcmp(words->name, name) == 0;
}

const char *word_value(struct words *words)
{
    if (words->attached != NULL)
        return words->attached;
    if (words->at < words->count)
        return words->words[words->at++];
    trouble("%s needs a value", words->name);
    return NULL;
}

int word_alone(const struct words *words)
{
    return words->attached == NULL ? 0 : trouble("%s takes no value", words->name);
}

int word_flag(const struct words *words, int *flag)
{
    if (*flag)
        return trouble("%s is given twice", words->name);
    *flag = 1;
    return word_alone(words);
}

int word_once(struct words *words, const char **value)
{
    if (*value != NULL)
        return trouble("%s is given twice", words->name);
    *value = word_value(words);
    return *value == NULL ? EXIT_TROUBLE : 0;
}

int parse_number(const char *text, int base, uint32_t max, uint32_t *number)
{
    if (text[0] == '0' && (text[1] == 'x' || text[1] == 'X')) {
        base = 16;
        text += 2;
    }
    /* digits alone: strtoull would also take spaces, signs and a prefix */
    size_t digits = strspn(text, base == 16 ? "0123456789abcdefABCDEF" : "0123456789");
    if (digits == 0 || text[digits] != '\0')
        return -1;
    unsigned long long value = strtoull(text, NULL, base);
    if (value > max)
        return -1;
    *number = (uint32_t)value;
    return 0;
}

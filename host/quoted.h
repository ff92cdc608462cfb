/* Bytes as text that a terminal shows and never obeys. */
#ifndef HOST_QUOTED_H
#define HOST_QUOTED_H

#include <stddef.h>
#include <stdint.h>
#include <stdio.h>

/* Whether the byte is shown as it is. */
static inline int printable(uint8_t byte)
{
    return byte >= 0x20 && byte < 0x7F;
}

/* How many bytes at the front are shown as they are; and how many up to a quote or backslash. */
size_t printable_run(const uint8_t *bytes, size_t length);
size_t unmarked_run(const uint8_t *bytes, size_t length);

/*
 * The text. A character in UTF-8 is as put_shown (characters.h) has it; any other byte that is not
 * printable ASCII is as in \x1B. What is put waits (put.h), and what is printed does not.
 */
void put_plain(const char *text);
void print_plain(FILE *stream, const char *text);

/* Bytes in the same form between quotes; behind a backslash those that are a quote or backslash. */
void put_quoted(const uint8_t *bytes, size_t length);
void print_quoted(FILE *stream, const uint8_t *bytes, size_t length);

/*
 * Bytes as a string of JSON, with its quotes. A reader of the string has the same form, with two
 * backslashes for one and with a quote as it is.
 */
void put_json_string(const uint8_t *bytes, size_t length);

#endif

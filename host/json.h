/*
 * JSON values on standard output, of ASCII characters alone. Commas come by themselves. What is
 * written waits (put.h) until json_end().
 */
#ifndef HOST_JSON_H
#define HOST_JSON_H

#include <stddef.h>
#include <stdint.h>

/* The name of the next value, within an object. */
void json_name(const char *name);

/* '{' or '[', and what belongs to it. */
void json_open(char bracket);
void json_close(char bracket);

/* Ends a whole value and its line; another may follow on a line of its own. */
void json_end(void);

void json_number(unsigned long long number);
void json_bool(int yes);
void json_null(void);

/*
 * A text, and the bytes of one: as plain text has them between quotes (quoted.h), so that a program
 * that takes the string out and shows it sends nothing to a terminal that this one would not. Bytes
 * that are not UTF-8 are null.
 */
void json_text(const char *text);
void json_bytes(const uint8_t *bytes, size_t length);

/* Words of printable ASCII, in which all that has to be marked is marked already. */
void json_words(const char *words);

/*
 * A JSON text that the library has said yes to: as a value, with no white space between its tokens
 * and exact; and indented, as a string. In the value a character that is not printable ASCII is an
 * escape, and so the same character. In the string one that plain text shows as an escape is that
 * escape, to be seen, and so still the same text.
 */
void json_value(const uint8_t *text, size_t length);
void json_indented(const uint8_t *text, size_t length);

/* In hexadecimal, as a string. */
void json_hex(const uint8_t *bytes, size_t length);

#endif

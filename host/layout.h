/*
 * A JSON text with other white space between its tokens. No token is changed. The text is one that
 * the library has said yes to: it is not checked here.
 */
#ifndef HOST_LAYOUT_H
#define HOST_LAYOUT_H

#include <stddef.h>
#include <stdint.h>

/* Whether the byte is white space, where it is not within a string. */
int is_white(uint8_t byte);

/*
 * Puts the text in ASCII and without white space between tokens. A character in it that is not
 * printable ASCII is an escape, and so the same character.
 */
void put_tight(const uint8_t *text, size_t length);

/*
 * Puts the text as it stands within a string of JSON: with every member and every value of an array
 * on a line of its own, two spaces further in than what it stands in. An empty object or array
 * stays on its line. Behind the last character there is no new line. A character that a terminal
 * would not show as it is is an escape that can be seen there.
 */
void put_indented(const uint8_t *text, size_t length);

/*
 * Whether an escape in the text is half of a surrogate pair, without the other half beside it. That
 * is JSON, but no character, and many readers of JSON refuse it.
 */
int has_half_pair(const uint8_t *text, size_t length);

#endif

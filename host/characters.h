/* The characters of a text, such as a payload that is JSON, or a topic. */
#ifndef HOST_CHARACTERS_H
#define HOST_CHARACTERS_H

#include <stddef.h>
#include <stdint.h>

/* Of a text that is known to be UTF-8: how many bytes the character has that begins with this. */
size_t character_length(uint8_t first);

/* And the character at bytes. */
uint32_t character_at(const uint8_t *bytes);

/*
 * Of any bytes, one at least: the character in UTF-8 at their front. Returns how many bytes it has,
 * or 0 where they begin with none.
 */
size_t read_character(const uint8_t *bytes, size_t length, uint32_t *character);

/* Whether the bytes are UTF-8 from first to last. */
int is_utf8(const uint8_t *bytes, size_t length);

/*
 * Puts a character as a string of JSON may have it, in ASCII: as it is where it is printable,
 * and as \uNNNN, or two of these, where not. A quote or a backslash is put as it is too.
 */
void put_ascii(uint32_t character);

/*
 * Puts it as it is where a terminal shows it so, and otherwise as put_ascii does. All but ASCII
 * is shown only where LC_ALL, LC_CTYPE or LANG say that the terminal takes UTF-8: to another one
 * these bytes may be commands.
 */
void put_shown(uint32_t character);

/*
 * Puts it within a string of JSON, in ASCII, so that a reader of the string has what put_shown
 * puts: an escape there is one that can be seen. A quote or a backslash is put as it is too.
 */
void put_shown_in_json(uint32_t character);

#endif

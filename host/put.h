/*
 * Text that is put together in one place and handed to its stream in large pieces: printf and
 * putchar for each byte take longer than all else that a dump does.
 *
 * What is put waits until put_out() or put_to(). So that it comes in order with what is printed in
 * any other way, nothing waits where a function returns that is named otherwise than put_ or json_.
 */
#ifndef HOST_PUT_H
#define HOST_PUT_H

#include <stddef.h>
#include <stdint.h>
#include <stdio.h>
#include <string.h>

/* What waits, and how much of it. Only the functions here use it: they are short enough for that.
 */
enum { PUT_ROOM = 65536 };
struct waiting {
    size_t length;
    uint8_t bytes[PUT_ROOM];
};
extern struct waiting put_waiting;

/* Hands over what waits. An error stays with the stream: flush_output() (files.h) tells it. */
void put_out(void);

/* Hands over what waits. What follows goes to this stream; at first that is standard output. */
void put_to(FILE *stream);

/*
 * Has standard output write large blocks from now on, unless it is a terminal, where each line is
 * to be seen at once. Nothing may have been printed before.
 */
void put_in_blocks(void);

/* A place for so many bytes, PUT_ROOM at the most, which are then written there. */
static inline uint8_t *put_place(size_t length)
{
    if (length > PUT_ROOM - put_waiting.length)
        put_out();
    put_waiting.length += length;
    return put_waiting.bytes + put_waiting.length - length;
}

static inline void put_byte(uint8_t byte)
{
    *put_place(1) = byte;
}

/* Any number of bytes. */
void put_many(const uint8_t *bytes, size_t length);

static inline void put_bytes(const void *bytes, size_t length)
{
    if (length > PUT_ROOM)
        put_many(bytes, length);
    else
        memcpy(put_place(length), bytes, length);
}

static inline void put_text(const char *text)
{
    put_bytes(text, strlen(text));
}

/* So many spaces, PUT_ROOM at the most. */
static inline void put_spaces(size_t count)
{
    memset(put_place(count), ' ', count);
}

/* Here and below: with spaces behind it or in front of it up to a width; what is longer is not cut.
 */
static inline void put_text_left(const char *text, size_t width)
{
    size_t length = strlen(text);

    put_bytes(text, length);
    if (length < width)
        put_spaces(width - length);
}

/* Decimal. */
void put_number(unsigned long long number);
void put_number_left(unsigned long long number, size_t width);
void put_number_right(unsigned long long number, size_t width);

/* Hexadecimal, in capitals: two digits a byte; a space behind each; and a number with so many. */
void put_hex(const uint8_t *bytes, size_t length);
void put_spaced_hex(const uint8_t *bytes, size_t length);
void put_hex_number(uint32_t number, size_t digits);

#endif

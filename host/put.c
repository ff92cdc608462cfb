/* isatty and fileno are POSIX. */
#define _POSIX_C_SOURCE 200112L

#include "put.h"

#include <unistd.h>

/* The digits of the largest number. */
enum { DIGITS = 20 };

struct waiting put_waiting;
static FILE *target; /* NULL for standard output */

void put_out(void)
{
    if (put_waiting.length > 0)
        fwrite(put_waiting.bytes, 1, put_waiting.length, target == NULL ? stdout : target);
    put_waiting.length = 0;
}

void put_to(FILE *stream)
{
    put_out();
    target = stream;
}

void put_in_blocks(void)
{
    static char block[PUT_ROOM];

    if (!isatty(fileno(stdout)))
        setvbuf(stdout, block, _IOFBF, sizeof block);
}

void put_many(const uint8_t *bytes, size_t length)
{
    for (; length > PUT_ROOM; bytes += PUT_ROOM, length -= PUT_ROOM)
        memcpy(put_place(PUT_ROOM), bytes, PUT_ROOM);
    memcpy(put_place(length), bytes, length);
}

/* Writes the digits so that they end at the end of text. Returns how many there are. */
static size_t digits_of(unsigned long long number, char text[DIGITS])
{
    size_t at = DIGITS;

    do
        text[--at] = (char)('0' + number % 10);
    while ((number /= 10) > 0);
    return DIGITS - at;
}

static void put_spaces_up_to(size_t width, size_t length)
{
    if (length < width)
        put_spaces(width - length);
}

void put_number(unsigned long long number)
{
    put_number_right(number, 0);
}

void put_number_left(unsigned long long number, size_t width)
{
    char text[DIGITS];
    size_t length = digits_of(number, text);

    put_bytes(text + DIGITS - length, length);
    put_spaces_up_to(width, length);
}

void put_number_right(unsigned long long number, size_t width)
{
    char text[DIGITS];
    size_t length = digits_of(number, text);

    put_spaces_up_to(width, length);
    put_bytes(text + DIGITS - length, length);
}

static const char hex_digits[] = "0123456789ABCDEF";

static uint8_t *write_hex(uint8_t *at, uint8_t byte)
{
    at[0] = (uint8_t)hex_digits[byte >> 4];
    at[1] = (uint8_t)hex_digits[byte & 0xF];
    return at + 2;
}

void put_hex(const uint8_t *bytes, size_t length)
{
    while (length > 0) {
        size_t now = length < PUT_ROOM / 2 ? length : PUT_ROOM / 2;
        uint8_t *at = put_place(2 * now);

        for (const uint8_t *end = bytes + now; bytes < end; bytes++)
            at = write_hex(at, *bytes);
        length -= now;
    }
}

void put_spaced_hex(const uint8_t *bytes, size_t length)
{
    for (const uint8_t *end = bytes + length; bytes < end; bytes++)
        *write_hex(put_place(3), *bytes) = ' ';
}

void put_hex_number(uint32_t number, size_t digits)
{
    uint8_t *at = put_place(digits);

    while (digits > 0) {
        at[--digits] = (uint8_t)hex_digits[number & 0xF];
        number >>= 4;
    }
}

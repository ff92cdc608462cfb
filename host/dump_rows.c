#include "dump_rows.h"

#include "quoted.h"
#include "put.h"

static void put_hex_row(const uint8_t *bytes, size_t at, size_t length)
{
    uint8_t shown[ROW];

    put_text("  ");
    put_hex_number((uint32_t)at, 4);
    put_spaces(8);
    put_spaced_hex(bytes + at, length);
    put_spaces(3 * (ROW - length) + 1);
    for (size_t i = 0; i < length; i++)
        shown[i] = printable(bytes[at + i]) ? bytes[at + i] : '.';
    put_byte('|');
    put_bytes(shown, length);
    put_text("|\n");
}

/* Below a row: marks the byte with this number in it, in both forms. */
static void put_mark(size_t byte)
{
    put_spaces(MARGIN + 3 * byte);
    put_text("^^");
    put_spaces(3 * ROW - 2 * byte);
    put_text("^\n");
}

size_t put_row(const uint8_t *bytes, size_t length, size_t at, size_t place)
{
    size_t left = length - at;
    size_t put = left < ROW ? left : ROW;

    put_hex_row(bytes, at, put);
    if (place / ROW == at / ROW)
        put_mark(place % ROW);
    return put;
}

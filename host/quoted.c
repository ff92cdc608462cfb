#include "quoted.h"

#include <string.h>

#include "characters.h"
#include "put.h"

/* The byte eight times, and the highest bit of each. */
#define EIGHT(byte) (0x0101010101010101u * (byte))
#define HIGHEST EIGHT(0x80u)

/* Whether one of eight bytes is below the limit; and whether one is this byte. */
static uint64_t any_below(uint64_t eight, uint64_t limit)
{
    return (eight - EIGHT(limit)) & ~eight & HIGHEST;
}

static uint64_t any_is(uint64_t eight, uint8_t byte)
{
    return any_below(eight ^ EIGHT(byte), 1);
}

static int all_printable(uint64_t eight)
{
    return ((eight & HIGHEST) | any_below(eight, 0x20) | any_is(eight, 0x7F)) == 0;
}

static int all_unmarked(uint64_t eight)
{
    return all_printable(eight) && (any_is(eight, '"') | any_is(eight, '\\')) == 0;
}

static uint64_t eight_at(const uint8_t *bytes)
{
    uint64_t eight;

    memcpy(&eight, bytes, sizeof eight);
    return eight;
}

size_t printable_run(const uint8_t *bytes, size_t length)
{
    size_t run = 0;

    while (length - run >= 8 && all_printable(eight_at(bytes + run)))
        run += 8;
    while (run < length && printable(bytes[run]))
        run++;
    return run;
}

size_t unmarked_run(const uint8_t *bytes, size_t length)
{
    size_t run = 0;

    while (length - run >= 8 && all_unmarked(eight_at(bytes + run)))
        run += 8;
    while (run < length && printable(bytes[run]) && bytes[run] != '"' && bytes[run] != '\\')
        run++;
    return run;
}

/* Where the text goes decides what stands in front of some of it. */
enum form { PLAIN, QUOTED, IN_JSON };

/* A quote or a backslash. */
static void put_mark(uint8_t mark, enum form form)
{
    if (form != PLAIN)
        put_byte('\\');
    if (form == IN_JSON && mark == '\\')
        put_text("\\\\");
    put_byte(mark);
}

/* What is not printable ASCII: a character, or else a byte. Returns how many bytes that took. */
static size_t put_odd(const uint8_t *bytes, size_t length, enum form form)
{
    uint32_t character;
    size_t took = bytes[0] < 0x80 ? 0 : read_character(bytes, length, &character);

    if (took == 0) {
        put_text(form == IN_JSON ? "\\\\x" : "\\x");
        put_hex(bytes, 1);
        return 1;
    }
    if (form == IN_JSON)
        put_shown_in_json(character);
    else
        put_shown(character);
    return took;
}

static void put_in_form(const uint8_t *bytes, size_t length, enum form form)
{
    const uint8_t *end = bytes + length;

    while (bytes < end) {
        size_t run = unmarked_run(bytes, (size_t)(end - bytes));

        put_bytes(bytes, run);
        if ((bytes += run) == end)
            return;
        if (printable(*bytes))
            put_mark(*bytes++, form);
        else
            bytes += put_odd(bytes, (size_t)(end - bytes), form);
    }
}

void put_plain(const char *text)
{
    put_in_form((const uint8_t *)text, strlen(text), PLAIN);
}

void put_quoted(const uint8_t *bytes, size_t length)
{
    put_byte('"');
    put_in_form(bytes, length, QUOTED);
    put_byte('"');
}

void put_json_string(const uint8_t *bytes, size_t length)
{
    put_byte('"');
    put_in_form(bytes, length, IN_JSON);
    put_byte('"');
}

void print_plain(FILE *stream, const char *text)
{
    put_to(stream);
    put_plain(text);
    put_to(stdout);
}

void print_quoted(FILE *stream, const uint8_t *bytes, size_t length)
{
    put_to(stream);
    put_quoted(bytes, length);
    put_to(stdout);
}

#include "characters.h"

#include <stdlib.h>
#include <string.h>

#include "put.h"
#include "quoted.h"

size_t character_length(uint8_t first)
{
    if (first < 0x80)
        return 1;
    if (first < 0xE0)
        return 2;
    return first < 0xF0 ? 3 : 4;
}

uint32_t character_at(const uint8_t *bytes)
{
    size_t length = character_length(bytes[0]);
    uint32_t character = bytes[0];

    /* The first of several bytes has a 1 for each of them in front, and then a 0. */
    if (length > 1)
        character &= 0x7Fu >> length;
    for (size_t i = 1; i < length; i++)
        character = character << 6 | (bytes[i] & 0x3Fu);
    return character;
}

size_t read_character(const uint8_t *bytes, size_t length, uint32_t *character)
{
    static const uint32_t least[] = {0, 0, 0x80, 0x800, 0x10000};
    size_t size = character_length(bytes[0]);

    if ((bytes[0] & 0xC0) == 0x80 || bytes[0] > 0xF4 || size > length)
        return 0;
    for (size_t i = 1; i < size; i++) {
        if ((bytes[i] & 0xC0) != 0x80)
            return 0;
    }
    *character = character_at(bytes);
    if (*character < least[size] || *character > 0x10FFFF)
        return 0;
    return *character >= 0xD800 && *character <= 0xDFFF ? 0 : size;
}

int is_utf8(const uint8_t *bytes, size_t length)
{
    uint32_t character;

    while (length > 0) {
        size_t size = *bytes < 0x80 ? 1 : read_character(bytes, length, &character);

        if (size == 0)
            return 0;
        bytes += size;
        length -= size;
    }
    return 1;
}

static int is_ascii(uint32_t character)
{
    return character < 0x80 && printable((uint8_t)character);
}

/* \uNNNN, or two of these, behind a backslash or what stands for one. */
static void put_escape(const char *backslash, uint32_t character)
{
    uint8_t escape[] = {'u', 0, 0, 0, 0};

    if (character >= 0x10000) {
        put_escape(backslash, 0xD7C0 + (character >> 10));
        character = 0xDC00 | (character & 0x3FF);
    }
    for (size_t i = sizeof escape; --i > 0; character >>= 4)
        escape[i] = (uint8_t) "0123456789abcdef"[character & 0xF];
    put_text(backslash);
    put_bytes(escape, sizeof escape);
}

void put_ascii(uint32_t character)
{
    if (is_ascii(character))
        put_byte((uint8_t)character);
    else
        put_escape("\\", character);
}

/*
 * The first and last of characters that a terminal obeys, hides, or puts in another place, or of
 * which nobody can say what it shows, in order. From Unicode 15: the categories Cc, Cf, Zl, Zp and
 * Co, what it calls default ignorable, and what is no character; and U+2800, a braille sign without
 * dots. ASCII has no need of it.
 */
static const uint32_t hidden[][2] = {
    {0x0080, 0x009F},   {0x00AD, 0x00AD},    {0x034F, 0x034F},   {0x0600, 0x0605},
    {0x061C, 0x061C},   {0x06DD, 0x06DD},    {0x070F, 0x070F},   {0x0890, 0x0891},
    {0x08E2, 0x08E2},   {0x115F, 0x1160},    {0x17B4, 0x17B5},   {0x180B, 0x180F},
    {0x200B, 0x200F},   {0x2028, 0x202E},    {0x2060, 0x206F},   {0x2800, 0x2800},
    {0x3164, 0x3164},   {0xE000, 0xF8FF},    {0xFDD0, 0xFDEF},   {0xFE00, 0xFE0F},
    {0xFEFF, 0xFEFF},   {0xFFA0, 0xFFA0},    {0xFFF0, 0xFFFB},   {0x110BD, 0x110BD},
    {0x110CD, 0x110CD}, {0x13430, 0x1343F},  {0x1BCA0, 0x1BCA3}, {0x1D173, 0x1D17A},
    {0xE0000, 0xE0FFF}, {0xF0000, 0x10FFFF},
};

static int is_hidden(uint32_t character)
{
    size_t first = 0, end = sizeof hidden / sizeof hidden[0];

    /* The stretch that has the character, if one does, is among those from first up to end. */
    while (first < end) {
        size_t middle = (first + end) / 2;

        if (character > hidden[middle][1])
            first = middle + 1;
        else if (character < hidden[middle][0])
            end = middle;
        else
            return 1;
    }
    /* The last two of each 65,536 are no characters. */
    return (character & 0xFFFE) == 0xFFFE;
}

/* Whether the terminal takes UTF-8: the first of these that is set decides. */
static int asks_for_utf8(void)
{
    static const char *const names[] = {"LC_ALL", "LC_CTYPE", "LANG"};
    static const char *const spellings[] = {".UTF-8", ".utf-8", ".UTF8", ".utf8"};
    const char *value = NULL;

    for (size_t i = 0; i < 3 && (value == NULL || *value == '\0'); i++)
        value = getenv(names[i]);
    for (size_t i = 0; value != NULL && i < 4; i++) {
        if (strstr(value, spellings[i]) != NULL)
            return 1;
    }
    return 0;
}

/* The environment is asked once: there may be millions of characters. */
static int takes_utf8(void)
{
    static int known = -1;

    if (known < 0)
        known = asks_for_utf8();
    return known;
}

/* One of more than one byte. */
static void put_utf8(uint32_t character)
{
    int shift = character < 0x800 ? 6 : character < 0x10000 ? 12 : 18;
    uint32_t front = shift == 6 ? 0xC0 : shift == 12 ? 0xE0 : 0xF0;

    put_byte((uint8_t)(front | character >> shift));
    while ((shift -= 6) >= 0)
        put_byte((uint8_t)(0x80 | (character >> shift & 0x3F)));
}

/* Whether it goes to a terminal as it is. */
static int is_shown(uint32_t character)
{
    return character < 0x80 ? is_ascii(character) : !is_hidden(character) && takes_utf8();
}

void put_shown(uint32_t character)
{
    if (character < 0x80 || !is_shown(character))
        put_ascii(character);
    else
        put_utf8(character);
}

void put_shown_in_json(uint32_t character)
{
    if (is_shown(character))
        put_ascii(character);
    else
        put_escape("\\\\", character);
}

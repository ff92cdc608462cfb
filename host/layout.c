#include "layout.h"

#include <string.h>

#include "characters.h"
#include "put.h"
#include "quoted.h"

struct layout {
    const uint8_t *at;
    const uint8_t *end;
    int indented; /* and within a string, where quotes and backslashes are marked */
    size_t depth;
};

int is_white(uint8_t byte)
{
    return byte == ' ' || byte == '\t' || byte == '\n' || byte == '\r';
}

static void skip_white(struct layout *layout)
{
    while (layout->at < layout->end && is_white(*layout->at))
        layout->at++;
}

/* A quote or a backslash. */
static void pass_mark(struct layout *layout)
{
    if (layout->indented)
        put_byte('\\');
    put_byte(*layout->at++);
}

/* What stands at the end of a run: a mark, with what it marks, or a character. */
static void pass_odd(struct layout *layout)
{
    if (!printable(*layout->at)) {
        if (layout->indented)
            put_shown_in_json(character_at(layout->at));
        else
            put_ascii(character_at(layout->at));
        layout->at += character_length(*layout->at);
        return;
    }
    pass_mark(layout);
    if (*layout->at == '"' || *layout->at == '\\')
        pass_mark(layout);
}

/* The string that begins here, to its last quote. */
static void pass_string(struct layout *layout)
{
    pass_mark(layout);
    for (;;) {
        size_t run = unmarked_run(layout->at, (size_t)(layout->end - layout->at));

        put_bytes(layout->at, run);
        layout->at += run;
        if (layout->at == layout->end)
            return;
        if (*layout->at == '"')
            break;
        pass_odd(layout);
    }
    pass_mark(layout);
}

/* The number, or the word such as true, that begins here. */
static void pass_scalar(struct layout *layout)
{
    const uint8_t *at = layout->at;

    while (at < layout->end && !is_white(*at) && *at != ',' && *at != '}' && *at != ']')
        at++;
    put_bytes(layout->at, (size_t)(at - layout->at));
    layout->at = at;
}

static void begin_line(const struct layout *layout)
{
    if (!layout->indented)
        return;
    put_text("\\n");
    put_spaces(2 * layout->depth);
}

/* The bracket that opens an object or an array, and the one that closes it if nothing is inside. */
static void pass_opened(struct layout *layout)
{
    put_byte(*layout->at++);
    skip_white(layout);
    if (layout->at < layout->end && (*layout->at == '}' || *layout->at == ']')) {
        put_byte(*layout->at++);
        return;
    }
    layout->depth++;
    begin_line(layout);
}

static void pass_closed(struct layout *layout)
{
    layout->depth--;
    begin_line(layout);
    put_byte(*layout->at++);
}

static void pass_token(struct layout *layout)
{
    uint8_t first = *layout->at;

    if (first == '"') {
        pass_string(layout);
    } else if (first == '{' || first == '[') {
        pass_opened(layout);
    } else if (first == '}' || first == ']') {
        pass_closed(layout);
    } else if (first == ',') {
        put_byte(*layout->at++);
        begin_line(layout);
    } else if (first == ':') {
        put_byte(*layout->at++);
        if (layout->indented)
            put_byte(' ');
    } else {
        pass_scalar(layout);
    }
}

static void lay_out(struct layout *layout)
{
    skip_white(layout);
    while (layout->at < layout->end) {
        pass_token(layout);
        skip_white(layout);
    }
}

void put_tight(const uint8_t *text, size_t length)
{
    struct layout layout = {text, text + length, 0, 0};

    lay_out(&layout);
}

void put_indented(const uint8_t *text, size_t length)
{
    struct layout layout = {text, text + length, 1, 0};

    lay_out(&layout);
}

/* The number of the escape \uNNNN that begins here; 0 where another one does. */
static uint32_t escaped(const uint8_t *at)
{
    uint32_t number = 0;

    if (at[1] != 'u')
        return 0;
    for (size_t i = 2; i < 6; i++) {
        uint32_t digit = at[i] <= '9' ? at[i] - (uint32_t)'0' : (at[i] | 0x20u) - 'a' + 10;

        number = number << 4 | digit;
    }
    return number;
}

static int is_second_half(uint32_t number)
{
    return number >= 0xDC00 && number <= 0xDFFF;
}

/* A backslash stands only where an escape begins, and a quote behind the last one at least. */
int has_half_pair(const uint8_t *text, size_t length)
{
    const uint8_t *at = text, *end = text + length;

    while ((at = memchr(at, '\\', (size_t)(end - at))) != NULL) {
        uint32_t number = escaped(at);

        if (is_second_half(number))
            return 1;
        at += at[1] == 'u' ? 6 : 2;
        if (number < 0xD800 || number > 0xDBFF)
            continue;
        if (*at != '\\' || !is_second_half(escaped(at)))
            return 1;
        at += 6;
    }
    return 0;
}

/*
 * What is in a payload, for a person: its text where it is JSON, and otherwise its bytes, with the
 * place marked at which it is not. Nothing that a terminal would obey is sent to it.
 */
#include "dump.h"
#include "characters.h"
#include "dump_rows.h"
#include "layout.h"
#include "names.h"
#include "put.h"
#include "quoted.h"

/* How many bytes are shown, and how many of a text. */
enum { BYTES_SHOWN = 64, TEXT_SHOWN = 1024 };

static void put_more(size_t more)
{
    if (more == 0)
        return;
    put_spaces(MARGIN);
    put_number(more);
    put_text(" byte");
    put_text(plural(more));
    put_text(" more (--all shows all)\n");
}

/* ---- a text */

/* How much of the text is shown, up to a character's end. */
static size_t shown_text(const struct dump *dump, const uint8_t *text, size_t length)
{
    size_t shown = TEXT_SHOWN;

    if (dump->all || length <= TEXT_SHOWN)
        return length;
    while ((text[shown] & 0xC0) == 0x80)
        shown--;
    return shown;
}

/* A new line of the text begins below its first; other white space between tokens is a space. */
static void put_object(const uint8_t *text, size_t length)
{
    size_t at = 0;

    put_spaces(MARGIN);
    while (at < length) {
        size_t run = printable_run(text + at, length - at);

        put_bytes(text + at, run);
        if ((at += run) == length)
            break;
        if (text[at] == '\n') {
            put_byte('\n');
            put_spaces(MARGIN);
        } else if (is_white(text[at])) {
            put_byte(' ');
        } else {
            put_shown(character_at(text + at));
        }
        at += character_length(text[at]);
    }
    put_byte('\n');
}

/* The object, without the white space around it and the zero byte behind that. */
static void put_text_of(const struct dump *dump)
{
    const uint8_t *text = payload_bytes(dump);
    size_t length = payload_length(dump) - 1;
    size_t shown;

    for (; length > 0 && is_white(*text); length--)
        text++;
    while (length > 0 && is_white(text[length - 1]))
        length--;
    shown = shown_text(dump, text, length);
    put_object(text, shown);
    put_more(length - shown);
}

/* ---- bytes */

/* The row that begins at a byte, and the mark if the place is in it. */
static size_t put_row_at(const struct dump *dump, size_t at)
{
    return put_row(payload_bytes(dump), payload_length(dump), at, dump->verdict.byte);
}

/* The first rows, or all; and the one with the place, which may be just behind the last byte. */
static void put_bytes_of(const struct dump *dump)
{
    size_t length = payload_length(dump);
    size_t place = dump->verdict.byte / ROW * ROW;
    size_t limit = dump->all || length < BYTES_SHOWN ? length : BYTES_SHOWN;
    size_t shown = 0;

    for (size_t at = 0; at < limit; at += ROW)
        shown += put_row_at(dump, at);
    if (place >= limit && length > 0)
        shown += put_row_at(dump, place);
    put_more(length - shown);
}

void put_payload(const struct dump *dump)
{
    if (dump->verdict.kind == VERDICT_JSON)
        put_text_of(dump);
    else
        put_bytes_of(dump);
}

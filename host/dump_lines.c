#include "dump_lines.h"

#include "lampreycoil.h"
#include "names.h"
#include "put.h"
#include "quoted.h"

void put_name(const char *name)
{
    put_text_left(name, NAME_WIDTH);
}

void put_field(const char *name, uint32_t number, const char *note)
{
    put_name(name);
    put_number(number);
    if (*note != '\0')
        put_byte(' ');
    put_text(note);
    put_byte('\n');
}

void put_stretch(const char *name, size_t length, size_t start)
{
    put_name(name);
    put_count_of_bytes(length);
    put_from_byte(start);
    put_byte('\n');
}

void put_count_of_bytes(size_t length)
{
    put_number(length);
    put_text(" byte");
    put_text(plural(length));
}

void put_from_byte(unsigned long long start)
{
    put_text(", from byte ");
    put_number(start);
}

void put_text_at(const uint8_t *bytes, size_t length, size_t start)
{
    put_quoted(bytes + start, length);
    put_text(" (");
    put_count_of_bytes(length);
    put_byte(')');
    put_from_byte(start);
    put_byte('\n');
}

void put_part(const uint8_t *bytes, size_t index, const struct part *part, size_t most)
{
    size_t shown = part->length < most ? part->length : most;

    put_byte(' ');
    put_number_right(index, 2);
    put_byte(' ');
    put_text_left(role_name(part->role), 10);
    put_count_of_bytes(part->length);
    put_from_byte(part->start);
    if (shown > 0) {
        put_text(": ");
        put_quoted(bytes + part->start, shown);
        put_text(shown < part->length ? " .." : "");
    }
    put_byte('\n');
}

void put_no_more(size_t byte)
{
    put_spaces(NAME_WIDTH);
    put_text("no more from byte ");
    put_number(byte);
    put_text(" on\n");
}

void put_why(uint32_t refusal, const char *reason)
{
    put_name("refused");
    put_number(refusal);
    put_text(": ");
    put_text(lampreycoil_refusal_words(refusal));
    put_byte('\n');
    put_name("because");
    put_text(reason);
    put_byte('\n');
}

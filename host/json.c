#include "json.h"

#include <string.h>

#include "characters.h"
#include "layout.h"
#include "put.h"
#include "quoted.h"

/* Whether the next value or name has one in front of it, from which a comma parts it. */
static int follows;

static void begin(void)
{
    if (follows)
        put_byte(',');
    follows = 1;
}

/* Names are plain: nothing in them is marked. There are many, so each is put in one piece. */
void json_name(const char *name)
{
    size_t length = strlen(name);
    uint8_t *at = put_place(length + (follows ? 4 : 3));

    if (follows)
        *at++ = ',';
    *at = '"';
    memcpy(at + 1, name, length);
    at[length + 1] = '"';
    at[length + 2] = ':';
    follows = 0;
}

void json_open(char bracket)
{
    begin();
    put_byte((uint8_t)bracket);
    follows = 0;
}

void json_close(char bracket)
{
    put_byte((uint8_t)bracket);
    follows = 1;
}

void json_end(void)
{
    put_byte('\n');
    put_out();
    follows = 0;
}

void json_number(unsigned long long number)
{
    begin();
    put_number(number);
}

void json_bool(int yes)
{
    begin();
    put_text(yes ? "true" : "false");
}

void json_null(void)
{
    begin();
    put_text("null");
}

void json_text(const char *text)
{
    begin();
    put_json_string((const uint8_t *)text, strlen(text));
}

void json_words(const char *words)
{
    begin();
    put_byte('"');
    for (; *words != '\0'; words++) {
        if (*words == '"' || *words == '\\')
            put_byte('\\');
        put_byte((uint8_t)*words);
    }
    put_byte('"');
}

void json_bytes(const uint8_t *bytes, size_t length)
{
    if (!is_utf8(bytes, length)) {
        json_null();
        return;
    }
    begin();
    put_json_string(bytes, length);
}

void json_value(const uint8_t *text, size_t length)
{
    begin();
    put_tight(text, length);
}

void json_indented(const uint8_t *text, size_t length)
{
    begin();
    put_byte('"');
    put_indented(text, length);
    put_byte('"');
}

void json_hex(const uint8_t *bytes, size_t length)
{
    begin();
    put_byte('"');
    put_hex(bytes, length);
    put_byte('"');
}

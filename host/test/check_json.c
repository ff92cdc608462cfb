/*
 * Tests lampreycoil_check_json: what it answers, and where; that nothing but a yes is one; and that
 * it writes its record and no more. Prints a line for each test, "passed" or "FAILED".
 */
#include "told.h"

enum { DEEP = LAMPREYCOIL_JSON_DEPTH_MAX, LONG = 1 << 20 };

/* A text with the zero byte that C puts behind it, and without. */
#define ENDED(text) text, sizeof text
#define BARE(text) text, sizeof text - 1

/* What the call told last, and some bytes behind it. */
static uint8_t record[LAMPREYCOIL_JSON_RECORD + TAIL];

/* The call says this of so many bytes, and only a yes is one. */
static int tells(const uint8_t *bytes, size_t length, uint32_t want, uint32_t answer, size_t byte)
{
    uint32_t returned;

    memset(record, FILL, sizeof record);
    returned = lampreycoil_check_json(bytes, length, record, LAMPREYCOIL_JSON_RECORD);
    return returned == want && lampreycoil_number(record, LAMPREYCOIL_JSON_ANSWER) == answer &&
           lampreycoil_json_byte(record) == byte &&
           lampreycoil_is_json(returned, record) == (answer == LAMPREYCOIL_JSON_YES) &&
           filled(record + LAMPREYCOIL_JSON_RECORD, TAIL);
}

static int is_no(const uint8_t *bytes, size_t length, size_t byte)
{
    return tells(bytes, length, LAMPREYCOIL_OK, LAMPREYCOIL_JSON_NO, byte);
}

/* A yes; whatever is torn off at its end, the rest is a no at its own length. */
static void yes(const char *label, const char *text, size_t length)
{
    const uint8_t *bytes = (const uint8_t *)text;
    int good = tells(bytes, length, LAMPREYCOIL_OK, LAMPREYCOIL_JSON_YES, 0);

    for (size_t given = 0; given < length; given++)
        good = good && is_no(bytes, given, given);
    report(good, label);
}

/* A no at this byte, however much is there behind it; what is in front of it is torn. */
static void no(const char *label, size_t byte, const char *text, size_t length)
{
    const uint8_t *bytes = (const uint8_t *)text;
    int good = is_no(bytes, length, byte);

    for (size_t given = 0; given <= length; given++)
        good = good && is_no(bytes, given, given < byte ? given : byte);
    report(good, label);
}

/* A yes with something behind it. */
static void behind(const char *label, size_t byte, const char *text, size_t length)
{
    const uint8_t *bytes = (const uint8_t *)text;

    report(is_no(bytes, length, byte) &&
               tells(bytes, byte, LAMPREYCOIL_OK, LAMPREYCOIL_JSON_YES, 0),
           label);
}

/* ---- what is JSON */

static void take_yes(void)
{
    yes("an empty object", ENDED("{}"));
    yes("white space of each kind", ENDED(" \t\n\r{ \t\n\r} \t\n\r"));
    yes("white space at each place", ENDED(" { \"a\" : [ 1 , { } , [ ] ] , \"b\" : \"\" } "));
    yes("the three names", ENDED("{\"a\":true,\"b\":false,\"c\":null}"));
    yes("whole numbers", ENDED("{\"a\":[0,-0,10,-1,9223372036854775808]}"));
    yes("numbers with a fraction", ENDED("{\"a\":[0.0,-0.10,1.25]}"));
    yes("numbers with an exponent", ENDED("{\"a\":[0e0,1E5,1e+05,-1.5E-00,1e999]}"));
    yes("every escape", ENDED("{\"a\":\"\\\"\\\\\\/\\b\\f\\n\\r\\t\\u00e9\\uABCD\"}"));
    yes("surrogates without a partner", ENDED("{\"a\":\"\\ud800\\udfff\\udc00x\\ud800\"}"));
    yes("an escape of zero", ENDED("{\"a\":\"\\u0000\"}"));
    yes("DEL", ENDED("{\"a\":\"\x7F\"}"));
    yes("the first and last of two bytes", ENDED("{\"\xC2\x80\":\"\xDF\xBF\"}"));
    yes("of three", ENDED("{\"\xE0\xA0\x80\xED\x9F\xBF\":\"\xEE\x80\x80\xEF\xBF\xBF\"}"));
    yes("of four", ENDED("{\"\xF0\x90\x80\x80\":\"\xF4\x8F\xBF\xBF\"}"));
    yes("a byte order mark within a string", ENDED("{\"\xEF\xBB\xBF\":0}"));
    yes("an empty name, and a name twice", ENDED("{\"\":1,\"a\":2,\"a\":3,\"\":4}"));
    yes("brackets within a string", ENDED("{\"}]\":\"[{\\\"\"}"));
}

/* ---- the places of a no */

static void take_ends(void)
{
    no("nothing", 0, BARE(""));
    no("a zero byte alone", 0, ENDED(""));
    no("no zero byte", 7, BARE("{\"a\":1}"));
    no("white space, and no zero byte", 9, BARE("{\"a\":1} \n"));
    behind("a byte behind the zero byte", 8, BARE("{\"a\":1}\0x"));
    behind("white space behind the zero byte", 8, BARE("{\"a\":1}\0 "));
    behind("two zero bytes", 8, ENDED("{\"a\":1}\0"));
    no("a byte behind the object", 7, ENDED("{\"a\":1}x"));
    no("two objects", 2, ENDED("{}{}"));
    no("a byte order mark", 0, ENDED("\xEF\xBB\xBF{}"));
    no("an array outermost", 0, ENDED("[1]"));
    no("a string outermost", 1, ENDED(" \"a\""));
    no("other white space", 1, ENDED("{\v}"));
    no("a zero byte in an object", 1, BARE("{\0}"));
    no("a zero byte in a string", 3, BARE("{\"a\0\":1}"));
    no("a zero byte in a number", 6, BARE("{\"a\":1\0}"));
}

static void take_marks(void)
{
    no("no name", 1, ENDED("{1:2}"));
    no("a comma in front", 1, ENDED("{,}"));
    no("a comma at the end of an object", 7, ENDED("{\"a\":1,}"));
    no("a comma at the end of an array", 8, ENDED("{\"a\":[1,]}"));
    no("no colon", 5, ENDED("{\"a\" 1}"));
    no("no value", 5, ENDED("{\"a\":}"));
    no("no comma between members", 7, ENDED("{\"a\":1 \"b\":2}"));
    no("no comma between values", 8, ENDED("{\"a\":[1 2]}"));
    no("another bracket closes an object", 6, ENDED("{\"a\":1]"));
    no("another bracket closes an array", 7, ENDED("{\"a\":[1}"));
    no("a name that is none", 7, ENDED("{\"a\":trUe}"));
    no("a name that goes on", 9, ENDED("{\"a\":nulll}"));
    no("a name in capitals", 5, ENDED("{\"a\":True}"));
    no("a comment", 1, ENDED("{/**/}"));
}

static void take_numbers(void)
{
    no("a digit behind a leading zero", 6, ENDED("{\"a\":01}"));
    no("the same behind a minus", 7, ENDED("{\"a\":-01}"));
    no("a plus in front", 5, ENDED("{\"a\":+1}"));
    no("a minus alone", 6, ENDED("{\"a\":-}"));
    no("no digit in front of the point", 5, ENDED("{\"a\":.5}"));
    no("no digit behind the point", 7, ENDED("{\"a\":1.}"));
    no("no digit behind the exponent", 7, ENDED("{\"a\":1e}"));
    no("no digit behind its sign", 8, ENDED("{\"a\":1e+}"));
    no("two points", 8, ENDED("{\"a\":1.2.3}"));
    no("hexadecimal", 6, ENDED("{\"a\":0x1}"));
}

static void take_strings(void)
{
    no("a string that does not end", 8, BARE("{\"a\":\"bc"));
    no("a new line in a string", 7, ENDED("{\"a\":\"b\n\"}"));
    no("the last of the control bytes", 6, ENDED("{\"a\":\"\x1F\"}"));
    no("an escape that is none", 7, ENDED("{\"a\":\"\\x\"}"));
    no("a digit that is none", 10, ENDED("{\"a\":\"\\u00g0\"}"));
    no("too few digits", 11, ENDED("{\"a\":\"\\u000\"}"));
    no("a tail without a front", 6, ENDED("{\"a\":\"\x80\"}"));
    no("C0", 6, ENDED("{\"a\":\"\xC0\x80\"}"));
    no("C1", 2, ENDED("{\"\xC1\xBF\":1}"));
    no("E0 80", 7, ENDED("{\"a\":\"\xE0\x80\x80\"}"));
    no("ED A0, a surrogate", 7, ENDED("{\"a\":\"\xED\xA0\x80\"}"));
    no("F0 8F", 7, ENDED("{\"a\":\"\xF0\x8F\xBF\xBF\"}"));
    no("F4 90", 7, ENDED("{\"a\":\"\xF4\x90\x80\x80\"}"));
    no("F5", 6, ENDED("{\"a\":\"\xF5\x80\x80\x80\"}"));
    no("FF", 6, ENDED("{\"a\":\"\xFF\"}"));
    no("a quote in place of the last tail", 8, ENDED("{\"a\":\"\xE2\x82\"}"));
    no("the last tail of four", 5, ENDED("{\"\xF0\x9F\x98\":1}"));
}

/* ---- levels */

static uint8_t text[LONG];
static size_t length;

static void add(const char *piece, size_t times)
{
    for (; times > 0; times--) {
        memcpy(text + length, piece, strlen(piece));
        length += strlen(piece);
    }
}

/* So many levels, the outer object and others, opened and closed so; tells where the last opens. */
static size_t make_levels(const char *opened, const char *closed, size_t levels)
{
    size_t last;

    length = 0;
    add("{\"a\":", 1);
    add(opened, levels - 2);
    last = length;
    add(opened, 1);
    add("0", 1);
    add(closed, levels - 1);
    add("}", 1);
    text[length++] = 0;
    return last;
}

static void take_levels(const char *label, const char *opened, const char *closed)
{
    size_t last = make_levels(opened, closed, DEEP);
    int good = tells(text, length, LAMPREYCOIL_OK, LAMPREYCOIL_JSON_YES, 0);

    last = make_levels(opened, closed, DEEP + 1);
    good = good && tells(text, length, LAMPREYCOIL_JSON_DEEP, 0, last);
    good = good && is_no(text, last, last);
    /* What is behind the opening byte does not matter. */
    good = good && tells(text, last + 1, LAMPREYCOIL_JSON_DEEP, 0, last);
    memset(text + last + 1, 0xFF, length - last - 1);
    good = good && tells(text, length, LAMPREYCOIL_JSON_DEEP, 0, last);
    /* What is in front of it does. */
    text[1] = 'x';
    good = good && is_no(text, length, 1);
    report(good, label);
}

static void take_flat(void)
{
    length = 0;
    add("{\"a\":[", 1);
    add("{},[],", 1000);
    add("{}]}", 1);
    text[length++] = 0;
    report(tells(text, length, LAMPREYCOIL_OK, LAMPREYCOIL_JSON_YES, 0),
           "levels that close again are not counted");
}

/* ---- long payloads, and records */

static void take_long(void)
{
    length = 0;
    add("{\"a\":\"", 1);
    memset(text + length, 'x', LONG - length);
    memcpy(text + LONG - 3, "\"}", 3);
    report(tells(text, LONG, LAMPREYCOIL_OK, LAMPREYCOIL_JSON_YES, 0), "1,048,576 bytes");
    report(is_no(text, LONG - 1, LONG - 1), "the same without the last of them");
    text[LONG - 1] = 'x';
    report(is_no(text, LONG, LONG - 1), "the same with another one last");
    text[LONG / 2] = 0xFF;
    report(is_no(text, LONG, LONG / 2), "the same with another one in the middle");
}

/* A record that is too short: 11, nothing is written, and a yes that was there before is none. */
static void take_short(void)
{
    static const uint8_t object[] = "{}";
    uint8_t before[sizeof record];
    uint32_t returned;
    int good = tells(object, sizeof object, LAMPREYCOIL_OK, LAMPREYCOIL_JSON_YES, 0);

    memcpy(before, record, sizeof record);
    for (size_t given = 0; given < LAMPREYCOIL_JSON_RECORD; given++) {
        returned = lampreycoil_check_json(object, sizeof object, record, given);
        good = good && returned == LAMPREYCOIL_OUTPUT_SHORT &&
               memcmp(record, before, sizeof record) == 0 && !lampreycoil_is_json(returned, record);
    }
    make_levels("[", "]", DEEP + 1);
    returned = lampreycoil_check_json(text, length, record, LAMPREYCOIL_JSON_RECORD - 1);
    report(good && returned == LAMPREYCOIL_OUTPUT_SHORT &&
               memcmp(record, before, sizeof record) == 0,
           "a record that is too short is refusal 11, and nothing is written");
}

static void take_tails(void)
{
    static const uint8_t object[] = "{}";
    int good;

    memset(record, FILL, sizeof record);
    good = lampreycoil_check_json(object, sizeof object, record, sizeof record) == LAMPREYCOIL_OK;
    report(good && filled(record + LAMPREYCOIL_JSON_RECORD, TAIL),
           "a longer record keeps its tail");
    make_levels("[", "]", DEEP + 1);
    memset(record, FILL, sizeof record);
    good = lampreycoil_check_json(text, length, record, sizeof record) == LAMPREYCOIL_JSON_DEEP;
    report(good && filled(record + LAMPREYCOIL_JSON_RECORD, TAIL), "refusal 26 keeps it too");
    memset(record, FILL, sizeof record);
    good = lampreycoil_is_json(
        lampreycoil_check_json(object, sizeof object, record + 1, LAMPREYCOIL_JSON_RECORD),
        record + 1);
    report(good && record[0] == FILL, "a record that begins at an odd byte");
}

int main(void)
{
    take_yes();
    take_ends();
    take_marks();
    take_numbers();
    take_strings();
    take_levels("32 levels of objects are the most", "{\"a\":", "}");
    take_levels("32 levels of arrays are the most", "[", "]");
    take_levels("32 levels, each between other values", "[0,\"[\",", ",null]");
    take_flat();
    take_long();
    take_short();
    take_tails();
    return 0;
}

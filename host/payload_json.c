#include "payload_json.h"

#include <string.h>

#include "files.h"
#include "lampreycoil.h"

/* How much of the text is told from a byte on that cannot stand there. */
enum { TOLD = 20 };

/* The zero byte that ends the text is the payload's: where it cannot stand the text ends early. */
static int not_json(const char *text, size_t length, size_t byte)
{
    if (length == 0)
        return trouble("--payload-json is empty: a JSON object is at least {}");
    if (byte >= length)
        return trouble("--payload-json is not a JSON object: it ends too early, at byte %zu",
                       length);
    return trouble("--payload-json is not a JSON object: byte %zu, %02X, cannot stand there: "
                   "'%.*s'%s",
                   byte, (unsigned)(unsigned char)text[byte], TOLD, text + byte,
                   length - byte > TOLD ? " .." : "");
}

int check_payload_json(const char *text)
{
    uint8_t record[LAMPREYCOIL_JSON_RECORD];
    size_t length = strlen(text);
    uint32_t returned =
        lampreycoil_check_json((const uint8_t *)text, length + 1, record, sizeof record);
    size_t byte;

    if (lampreycoil_is_json(returned, record))
        return 0;
    byte = lampreycoil_json_byte(record);
    if (returned == LAMPREYCOIL_JSON_DEEP)
        return trouble("--payload-json is too deep: level %d opens at byte %zu, and %d may be (%d)",
                       LAMPREYCOIL_JSON_DEPTH_MAX + 1, byte, LAMPREYCOIL_JSON_DEPTH_MAX,
                       LAMPREYCOIL_JSON_DEEP);
    if (returned != LAMPREYCOIL_OK)
        return trouble("the library takes no record of %zu bytes", sizeof record);
    return not_json(text, length, byte);
}

/* The header's inline functions, over any bytes: what one of them says, another one must say too.
 */
#include <stdlib.h>
#include <string.h>

#include "lampreycoil.h"
#include "run.h"

static uint8_t out[LAMPREYCOIL_FRAME_MAX];

static void must(int holds)
{
    if (!holds)
        abort();
}

/* A frame that is read is written again as it was, and its length is the one that its front has. */
static void take_frame(const uint8_t *bytes, size_t length)
{
    struct lampreycoil_message message;
    size_t took = 0, told = 0, wrote = 0;
    uint32_t refusal = lampreycoil_read_message(bytes, length, &message, &took);
    uint32_t front = lampreycoil_frame_length(bytes, length, &told);

    must(strlen(lampreycoil_refusal_words(refusal)) > 0);
    if (refusal != LAMPREYCOIL_OK)
        return;
    must(front == LAMPREYCOIL_OK && told == took && took <= length);
    must(lampreycoil_write_message(&message, out, sizeof out, &wrote) == LAMPREYCOIL_OK);
    must(wrote == took && memcmp(out, bytes, took) == 0);
}

/* Each frame that is listed lies in the bytes and can be read from there. */
static void take_stream(const uint8_t *bytes, size_t length)
{
    uint8_t list[64 * LAMPREYCOIL_ENTRY_SIZE], record[LAMPREYCOIL_STREAM_RECORD];
    struct lampreycoil_message message;
    size_t took = 0;

    must(lampreycoil_read_stream(bytes, length, list, sizeof list, record, sizeof record) ==
         LAMPREYCOIL_OK);
    for (size_t i = 0; i < lampreycoil_number(record, LAMPREYCOIL_STREAM_ENTRIES); i++) {
        struct lampreycoil_place place = lampreycoil_entry(list, i);

        must(place.start + place.length <= length);
        must(lampreycoil_read_message(bytes + place.start, place.length, &message, &took) ==
                 LAMPREYCOIL_OK &&
             took == place.length);
    }
}

/* A yes has no byte, and the byte of a no is in the payload or just behind it. */
static void take_json(const uint8_t *bytes, size_t length)
{
    uint8_t record[LAMPREYCOIL_JSON_RECORD];
    uint32_t returned = lampreycoil_check_json(bytes, length, record, sizeof record);

    must(returned == LAMPREYCOIL_OK || returned == LAMPREYCOIL_JSON_DEEP);
    must(lampreycoil_json_byte(record) <= length);
    must(!lampreycoil_is_json(returned, record) || lampreycoil_json_byte(record) == 0);
}

/* A message of any fields, whose parts are the bytes: where it is written, it is read again. */
static void take_message(const uint8_t *bytes, size_t length)
{
    struct lampreycoil_message message, seen;
    size_t wrote = 0, took = 0, step, room;

    if (length < 24)
        return;
    memset(&message, 0, sizeof message);
    message.type = bytes[0];
    message.flags = bytes[1];
    message.userid = lampreycoil_number(bytes, 1);
    message.rolemask = lampreycoil_number(bytes, 2);
    message.first = lampreycoil_number(bytes, 3);
    message.second = lampreycoil_number(bytes, 4);
    message.routes_step = step = bytes[2];
    message.topic = message.payload = message.routes = bytes + 24;
    room = length - 24;
    message.topic_length = bytes[20] < room ? bytes[20] : room;
    message.payload_length = bytes[21] * 64u < room ? bytes[21] * 64u : room;
    step = step == 0 ? LAMPREYCOIL_ROUTE_SIZE : step;
    message.routes_count = bytes[22];
    while (message.routes_count > 0 &&
           (message.routes_count - 1) * step + LAMPREYCOIL_ROUTE_SIZE > room)
        message.routes_count--;
    if (lampreycoil_write_message(&message, out, bytes[23] * 256u % sizeof out, &wrote) !=
        LAMPREYCOIL_OK)
        return;
    must(lampreycoil_read_message(out, wrote, &seen, &took) == LAMPREYCOIL_OK && took == wrote);
    must(seen.type == message.type && seen.flags == message.flags);
    must(seen.routes_count == message.routes_count && seen.second == message.second);
}

int LLVMFuzzerTestOneInput(const uint8_t *bytes, size_t length)
{
    take_frame(bytes, length);
    take_stream(bytes, length);
    take_json(bytes, length);
    take_message(bytes, length);
    return 0;
}

#include "explain.h"

#include <stdarg.h>
#include <stdio.h>
#include <string.h>

#include "lampreycoil.h"
#include "names.h"

static void say(char *reason, const char *format, ...)
{
    va_list values;

    va_start(values, format);
    vsnprintf(reason, REASON_ROOM, format, values);
    va_end(values);
}

unsigned long long bytes_needed(size_t length, const struct split *split)
{
    return length < FRONT ? FRONT : (unsigned long long)split->body + FRONT;
}

int may_begin(const uint8_t *bytes, size_t length)
{
    static const uint8_t start[] = {0xFF, 0xEE, 0x00, 0x12};

    return memcmp(bytes, start, length < sizeof start ? length : sizeof start) == 0;
}

static void explain_short(const uint8_t *bytes, size_t length, const struct split *split,
                          char *reason)
{
    unsigned long long needed = bytes_needed(length, split);
    const char *wrong =
        length == 1 ? "; no frame begins with this" : "; no frame begins with these";

    if (length >= FRONT)
        say(reason, "%zu of %llu bytes are there; missing: %llu", length, needed, needed - length);
    else
        say(reason, "%zu of the %d bytes that tell a frame's length %s there; missing: %zu%s",
            length, FRONT, length == 1 ? "is" : "are", FRONT - length,
            may_begin(bytes, length) ? "" : wrong);
}

/* ---- what stands at the byte that the library tells */

/* The size that begins at a byte; how many bytes it takes itself goes to *size. */
static uint32_t size_at(const uint8_t *at, size_t *size)
{
    *size = *at == LONG_SIZE ? 5 : 1;
    return *size == 5 ? number_at(at + 1) : *at;
}

void explain_size(const uint8_t *bytes, size_t at, size_t limit, const char *whole, char *reason)
{
    uint32_t asked;
    size_t size;

    if (bytes[at] == LONG_SIZE && limit - at < 5) {
        say(reason, "the part has a 4-byte size, and the %s ends at byte %zu", whole, limit);
        return;
    }
    asked = size_at(bytes + at, &size);
    if (size == 5 && asked < LONG_SIZE)
        say(reason, "the part has the 4-byte size %lu", (unsigned long)asked);
    else
        say(reason, "the part has the size %lu, and the %s ends at byte %zu", (unsigned long)asked,
            whole, limit);
}

/* The byte is the size of the last part, if there is one. */
static void explain_last_part(const uint8_t *at, size_t left, char *reason)
{
    size_t size;

    if (left == 0)
        say(reason, "the body is empty");
    else
        say(reason, "the last part has the length %lu, not %d", (unsigned long)size_at(at, &size),
            HEADER);
}

static void explain_header(uint32_t refusal, uint8_t byte, char *reason)
{
    if (refusal == LAMPREYCOIL_MAGIC_WRONG)
        say(reason, "the magic is %02X, not 8E", byte);
    else if (refusal == LAMPREYCOIL_VERSION_WRONG)
        say(reason, "the version is %02X, not 01", byte);
    else if (refusal == LAMPREYCOIL_TYPE_WRONG)
        say(reason, "there is no type %d", byte);
    else
        say(reason, "flag 80 is set");
}

const char *flags_broken(uint8_t type, uint8_t flags)
{
    int topic = (flags & LAMPREYCOIL_TOPIC) != 0, route = (flags & LAMPREYCOIL_ROUTE) != 0;

    if (type == LAMPREYCOIL_CONTROL)
        return topic || route || (flags & LAMPREYCOIL_PAYLOAD) != 0
                   ? "a control message has none of the flags topic, payload and route"
                   : NULL;
    if (type == LAMPREYCOIL_EVENT)
        return !topic || route ? "an event has the flag topic and not the flag route" : NULL;
    return !topic || !route ? "a request or response has the flags topic and route" : NULL;
}

/* The byte is the header's first. */
static void explain_parts(const uint8_t *header, const struct split *split, char *reason)
{
    uint8_t flags = header[3];
    const char *broken = flags_broken(header[2], flags);
    size_t asked = 1;
    size_t routes = 0;

    if (broken != NULL) {
        say(reason, "%s", broken);
        return;
    }
    if ((flags & LAMPREYCOIL_ROUTE) != 0) {
        while (routes < split->count && split->parts[routes].length != 0)
            routes++;
        if (routes >= split->count) {
            say(reason, "flag route is set, and no part in front of the header is empty");
            return;
        }
        asked += routes + 1;
    }
    asked += (flags & LAMPREYCOIL_TOPIC) != 0 ? 1u : 0u;
    asked += (flags & LAMPREYCOIL_PAYLOAD) != 0 ? 1u : 0u;
    say(reason, "there %s %zu part%s, and the flags ask for %zu", split->count == 1 ? "is" : "are",
        split->count, plural(split->count), asked);
}

const char *route_place(size_t place)
{
    if (place == LAMPREYCOIL_ROUTE_SIZE - 1)
        return "a zero byte";
    return place == 8 || place == 13 || place == 18 || place == 23 ? "a hyphen"
                                                                   : "one of 0-9 and a-f";
}

static int route_byte_good(size_t i, uint8_t byte)
{
    if (i == LAMPREYCOIL_ROUTE_SIZE - 1)
        return byte == 0;
    if (i == 8 || i == 13 || i == 18 || i == 23)
        return byte == '-';
    return (byte >= '0' && byte <= '9') || (byte >= 'a' && byte <= 'f');
}

size_t wrong_in_route(const uint8_t *route)
{
    size_t place = 0;

    while (place < LAMPREYCOIL_ROUTE_SIZE && route_byte_good(place, route[place]))
        place++;
    return place;
}

void explain_route(const char *name, const uint8_t *route, size_t length, char *reason)
{
    size_t place;

    if (length != LAMPREYCOIL_ROUTE_SIZE)
        say(reason, "%s has the length %zu, not %d", name, length, LAMPREYCOIL_ROUTE_SIZE);
    else if ((place = wrong_in_route(route)) < length)
        say(reason, "%s has %02X as its byte %zu, not %s", name, route[place], place,
            route_place(place));
}

/* The byte is a route's first: the one with this index. */
static void explain_stacked(const uint8_t *route, size_t index, size_t length, char *reason)
{
    char name[32];

    snprintf(name, sizeof name, "route %zu", index);
    if (index == LAMPREYCOIL_ROUTES_MAX)
        say(reason, "%s, counted from 0, is one more than the %d that may be", name,
            LAMPREYCOIL_ROUTES_MAX);
    else
        explain_route(name, route, length, reason);
}

/* The byte is the topic's first, or would be. */
static void explain_topic(const uint8_t *topic, size_t length, char *reason)
{
    const uint8_t *zero = length == 0 ? NULL : memchr(topic, 0, length);

    if (length == 0 || zero == topic)
        say(reason, "the topic is empty");
    else if (zero == NULL)
        say(reason, "the topic does not end with a zero byte");
    else if (zero != topic + length - 1)
        say(reason, "the topic has a zero byte in it, as its byte %zu", (size_t)(zero - topic));
    else
        say(reason, "the topic has the length %zu, and %d may be", length - 1,
            LAMPREYCOIL_TOPIC_MAX);
}

/* The byte is a field's first. The field of an event is the header's last. */
static void explain_field(const uint8_t *field, size_t left, char *reason)
{
    say(reason, "the %s is %lu", left == 4 ? "event's unused field" : "request's nodeid",
        (unsigned long)number_at(field));
}

/* Of a route or a topic: the part whose data begin at the byte. */
static void explain_data(uint32_t refusal, const uint8_t *bytes, size_t byte,
                         const struct split *split, char *reason)
{
    size_t index = 0;

    while (index < split->count && split->parts[index].start != byte)
        index++;
    if (index == split->count)
        return;
    if (refusal == LAMPREYCOIL_ROUTE_WRONG)
        explain_stacked(bytes + byte, index, split->parts[index].length, reason);
    else
        explain_topic(bytes + byte, split->parts[index].length, reason);
}

/* Of a refusal that has a byte. The whole frame is there. */
static void explain_byte(uint32_t refusal, const uint8_t *bytes, size_t byte,
                         const struct split *split, char *reason)
{
    size_t left = split->limit - byte;

    if (refusal == LAMPREYCOIL_PART_WRONG)
        explain_size(bytes, byte, split->limit, "body", reason);
    else if (refusal == LAMPREYCOIL_PARTS_MANY)
        say(reason, "a 69th part, and 68 may be");
    else if (refusal == LAMPREYCOIL_HEADER_WRONG)
        explain_last_part(bytes + byte, left, reason);
    else if (refusal == LAMPREYCOIL_PARTS_DISAGREE)
        explain_parts(bytes + byte, split, reason);
    else if (refusal == LAMPREYCOIL_ROUTE_WRONG || refusal == LAMPREYCOIL_TOPIC_WRONG)
        explain_data(refusal, bytes, byte, split, reason);
    else if (refusal == LAMPREYCOIL_FIELD_WRONG)
        explain_field(bytes + byte, left, reason);
    else
        explain_header(refusal, bytes[byte], reason);
}

uint32_t explain(const uint8_t *bytes, size_t length, struct split *split, struct fault *fault)
{
    uint8_t record[LAMPREYCOIL_FAULT_RECORD];
    uint32_t refusal = lampreycoil_read_fault(bytes, length, record, sizeof record);

    fault->byte = lampreycoil_number(record, LAMPREYCOIL_FAULT_BYTE);
    fault->reason[0] = '\0';
    if (length >= FRONT)
        split_frame(bytes, length, split);
    if (refusal == LAMPREYCOIL_INPUT_SHORT)
        explain_short(bytes, length, split, fault->reason);
    else if (refusal == LAMPREYCOIL_START_WRONG)
        say(fault->reason, "%02X %02X %02X %02X in place of FF EE 00 12", bytes[0], bytes[1],
            bytes[2], bytes[3]);
    else if (refusal == LAMPREYCOIL_BODY_LONG)
        say(fault->reason, "the body length is %lu", (unsigned long)split->body);
    else if (has_byte(fault))
        explain_byte(refusal, bytes, fault->byte, split, fault->reason);
    if (has_byte(fault))
        snprintf(fault->told, sizeof fault->told, "at byte %lu: %s", (unsigned long)fault->byte,
                 fault->reason);
    else
        snprintf(fault->told, sizeof fault->told, "%s", fault->reason);
    return refusal;
}

int has_byte(const struct fault *fault)
{
    return fault->byte != 0;
}

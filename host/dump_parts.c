/* The members of the parts that an accepted frame has once at the most, each an object of its own.
 */
#include "dump_members.h"

#include "json.h"
#include "layout.h"

static const uint8_t *bytes_of(const struct object *object)
{
    return object->dump->frame.bytes;
}

/* ---- the delimiter, which is empty */

static unsigned long long delimiter_at(const struct object *object)
{
    return delimiter_start(object->dump);
}

static unsigned long long no_length(const struct object *object)
{
    (void)object;
    return 0;
}

static void put_no_hex(const struct object *object)
{
    json_hex(bytes_of(object), 0);
}

/* ---- the topic */

static unsigned long long topic_at(const struct object *object)
{
    return dumped(object->dump, LAMPREYCOIL_READ_TOPIC_START);
}

static unsigned long long topic_length(const struct object *object)
{
    return dumped(object->dump, LAMPREYCOIL_READ_TOPIC_LENGTH);
}

static void put_topic_hex(const struct object *object)
{
    json_hex(bytes_of(object) + topic_at(object), topic_length(object));
}

static void put_topic_text(const struct object *object)
{
    json_bytes(bytes_of(object) + topic_at(object), topic_length(object));
}

/* ---- the payload: whether it is JSON, its value and its text, or where and why not */

static unsigned long long payload_at(const struct object *object)
{
    return dumped(object->dump, LAMPREYCOIL_READ_PAYLOAD_START);
}

static unsigned long long length_of_payload(const struct object *object)
{
    return payload_length(object->dump);
}

static void put_payload_hex(const struct object *object)
{
    json_hex(payload_bytes(object->dump), payload_length(object->dump));
}

static void put_is_json(const struct object *object)
{
    if ((object->kinds & IS_DEEP) != 0)
        json_null();
    else
        json_bool((object->kinds & IS_JSON) != 0);
}

/* No value of which a reader of this object could choke. */
static void put_json(const struct object *object)
{
    const uint8_t *text = payload_bytes(object->dump);
    size_t length = payload_length(object->dump) - 1;

    if (has_half_pair(text, length))
        json_null();
    else
        json_value(text, length);
}

static void put_json_text(const struct object *object)
{
    json_indented(payload_bytes(object->dump), payload_length(object->dump) - 1);
}

static unsigned long long too_deep(const struct object *object)
{
    (void)object;
    return LAMPREYCOIL_JSON_DEEP;
}

static unsigned long long json_byte(const struct object *object)
{
    return object->dump->verdict.byte;
}

static void put_json_because(const struct object *object)
{
    json_text(object->dump->verdict.reason);
}

/* ---- the header */

static unsigned long long header_at(const struct object *object)
{
    return header_start(object->dump);
}

static unsigned long long header_length(const struct object *object)
{
    (void)object;
    return HEADER;
}

static void put_header_hex(const struct object *object)
{
    json_hex(bytes_of(object) + header_at(object), HEADER);
}

/* ---- all of them */

static const struct member of_delimiter[] = {
    {"delimiter.start", HAS_DELIMITER, delimiter_at, NULL},
    {"delimiter.length", HAS_DELIMITER, no_length, NULL},
    {"delimiter.hex", HAS_DELIMITER, NULL, put_no_hex},
};

static const struct member of_topic[] = {
    {"topic.start", HAS_TOPIC, topic_at, NULL},
    {"topic.length", HAS_TOPIC, topic_length, NULL},
    {"topic.hex", HAS_TOPIC, NULL, put_topic_hex},
    {"topic.text", HAS_TOPIC, NULL, put_topic_text},
};

static const struct member of_payload[] = {
    {"payload.start", HAS_PAYLOAD, payload_at, NULL},
    {"payload.length", HAS_PAYLOAD, length_of_payload, NULL},
    {"payload.hex", HAS_PAYLOAD, NULL, put_payload_hex},
    {"payload.is_json", HAS_PAYLOAD | JUDGED, NULL, put_is_json},
    {"payload.json", IS_JSON | JUDGED, NULL, put_json},
    {"payload.text", IS_JSON | JUDGED, NULL, put_json_text},
    {"payload.refusal", IS_DEEP | JUDGED, too_deep, NULL},
    {"payload.json_byte", IS_NOT_JSON | JUDGED, json_byte, NULL},
    {"payload.json_because", IS_NOT_JSON | JUDGED, NULL, put_json_because},
};

static const struct member of_header[] = {
    {"header.start", ACCEPTED, header_at, NULL},
    {"header.length", ACCEPTED, header_length, NULL},
    {"header.hex", ACCEPTED, NULL, put_header_hex},
};

const struct members delimiter_members = MEMBERS(of_delimiter, "delimiter.");
const struct members topic_members = MEMBERS(of_topic, "topic.");
const struct members payload_members = MEMBERS(of_payload, "payload.");
const struct members header_members = MEMBERS(of_header, "header.");

void put_member(const struct object *object, const struct member *member, size_t prefix)
{
    if ((object->kinds & member->kind) == 0)
        return;
    json_name(member->name + prefix);
    if (member->number != NULL)
        json_number(member->number(object));
    else
        member->put(object);
}

void put_part_members(const struct object *object, unsigned kind, const struct members *members)
{
    if ((object->kinds & kind) == 0) {
        json_null();
        return;
    }
    json_open('{');
    for (size_t i = 0; i < members->count; i++)
        put_member(object, &members->first[i], members->prefix);
    json_close('}');
}

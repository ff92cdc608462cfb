/* All members of a frame's object. Those that are objects themselves are told by dump_parts.c. */
#include "dump_members.h"

#include "json.h"

/* ---- where it is, and whether it is accepted */

static void put_is_accepted(const struct object *object)
{
    json_bool((object->kinds & ACCEPTED) != 0);
}

static unsigned long long frame_number(const struct object *object)
{
    return object->dump->frame.number;
}

static unsigned long long frame_start(const struct object *object)
{
    return object->dump->frame.start;
}

static unsigned long long frame_length(const struct object *object)
{
    return object->dump->frame.length;
}

static void put_true(const struct object *object)
{
    (void)object;
    json_bool(1);
}

/* What is shown without its place is all that there is. */
static unsigned long long bytes_behind(const struct object *object)
{
    (void)object;
    return 0;
}

/* ---- why it is refused */

static unsigned long long refusal_of(const struct object *object)
{
    return object->dump->refusal;
}

static void put_refusal_name(const struct object *object)
{
    const char *name = refusal_name(object->dump->refusal);

    if (name == NULL)
        json_null();
    else
        json_text(name);
}

static void put_words(const struct object *object)
{
    json_text(lampreycoil_refusal_words(object->dump->refusal));
}

static void put_because(const struct object *object)
{
    json_text(object->dump->fault.reason);
}

static void put_fault_byte(const struct object *object)
{
    if (has_byte(&object->dump->fault))
        json_number(object->dump->fault.byte);
    else
        json_null();
}

static void put_front(const struct object *object)
{
    const struct frame *frame = &object->dump->frame;

    json_hex(frame->bytes, frame->length < FRONT ? frame->length : FRONT);
}

static unsigned long long needed(const struct object *object)
{
    return bytes_needed(object->dump->frame.length, &object->dump->split);
}

static unsigned long long body_length(const struct object *object)
{
    return object->dump->split.body;
}

static unsigned long long header_found_at(const struct object *object)
{
    return object->dump->split.header;
}

static void put_header_is_last(const struct object *object)
{
    json_bool(object->dump->split.header_last);
}

/* ---- the header's fields */

static unsigned long long type_number(const struct object *object)
{
    return object->fields.type;
}

static unsigned long long flags_number(const struct object *object)
{
    return object->fields.flags;
}

static unsigned long long userid(const struct object *object)
{
    return object->fields.userid;
}

static unsigned long long rolemask(const struct object *object)
{
    return object->fields.rolemask;
}

static unsigned long long first_field(const struct object *object)
{
    return object->fields.first;
}

static unsigned long long second_field(const struct object *object)
{
    return object->fields.second;
}

static void put_type_name(const struct object *object)
{
    if (object->type == NULL)
        json_null();
    else
        json_text(object->type->name);
}

/* The names of the bits that are set, of those that have one. */
static void put_bits(uint32_t number, const struct bit_name *names, size_t count)
{
    json_open('[');
    for (size_t i = 0; i < count; i++) {
        if ((number & names[i].bit) != 0)
            json_text(names[i].name);
    }
    json_close(']');
}

static void put_flag_names(const struct object *object)
{
    put_bits(object->fields.flags, flag_names, FLAG_NAMES);
}

static void put_role_names(const struct object *object)
{
    put_bits(object->fields.rolemask, role_names, ROLE_NAMES);
}

static void put_first_name(const struct object *object)
{
    json_text(object->type->first);
}

static void put_second_name(const struct object *object)
{
    json_text(object->type->second);
}

static void put_error_name(const struct object *object)
{
    json_text(object->error->name);
}

/* ---- parts */

static void put_routes(const struct object *object)
{
    size_t start = dumped(object->dump, LAMPREYCOIL_READ_ROUTE_START);
    uint32_t count = dumped(object->dump, LAMPREYCOIL_READ_ROUTES);

    json_open('[');
    for (uint32_t i = 0; i < count; i++, start += LAMPREYCOIL_ROUTE_STEP) {
        json_open('{');
        json_name("start");
        json_number(start);
        json_name("length");
        json_number(LAMPREYCOIL_ROUTE_SIZE);
        json_name("text");
        json_bytes(object->dump->frame.bytes + start, LAMPREYCOIL_ROUTE_SIZE - 1);
        json_close('}');
    }
    json_close(']');
}

static void put_delimiter(const struct object *object)
{
    put_part_members(object, HAS_DELIMITER, &delimiter_members);
}

static void put_topic(const struct object *object)
{
    put_part_members(object, HAS_TOPIC, &topic_members);
}

static void put_payload_object(const struct object *object)
{
    put_part_members(object, HAS_PAYLOAD, &payload_members);
}

static void put_header(const struct object *object)
{
    put_part_members(object, ACCEPTED, &header_members);
}

static void put_whole(const struct object *object)
{
    json_bool(object->dump->split.whole);
}

static void put_parts(const struct object *object)
{
    const struct split *split = &object->dump->split;

    json_open('[');
    for (const struct part *part = split->parts; part < split->parts + split->count; part++) {
        json_open('{');
        json_name("role");
        if (part->role == ROLE_UNKNOWN)
            json_null();
        else
            json_text(role_name(part->role));
        json_name("start");
        json_number(part->start);
        json_name("length");
        json_number(part->length);
        json_name("hex");
        json_hex(object->dump->frame.bytes + part->start, part->length);
        json_close('}');
    }
    json_close(']');
}

/* In the order in which they are written. */
static const struct member of_frame[] = {
    {"accepted", ANY, NULL, put_is_accepted},
    {"number", PLACED, frame_number, NULL},
    {"start", PLACED, frame_start, NULL},
    {"input", INPUT, frame_length, NULL},
    {"more", MORE, NULL, put_true},
    {"frame", SIZED, frame_length, NULL},
    {"behind", SINGLE, bytes_behind, NULL},
    {"refusal", REFUSED, refusal_of, NULL},
    {"refusal_name", REFUSED, NULL, put_refusal_name},
    {"words", REFUSED, NULL, put_words},
    {"because", REFUSED, NULL, put_because},
    {"fault_byte", REFUSED, NULL, put_fault_byte},
    {"front", REFUSED, NULL, put_front},
    {"needed", SHORT, needed, NULL},
    {"body", SPLIT, body_length, NULL},
    {"header_start", FOUND, header_found_at, NULL},
    {"header_is_last_part", FOUND, NULL, put_header_is_last},
    {"type", HEADED, type_number, NULL},
    {"type_name", HEADED, NULL, put_type_name},
    {"flags", HEADED, flags_number, NULL},
    {"flag_names", HEADED, NULL, put_flag_names},
    {"userid", HEADED, userid, NULL},
    {"rolemask", HEADED, rolemask, NULL},
    {"role_names", HEADED, NULL, put_role_names},
    {"first", HEADED, first_field, NULL},
    {"second", HEADED, second_field, NULL},
    {"first_name", TYPED, NULL, put_first_name},
    {"second_name", TYPED, NULL, put_second_name},
    {"error_name", NAMED_ERROR, NULL, put_error_name},
    {"routes", ACCEPTED, NULL, put_routes},
    {"delimiter", ACCEPTED, NULL, put_delimiter},
    {"topic", ACCEPTED, NULL, put_topic},
    {"payload", ACCEPTED | JUDGED, NULL, put_payload_object},
    {"header", ACCEPTED, NULL, put_header},
    {"whole", SPLIT, NULL, put_whole},
    {"parts", SPLIT, NULL, put_parts},
};

const struct members frame_members = MEMBERS(of_frame, "");

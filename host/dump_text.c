/* A frame as text for a person. Nothing that a terminal would obey is sent to it. */
#include "dump.h"
#include "dump_lines.h"
#include "dump_rows.h"
#include "names.h"
#include "put.h"
#include "quoted.h"

/* The names of the bits that are set. Returns the bits that have none. */
static uint32_t put_bits(uint32_t number, const struct bit_name *names, size_t count)
{
    for (size_t i = 0; i < count; i++) {
        if ((number & names[i].bit) != 0) {
            put_byte(' ');
            put_text(names[i].name);
        }
        number &= ~names[i].bit;
    }
    return number;
}

static void put_flags(uint8_t flags)
{
    put_name("flags");
    put_hex(&flags, 1);
    put_bits(flags, flag_names, FLAG_NAMES);
    put_byte('\n');
}

static void put_roles(uint32_t rolemask)
{
    uint32_t nameless;

    put_name("rolemask");
    put_hex_number(rolemask, 8);
    nameless = put_bits(rolemask, role_names, ROLE_NAMES);
    if (nameless != 0) {
        put_text(" nameless:");
        put_hex_number(nameless, 8);
    }
    put_byte('\n');
}

static void put_error(const char *name, uint32_t number, const struct error_name *error)
{
    put_name(name);
    put_number(number);
    put_byte(' ');
    put_text(error->name);
    put_text(", ");
    put_text(error->words);
    put_byte('\n');
}

static void put_first(uint8_t type, const char *name, uint32_t first)
{
    const struct error_name *error = error_by_number(first);

    if (type == LAMPREYCOIL_REQUEST && first == LAMPREYCOIL_NODEID_ANY)
        put_field(name, first, "any");
    else if (type == LAMPREYCOIL_RESPONSE && error != NULL)
        put_error(name, first, error);
    else
        put_field(name, first, "");
}

static void put_fields(const uint8_t *header)
{
    struct fields fields = fields_at(header);
    const struct type_names *names = type_by_number(fields.type);
    int unknown = fields.userid == LAMPREYCOIL_USERID_UNKNOWN;

    put_field("type", fields.type, names == NULL ? "unknown" : names->name);
    put_flags(fields.flags);
    put_field("userid", fields.userid, unknown ? "unknown" : "");
    put_roles(fields.rolemask);
    put_first(fields.type, names == NULL ? "first field" : names->first, fields.first);
    put_field(names == NULL ? "second field" : names->second, fields.second, "");
}

static void put_routes(const struct dump *dump)
{
    uint32_t count = dumped(dump, LAMPREYCOIL_READ_ROUTES);
    size_t start = dumped(dump, LAMPREYCOIL_READ_ROUTE_START);

    put_field("routes", count, count > 1 ? "(top of the stack first)" : "");
    for (uint32_t i = 0; i < count; i++, start += LAMPREYCOIL_ROUTE_STEP) {
        put_text("  ");
        put_number_left(i, NAME_WIDTH - 2);
        put_bytes(dump->frame.bytes + start, LAMPREYCOIL_ROUTE_SIZE - 1);
        put_from_byte(start);
        put_byte('\n');
    }
}

static void put_topic(const struct dump *dump)
{
    size_t start = dumped(dump, LAMPREYCOIL_READ_TOPIC_START);
    size_t length = dumped(dump, LAMPREYCOIL_READ_TOPIC_LENGTH);

    put_name("topic");
    if ((dumped(dump, LAMPREYCOIL_READ_FLAGS) & LAMPREYCOIL_TOPIC) == 0) {
        put_text("none\n");
        return;
    }
    put_text_at(dump->frame.bytes, length, start);
}

static void put_payload_part(const struct dump *dump)
{
    const struct verdict *verdict = &dump->verdict;

    put_name("payload");
    if (!has_payload(dump)) {
        put_text("none\n");
        return;
    }
    put_count_of_bytes(payload_length(dump));
    put_from_byte(dumped(dump, LAMPREYCOIL_READ_PAYLOAD_START));
    put_text(", ");
    put_text(verdict_words(verdict->kind));
    if (verdict->kind != VERDICT_JSON) {
        put_text(": ");
        put_text(verdict->reason);
    }
    put_byte('\n');
    put_payload(dump);
}

/* Which frame it is. The number is cut nowhere, however long, and a space always follows it. */
static void put_frame_number(const struct dump *dump)
{
    put_text("frame ");
    put_number_left(dump->frame.number, 7);
    put_byte(' ');
}

static void put_accepted(const struct dump *dump)
{
    if (dump->placed)
        put_frame_number(dump);
    else
        put_name("frame");
    put_number(dump->frame.length);
    put_text(" bytes");
    if (dump->placed) {
        put_from_byte(dump->frame.start);
        put_text(" of the capture");
    }
    put_byte('\n');
    put_fields(dump->frame.bytes + header_start(dump));
    put_routes(dump);
    if ((dumped(dump, LAMPREYCOIL_READ_FLAGS) & LAMPREYCOIL_ROUTE) != 0)
        put_stretch("delimiter", 0, delimiter_start(dump));
    put_topic(dump);
    put_payload_part(dump);
    put_stretch("header", HEADER, header_start(dump));
}

static void put_part_of(const struct dump *dump, size_t index)
{
    const struct part *part = &dump->split.parts[index];

    put_part(dump->frame.bytes, index, part, part->role == ROLE_HEADER ? 0 : PART_SHOWN);
}

static void put_split(const struct dump *dump)
{
    const struct split *split = &dump->split;

    put_stretch("body", split->body, FRONT);
    if (split->header != 0)
        put_fields(dump->frame.bytes + split->header);
    put_name("parts");
    put_number(split->count);
    put_text(split->whole ? "\n" : " can be split\n");
    for (size_t i = 0; i < split->count; i++)
        put_part_of(dump, i);
    if (!split->whole)
        put_no_more(split->end_at);
    if (split->header != 0 && !split->header_last) {
        put_name("header");
        put_count_of_bytes(HEADER);
        put_from_byte(split->header);
        put_text(", by their look: no part leads to them\n");
    }
}

/* Where the refused frame begins, and how much is there. */
static void put_input(const struct dump *dump)
{
    if (dump->placed) {
        put_frame_number(dump);
        if (dump->passed) {
            put_number(dump->frame.length);
            put_text(" bytes by its front, ");
        }
        put_text("from byte ");
        put_number(dump->frame.start);
        put_text(" of the capture\n");
    }
    if (dump->passed)
        return;
    put_name("input");
    put_count_of_bytes(dump->frame.length);
    put_text(dump->placed ? " from there on" : "");
    put_text(dump->frame.more ? ", and more behind them\n" : "\n");
}

/* What is there of the front where not all of it is. */
static void put_short(const struct dump *dump)
{
    put_text_left("bytes", NAME_WIDTH - 1);
    for (size_t i = 0; i < dump->frame.length; i++) {
        put_byte(' ');
        put_hex(dump->frame.bytes + i, 1);
    }
    put_text(dump->frame.length == 0 ? " none\n" : "\n");
}

/* The byte at fault, in its row. Of an empty body it is the one behind the frame. */
static void put_fault(const struct dump *dump)
{
    const uint8_t *bytes = dump->frame.bytes;
    size_t byte = dump->fault.byte, limit = dump->split.limit;

    put_name("at byte");
    put_number(byte);
    put_text(byte < limit ? ", which is " : ", where the frame ends");
    if (byte < limit)
        put_hex(bytes + byte, 1);
    put_byte('\n');
    put_row(bytes, limit, byte / ROW * ROW, byte);
}

static void put_refused(const struct dump *dump)
{
    put_input(dump);
    put_why(dump->refusal, dump->fault.reason);
    if (has_byte(&dump->fault))
        put_fault(dump);
    if (dump->frame.length < FRONT)
        put_short(dump);
    else if (dump->refusal != LAMPREYCOIL_START_WRONG)
        put_split(dump);
}

void show_text(const struct dump *dump)
{
    if (dump->refusal == LAMPREYCOIL_OK)
        put_accepted(dump);
    else
        put_refused(dump);
    put_out();
}

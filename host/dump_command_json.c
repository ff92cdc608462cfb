/* A Majordomo command as one JSON object on one line. What the command lacks is null. */
#include "dump_command.h"
#include "json.h"
#include "names.h"

static void put_member(const char *name, unsigned long long number)
{
    json_name(name);
    json_number(number);
}

/* The members of a stretch of the bytes, within its object. */
static void put_place_of(const struct command_dump *dump, size_t start, size_t length)
{
    put_member("start", start);
    put_member("length", length);
    json_name("hex");
    json_hex(dump->bytes + start, length);
}

/* The same as an object of its own, with so much of it as text as is text. */
static void put_text_of(const struct command_dump *dump, size_t start, size_t length, size_t text)
{
    json_open('{');
    put_place_of(dump, start, length);
    json_name("text");
    json_bytes(dump->bytes + start, text);
    json_close('}');
}

static void put_parts(const struct command_dump *dump, const struct part *parts, size_t count)
{
    json_name("parts");
    json_open('[');
    for (size_t i = 0; i < count; i++)
        put_text_of(dump, parts[i].start, parts[i].length, parts[i].length);
    json_close(']');
}

static void put_body(const struct command_dump *dump)
{
    size_t count;
    const struct part *parts = body_parts(dump, &count);

    json_name("body");
    if (count == 0) {
        json_null();
        return;
    }
    json_open('{');
    put_place_of(dump, commanded(dump, LAMPREYCOIL_READ_COMMAND_BODY_START),
                 commanded(dump, LAMPREYCOIL_READ_COMMAND_BODY_LENGTH));
    put_parts(dump, parts, count);
    json_close('}');
}

static void put_accepted(const struct command_dump *dump)
{
    uint32_t sender = commanded(dump, LAMPREYCOIL_READ_COMMAND_SENDER);
    uint32_t number = commanded(dump, LAMPREYCOIL_READ_COMMAND_NUMBER);
    size_t name = commanded(dump, LAMPREYCOIL_READ_COMMAND_NAME_LENGTH);
    size_t address = commanded(dump, LAMPREYCOIL_READ_COMMAND_ADDRESS_START);

    put_member("sender", sender);
    json_name("sender_name");
    json_text(sender_name(sender));
    put_member("number", number);
    json_name("number_name");
    json_text(command_name(sender, number));
    json_name("name");
    if (name == 0)
        json_null();
    else
        put_text_of(dump, commanded(dump, LAMPREYCOIL_READ_COMMAND_NAME_START), name, name);
    json_name("address");
    if (address == 0)
        json_null();
    else
        put_text_of(dump, address, LAMPREYCOIL_ROUTE_SIZE, LAMPREYCOIL_ROUTE_SIZE - 1);
    put_body(dump);
}

/* Of a command that is too long no part is looked at. */
static void put_refused(const struct command_dump *dump)
{
    if (dump->more) {
        json_name("more");
        json_bool(1);
    }
    put_member("refusal", dump->refusal);
    json_name("refusal_name");
    json_text(refusal_name(dump->refusal));
    json_name("words");
    json_text(lampreycoil_refusal_words(dump->refusal));
    json_name("because");
    json_text(dump->reason);
    if (dump->refusal == LAMPREYCOIL_COMMAND_LONG)
        return;
    json_name("whole");
    json_bool(dump->end_at == dump->length);
    put_member("count", dump->count);
    put_parts(dump, dump->parts, dump->listed);
}

void show_json_command(const struct command_dump *dump)
{
    json_open('{');
    json_name("accepted");
    json_bool(dump->refusal == LAMPREYCOIL_OK);
    put_member("input", dump->length);
    if (dump->refusal == LAMPREYCOIL_OK)
        put_accepted(dump);
    else
        put_refused(dump);
    json_close('}');
    json_end();
}

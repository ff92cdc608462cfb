/*
 * Tests the two calls on Majordomo commands through the header: each command by its bytes, both
 * ways round, each refusal and the order in which they come, tails that stay, and short records.
 * Prints a line for each test, "passed" or "FAILED".
 */
#include "told.h"

enum { MOST = LAMPREYCOIL_COMMAND_MAX };

static const char route[] = "01234567-89ab-cdef-0123-456789abcdef";
static uint8_t out[MOST + TAIL], body[MOST + 64];
static uint8_t record[LAMPREYCOIL_READ_COMMAND_RECORD + TAIL];

/* ---- what a command is: its fields, and its bytes put together by hand */

struct command {
    uint8_t sender, number;
    const char *name;
    size_t name_length;
    const char *address;
    size_t address_length;
    const uint8_t *body;
    size_t body_length, parts;
};

static size_t put_part(uint8_t *at, const void *data, size_t length)
{
    size_t size = length < 255 ? 1 : 5;

    at[0] = (uint8_t)(length < 255 ? length : 255);
    if (size == 5) {
        for (int i = 0; i < 4; i++)
            at[1 + i] = (uint8_t)(length >> (24 - 8 * i));
    }
    if (length > 0)
        memcpy(at + size, data, length);
    return size + length;
}

static int has_address(const struct command *c)
{
    return c->sender == LAMPREYCOIL_WORKER && c->number > 1 && c->number < 5;
}

static int has_name(const struct command *c)
{
    return c->sender == LAMPREYCOIL_CLIENT || c->number == LAMPREYCOIL_WORKER_READY;
}

static size_t put_command(uint8_t *at, const struct command *c)
{
    size_t n = put_part(at, c->sender == LAMPREYCOIL_CLIENT ? "MDPC02" : "MDPW02", 6);

    n += put_part(at + n, &c->number, 1);
    if (has_name(c))
        n += put_part(at + n, c->name, c->name_length);
    if (has_address(c)) {
        n += put_part(at + n, c->address, c->address_length);
        n += put_part(at + n, "", 0);
    }
    if (c->body_length > 0)
        memcpy(at + n, c->body, c->body_length);
    return n + c->body_length;
}

/* ---- the calls: out and record are filled first, so that tails and refusals can be looked at */

static uint32_t write_into(const struct command *c, size_t room, size_t record_length)
{
    memset(out, FILL, sizeof out);
    memset(record, FILL, sizeof record);
    return lampreycoil_write_command(c->sender, c->number, (const uint8_t *)c->name, c->name_length,
                                     (const uint8_t *)c->address, c->address_length, c->body,
                                     c->body_length, out, room, record, record_length);
}

static void refused(const char *label, const struct command *c, uint32_t want)
{
    report(write_into(c, MOST, 4) == want && filled(out, sizeof out) &&
               filled(record, sizeof record),
           label);
}

static uint32_t read_from(const uint8_t *bytes, size_t length)
{
    memset(record, FILL, sizeof record);
    return lampreycoil_read_command(bytes, length, record, sizeof record);
}

static void reads_as(const char *label, const uint8_t *bytes, size_t length, uint32_t want)
{
    report(read_from(bytes, length) == want && (want == 0 || filled(record, sizeof record)), label);
}

static uint32_t told(size_t index)
{
    return lampreycoil_number(record, index);
}

/* The record has the fields of c, whose bytes these are. */
static int shows(const struct command *c, const uint8_t *bytes, size_t length)
{
    const uint8_t *name = bytes + told(LAMPREYCOIL_READ_COMMAND_NAME_START);
    const uint8_t *address = bytes + told(LAMPREYCOIL_READ_COMMAND_ADDRESS_START);
    size_t start = length - c->body_length;

    return told(LAMPREYCOIL_READ_COMMAND_SENDER) == c->sender &&
           told(LAMPREYCOIL_READ_COMMAND_NUMBER) == c->number &&
           told(LAMPREYCOIL_READ_COMMAND_NAME_LENGTH) == (has_name(c) ? c->name_length : 0) &&
           (has_name(c) ? memcmp(name, c->name, c->name_length) == 0 : name == bytes) &&
           (has_address(c) ? memcmp(address, c->address, 37) == 0 : address == bytes) &&
           told(LAMPREYCOIL_READ_COMMAND_BODY_START) == (c->parts > 0 ? start : 0) &&
           told(LAMPREYCOIL_READ_COMMAND_BODY_LENGTH) == c->body_length &&
           told(LAMPREYCOIL_READ_COMMAND_BODY_PARTS) == c->parts &&
           filled(record + LAMPREYCOIL_READ_COMMAND_RECORD, TAIL);
}

static void round_trip(const char *label, const struct command *c)
{
    static uint8_t bytes[MOST + 64];
    size_t length = put_command(bytes, c);
    int good = write_into(c, length, sizeof record) == LAMPREYCOIL_OK &&
               told(LAMPREYCOIL_WRITE_COMMAND_LENGTH) == length &&
               filled(record + 4, sizeof record - 4) && memcmp(out, bytes, length) == 0 &&
               filled(out + length, sizeof out - length);

    good = good && write_into(c, length - 1, 4) == LAMPREYCOIL_OUTPUT_SHORT &&
           filled(out, sizeof out) && filled(record, sizeof record);
    good = good && read_from(bytes, length) == LAMPREYCOIL_OK && shows(c, bytes, length);
    report(good, label);
}

/* A command with nothing in it but its sender and its number. */
static struct command plain(uint8_t sender, uint8_t number)
{
    struct command c;

    memset(&c, 0, sizeof c);
    c.sender = sender;
    c.number = number;
    return c;
}

static struct command made(uint8_t sender, uint8_t number, size_t parts)
{
    struct command c = plain(sender, number);

    if (has_name(&c)) {
        c.name = "echo";
        c.name_length = 4;
    }
    if (has_address(&c)) {
        c.address = route;
        c.address_length = sizeof route;
    }
    c.body = body;
    for (c.parts = 0; c.parts < parts; c.parts++)
        c.body_length += put_part(body + c.body_length, "hello", c.parts % 6);
    return c;
}

/* ---- the tests */

static void take_commands(void)
{
    static char long_name[256];
    struct command c;
    char label[40];

    for (uint8_t number = 1; number <= 3; number++) {
        snprintf(label, sizeof label, "client's %u", (unsigned)number);
        c = made(LAMPREYCOIL_CLIENT, number, number);
        round_trip(label, &c);
    }
    for (uint8_t number = 1; number <= 6; number++) {
        snprintf(label, sizeof label, "worker's %u", (unsigned)number);
        c = made(LAMPREYCOIL_WORKER, number, number > 1 && number < 5 ? 16 : 0);
        round_trip(label, &c);
    }
    memset(long_name, '~', sizeof long_name);
    c = made(LAMPREYCOIL_CLIENT, 1, 1);
    c.name = long_name;
    c.name_length = 254;
    round_trip("a name of 254 bytes", &c);
    c.name_length = 255;
    round_trip("a name of 255 bytes", &c);
    c.name_length = 256;
    refused("a name of 256 bytes is 35", &c, LAMPREYCOIL_NAME_WRONG);
    c = made(LAMPREYCOIL_CLIENT, 1, 0);
    c.parts = 1;
    c.body_length = put_part(body, out, MOST - 9 - 5 - 5);
    round_trip("a command of 32,768 bytes", &c);
    c.body_length = put_part(body, out, MOST - 9 - 5 - 5 + 1);
    refused("one of 32,769 bytes is 31", &c, LAMPREYCOIL_COMMAND_LONG);
    report(write_into(&c, 0, 4) == LAMPREYCOIL_COMMAND_LONG, "31 comes before 11");
}

static void take_written(void)
{
    struct command c = made(LAMPREYCOIL_CLIENT, 4, 1);

    refused("a client's 04 is 33", &c, LAMPREYCOIL_COMMAND_WRONG);
    c = made(3, 1, 1);
    refused("sender 3 is 33", &c, LAMPREYCOIL_COMMAND_WRONG);
    c = made(LAMPREYCOIL_WORKER, 5, 1);
    refused("a heartbeat with a body is 34", &c, LAMPREYCOIL_PART_COUNT_WRONG);
    body[0] = 9;
    refused("with a malformed one it is 30", &c, LAMPREYCOIL_COMMAND_PART_WRONG);
    c = made(LAMPREYCOIL_CLIENT, 1, 17);
    refused("17 body parts are 34", &c, LAMPREYCOIL_PART_COUNT_WRONG);
    c = made(LAMPREYCOIL_CLIENT, 1, 0);
    refused("no body part is 34", &c, LAMPREYCOIL_PART_COUNT_WRONG);
    c = made(LAMPREYCOIL_CLIENT, 1, 1);
    c.name_length = 0;
    refused("no name is 35", &c, LAMPREYCOIL_NAME_WRONG);
    c = made(LAMPREYCOIL_WORKER, 6, 0);
    c.name = "echo";
    c.name_length = 4;
    refused("a name too many is 35", &c, LAMPREYCOIL_NAME_WRONG);
    c = made(LAMPREYCOIL_WORKER, 2, 1);
    c.address_length = 36;
    refused("an address without its zero is 36", &c, LAMPREYCOIL_ADDRESS_WRONG);
    c = made(LAMPREYCOIL_CLIENT, 2, 1);
    c.address = route;
    c.address_length = sizeof route;
    refused("an address too many is 36", &c, LAMPREYCOIL_ADDRESS_WRONG);
    c = made(LAMPREYCOIL_WORKER, 5, 0);
    report(write_into(&c, MOST, 3) == LAMPREYCOIL_OUTPUT_SHORT && filled(out, sizeof out) &&
               filled(record, sizeof record),
           "a record of 3 bytes is 11");
}

/* The bytes of a worker's FINAL with two body parts, in which one byte is another. */
static void changed(const char *label, size_t at, uint8_t byte, uint32_t want)
{
    struct command c = made(LAMPREYCOIL_WORKER, LAMPREYCOIL_WORKER_FINAL, 2);
    size_t length = put_command(out, &c);

    out[at] = byte;
    reads_as(label, out, length, want);
}

static void take_read(void)
{
    static uint8_t empty[MOST + 1];
    const uint8_t both[] = "\6MDPC02\1\1\1\x20\0";
    struct command c;
    size_t length;

    changed("the bytes as they are", 0, 6, LAMPREYCOIL_OK);
    changed("a mark in lower case is 32", 4, 'w', LAMPREYCOIL_MARK_WRONG);
    changed("a size that leads astray is 30", 7, 2, LAMPREYCOIL_COMMAND_PART_WRONG);
    changed("07 is 33", 8, 7, LAMPREYCOIL_COMMAND_WRONG);
    changed("05 with more parts is 34", 8, 5, LAMPREYCOIL_PART_COUNT_WRONG);
    changed("an address in capitals is 36", 20, 'A', LAMPREYCOIL_ADDRESS_WRONG);
    changed("a last size too large is 30", 49, 2, LAMPREYCOIL_COMMAND_PART_WRONG);
    reads_as("nothing is 32", out, 0, LAMPREYCOIL_MARK_WRONG);
    reads_as("the mark alone is 33", both, 7, LAMPREYCOIL_COMMAND_WRONG);
    reads_as("no body is 34", both, 11, LAMPREYCOIL_PART_COUNT_WRONG);
    reads_as("a blank for a name, and an empty part", both, 12, LAMPREYCOIL_OK);
    reads_as("32,768 empty parts are 32", empty, MOST, LAMPREYCOIL_MARK_WRONG);
    reads_as("32,769 bytes are 31", empty, MOST + 1, LAMPREYCOIL_COMMAND_LONG);
    c = made(LAMPREYCOIL_WORKER, 2, 1);
    length = put_command(out, &c);
    memmove(out + 49, out + 48, length - 48);
    out[47] = 1;
    reads_as("a byte in the separator is 37", out, length + 1, LAMPREYCOIL_SEPARATOR_WRONG);
    out[20] = 'A';
    reads_as("36 comes before 37", out, length + 1, LAMPREYCOIL_ADDRESS_WRONG);
    for (int byte = 0x1F; byte <= 0x7F; byte += byte == 0x20 ? 0x5E : 1) {
        uint8_t bytes[12];
        char label[32];

        memcpy(bytes, both, sizeof bytes);
        bytes[10] = (uint8_t)byte;
        snprintf(label, sizeof label, "a name with %02X", (unsigned)byte);
        reads_as(label, bytes, sizeof bytes,
                 byte == 0x1F || byte == 0x7F ? LAMPREYCOIL_NAME_WRONG : LAMPREYCOIL_OK);
    }
    memset(record, FILL, sizeof record);
    report(lampreycoil_read_command(both, 12, record, 31) == LAMPREYCOIL_OUTPUT_SHORT &&
               filled(record, sizeof record),
           "a record of 31 bytes is 11");
}

int main(void)
{
    take_commands();
    take_written();
    take_read();
    return 0;
}

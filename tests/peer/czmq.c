/*
 * A peer for Majordomo commands: czmq, whose zmsg_encode() makes one stretch of bytes of a
 * message's parts, each with its size in front, and whose zmsg_decode() takes it apart again. `make
 * peer` builds and runs this; the gate does not.
 *
 * Of each command both programs are given the same fields or parts, and neither what the other has
 * made of them: what czmq encodes is read by the library as these fields, what the library writes
 * is decoded by czmq into these parts, and both are the same bytes. The last line is
 * 'N passed, M failed', and the status is 0 only if nothing failed.
 */
#include <czmq.h>

#include "lampreycoil.h"

enum {
    PARTS_MOST = 24,
    SEEDED = 20000,
    ROOM = 2 * LAMPREYCOIL_COMMAND_MAX /* for what is too long as well */
};

static unsigned long passed, failed;

static void report(int good, const char *what, unsigned long number)
{
    if (good) {
        passed++;
        return;
    }
    failed++;
    printf("FAILED: %s, command %lu\n", what, number);
}

/* ---- a command: its fields, and apart from them its parts */

struct bytes {
    const uint8_t *at;
    size_t length;
};

struct command {
    uint8_t sender, number;
    struct bytes name, address; /* of no bytes where the command has none */
    struct bytes body[PARTS_MOST];
    size_t body_parts;
};

static struct bytes text(const char *text)
{
    struct bytes bytes = {(const uint8_t *)text, strlen(text)};

    return bytes;
}

/* The parts of which the protocol says that the command is made. */
static size_t list_parts(const struct command *command, struct bytes parts[PARTS_MOST])
{
    size_t count = 0;

    parts[count++] = text(command->sender == LAMPREYCOIL_CLIENT ? "MDPC02" : "MDPW02");
    parts[count].at = &command->number;
    parts[count++].length = 1;
    if (command->name.length > 0)
        parts[count++] = command->name;
    if (command->address.length > 0) {
        parts[count++] = command->address;
        parts[count++] = text("");
    }
    for (size_t i = 0; i < command->body_parts; i++)
        parts[count++] = command->body[i];
    return count;
}

/* The body as the library's writer takes it: sizes by the format's own words, not by czmq. */
static size_t make_body(const struct command *command, uint8_t *body)
{
    size_t at = 0;

    for (size_t i = 0; i < command->body_parts; i++) {
        size_t length = command->body[i].length;

        if (length < 255) {
            body[at++] = (uint8_t)length;
        } else {
            body[at++] = 255;
            lampreycoil_put_number(body + at, 0, (uint32_t)length);
            at += 4;
        }
        if (length > 0)
            memcpy(body + at, command->body[i].at, length);
        at += length;
    }
    return at;
}

/* ---- czmq's side */

static zframe_t *encode(const struct bytes *parts, size_t count)
{
    zmsg_t *message = zmsg_new();
    zframe_t *frame;

    for (size_t i = 0; i < count; i++)
        zmsg_addmem(message, parts[i].at, parts[i].length);
    frame = zmsg_encode(message);
    zmsg_destroy(&message);
    return frame;
}

/* Whether czmq takes the bytes apart into just these parts. */
static int decodes(const uint8_t *bytes, size_t length, const struct bytes *parts, size_t count)
{
    zframe_t *frame = zframe_new(bytes, length);
    zmsg_t *message = zmsg_decode(frame);
    zframe_t *part = message == NULL ? NULL : zmsg_first(message);
    int same = message != NULL && zmsg_size(message) == count;

    for (size_t i = 0; same && i < count; i++, part = zmsg_next(message))
        same = zframe_size(part) == parts[i].length &&
               memcmp(zframe_data(part), parts[i].at, parts[i].length) == 0;
    zmsg_destroy(&message);
    zframe_destroy(&frame);
    return same;
}

/* ---- the library's side */

static uint32_t told(const uint8_t *record, size_t index)
{
    return lampreycoil_number(record, index);
}

static int same_bytes(const uint8_t *bytes, uint32_t start, uint32_t length, struct bytes want)
{
    if (want.length == 0)
        return start == 0 && length == 0;
    return length == want.length && memcmp(bytes + start, want.at, length) == 0;
}

/* Whether the library reads the bytes as just these fields. */
static int reads(const uint8_t *bytes, size_t length, const struct command *command,
                 const uint8_t *body, size_t body_length)
{
    uint8_t record[LAMPREYCOIL_READ_COMMAND_RECORD];
    struct bytes whole = {body, body_length};
    uint32_t address, parts = (uint32_t)command->body_parts;

    if (lampreycoil_read_command(bytes, length, record, sizeof record) != LAMPREYCOIL_OK)
        return 0;
    address = told(record, LAMPREYCOIL_READ_COMMAND_ADDRESS_START);
    return told(record, LAMPREYCOIL_READ_COMMAND_SENDER) == command->sender &&
           told(record, LAMPREYCOIL_READ_COMMAND_NUMBER) == command->number &&
           same_bytes(bytes, told(record, LAMPREYCOIL_READ_COMMAND_NAME_START),
                      told(record, LAMPREYCOIL_READ_COMMAND_NAME_LENGTH), command->name) &&
           same_bytes(bytes, address, address == 0 ? 0 : LAMPREYCOIL_ROUTE_SIZE,
                      command->address) &&
           same_bytes(bytes, told(record, LAMPREYCOIL_READ_COMMAND_BODY_START),
                      told(record, LAMPREYCOIL_READ_COMMAND_BODY_LENGTH), whole) &&
           told(record, LAMPREYCOIL_READ_COMMAND_BODY_PARTS) == parts;
}

static uint32_t writes(const struct command *command, const uint8_t *body, size_t body_length,
                       uint8_t *out, size_t *length)
{
    uint8_t record[LAMPREYCOIL_WRITE_COMMAND_RECORD] = {0};
    uint32_t refusal = lampreycoil_write_command(command->sender, command->number, command->name.at,
                                                 command->name.length, command->address.at,
                                                 command->address.length, body, body_length, out,
                                                 ROOM, record, sizeof record);

    *length = told(record, LAMPREYCOIL_WRITE_COMMAND_LENGTH);
    return refusal;
}

/* ---- both ways */

static unsigned long commands;

/* A command that there is, through both programs. */
static void play(const struct command *command)
{
    static uint8_t body[ROOM], out[ROOM];
    struct bytes parts[PARTS_MOST];
    size_t count = list_parts(command, parts), body_length = make_body(command, body), length;
    zframe_t *frame = encode(parts, count);
    uint32_t refusal = writes(command, body, body_length, out, &length);

    commands++;
    report(reads(zframe_data(frame), zframe_size(frame), command, body, body_length),
           "what czmq encodes is read", commands);
    report(refusal == LAMPREYCOIL_OK && decodes(out, length, parts, count),
           "what is written is decoded by czmq", commands);
    report(length == zframe_size(frame) && memcmp(out, zframe_data(frame), length) == 0,
           "both are the same bytes", commands);
    zframe_destroy(&frame);
}

/* Parts that are no command: czmq encodes them, and the library refuses with this number. */
static void refuse(const struct bytes *parts, size_t count, uint32_t number)
{
    uint8_t record[LAMPREYCOIL_READ_COMMAND_RECORD];
    zframe_t *frame = encode(parts, count);
    uint32_t refusal =
        lampreycoil_read_command(zframe_data(frame), zframe_size(frame), record, sizeof record);

    commands++;
    report(refusal == number, "parts that are no command are refused", commands);
    zframe_destroy(&frame);
}

/* ---- the commands */

static uint8_t filler[ROOM];
static const char address[] = "01234567-89ab-cdef-0123-456789abcdef";

static struct command command_of(uint8_t sender, uint8_t number)
{
    static const uint8_t name[LAMPREYCOIL_COMMAND_NAME_MAX] = "a service";
    struct command command = {sender, number, {name, 0}, {name, 0}, {{name, 0}}, 0};

    if (sender == LAMPREYCOIL_CLIENT || number == LAMPREYCOIL_WORKER_READY)
        command.name = text("a service");
    else if (number < LAMPREYCOIL_WORKER_HEARTBEAT)
        command.address = (struct bytes){(const uint8_t *)address, LAMPREYCOIL_ROUTE_SIZE};
    if (sender == LAMPREYCOIL_CLIENT || command.address.length > 0) {
        command.body[0] = text("a part");
        command.body_parts = 1;
    }
    return command;
}

static int has_body(const struct command *command)
{
    return command->body_parts > 0;
}

/* Names and body parts of the lengths at which a size changes, and as many parts as may be. */
static void play_lengths(struct command command)
{
    static const size_t lengths[] = {0, 1, 2, 253, 254, 255, 256, 257, 1000, 32000};
    static uint8_t name[LAMPREYCOIL_COMMAND_NAME_MAX];

    memset(name, '~', sizeof name);
    for (size_t length = 1; command.name.length > 0 && length <= sizeof name; length++) {
        command.name = (struct bytes){name, length};
        play(&command);
    }
    for (size_t i = 0; has_body(&command) && i < sizeof lengths / sizeof lengths[0]; i++) {
        command.body[0] = (struct bytes){filler, lengths[i]};
        play(&command);
    }
    for (size_t count = 1; has_body(&command) && count <= LAMPREYCOIL_COMMAND_PARTS_MAX; count++) {
        for (size_t i = 0; i < count; i++)
            command.body[i] = (struct bytes){filler + i, 17 * i};
        command.body_parts = count;
        play(&command);
    }
}

/* The longest there is: its only body part fills it up. */
static void play_longest(struct command command)
{
    struct bytes parts[PARTS_MOST];
    size_t count, taken = 0;

    if (!has_body(&command))
        return;
    count = list_parts(&command, parts);
    for (size_t i = 0; i + 1 < count; i++)
        taken += 1 + parts[i].length;
    command.body[0] = (struct bytes){filler, LAMPREYCOIL_COMMAND_MAX - taken - 5};
    play(&command);
    command.body[0].length++;
    count = list_parts(&command, parts);
    refuse(parts, count, LAMPREYCOIL_COMMAND_LONG);
}

/* Each of the command's parts left out, and one more behind them. */
static void play_wrong(struct command command)
{
    struct bytes parts[PARTS_MOST], fewer[PARTS_MOST];
    size_t count = list_parts(&command, parts);
    static const uint32_t numbers[] = {LAMPREYCOIL_MARK_WRONG, LAMPREYCOIL_COMMAND_WRONG,
                                       LAMPREYCOIL_PART_COUNT_WRONG, LAMPREYCOIL_PART_COUNT_WRONG,
                                       LAMPREYCOIL_PART_COUNT_WRONG};

    for (size_t left = 0; left < count; left++) {
        memcpy(fewer, parts, left * sizeof parts[0]);
        memcpy(fewer + left, parts + left + 1, (count - left - 1) * sizeof parts[0]);
        refuse(fewer, count - 1, numbers[left]);
    }
    while (count < PARTS_MOST - 1)
        parts[count++] = text("");
    refuse(parts, count, LAMPREYCOIL_PART_COUNT_WRONG);
}

/* A generator of numbers that is the same everywhere. */
static uint32_t drawn(uint32_t below)
{
    static uint64_t state = 0x9E3779B97F4A7C15u;

    state ^= state << 13;
    state ^= state >> 7;
    state ^= state << 17;
    return (uint32_t)((state >> 33) % below);
}

static void play_seeded(void)
{
    static uint8_t name[LAMPREYCOIL_COMMAND_NAME_MAX];
    struct command command = drawn(2) == 0
                                 ? command_of(LAMPREYCOIL_CLIENT, (uint8_t)(1 + drawn(3)))
                                 : command_of(LAMPREYCOIL_WORKER, (uint8_t)(1 + drawn(6)));

    if (command.name.length > 0)
        command.name = (struct bytes){name, 1 + drawn(sizeof name)};
    for (size_t i = 0; i < command.name.length; i++)
        name[i] = (uint8_t)(0x20 + drawn(0x5F));
    if (has_body(&command))
        command.body_parts = 1 + drawn(LAMPREYCOIL_COMMAND_PARTS_MAX);
    for (size_t i = 0; i < command.body_parts; i++)
        command.body[i] =
            (struct bytes){filler + drawn(1000), drawn(2) == 0 ? drawn(8) : drawn(600)};
    play(&command);
}

int main(void)
{
    for (size_t i = 0; i < sizeof filler; i++)
        filler[i] = (uint8_t)(i * 7 + i / 256);
    for (uint8_t sender = LAMPREYCOIL_CLIENT; sender <= LAMPREYCOIL_WORKER; sender++) {
        for (uint8_t number = 1; number <= (sender == LAMPREYCOIL_CLIENT ? 3 : 6); number++) {
            struct command command = command_of(sender, number);

            play(&command);
            play_lengths(command);
            play_longest(command);
            play_wrong(command);
        }
    }
    for (unsigned long i = 0; i < SEEDED; i++)
        play_seeded();
    printf("czmq %d.%d.%d: %lu messages\n", CZMQ_VERSION_MAJOR, CZMQ_VERSION_MINOR,
           CZMQ_VERSION_PATCH, commands);
    printf("%lu passed, %lu failed\n", passed, failed);
    return failed > 0;
}

/* Why the library refuses a Majordomo command, more closely than the number's words. */
#include <stdio.h>
#include <string.h>

#include "dump_command.h"
#include "names.h"

/* The parts that every command has, and those that one may have in front of its body. */
enum { MARK_PART, NUMBER_PART, THIRD_PART, SEPARATOR_PART };

static const uint8_t *data_of(const struct command_dump *dump, size_t index)
{
    return dump->bytes + dump->parts[index].start;
}

/* Who has the mark that the command begins with. There is none unless it was refused for less. */
static uint32_t sender_of(const struct command_dump *dump)
{
    return memcmp(data_of(dump, MARK_PART), "MDPC02", 6) == 0 ? LAMPREYCOIL_CLIENT
                                                              : LAMPREYCOIL_WORKER;
}

static void explain_part(struct command_dump *dump)
{
    char reason[REASON_ROOM];

    explain_size(dump->bytes, dump->end_at, dump->length, "input", reason);
    snprintf(dump->reason, sizeof dump->reason, "at byte %zu: %s", dump->end_at, reason);
}

static void explain_mark(struct command_dump *dump)
{
    size_t length = dump->parts[MARK_PART].length;

    if (dump->count == 0)
        snprintf(dump->reason, sizeof dump->reason, "there is no part");
    else if (length != 6)
        snprintf(dump->reason, sizeof dump->reason, "the first part has the length %zu, not 6",
                 length);
    else
        snprintf(dump->reason, sizeof dump->reason, "the first part is neither MDPC02 nor MDPW02");
}

static void explain_number(struct command_dump *dump)
{
    size_t length = dump->parts[NUMBER_PART].length;

    if (dump->count <= NUMBER_PART)
        snprintf(dump->reason, sizeof dump->reason, "there is no second part");
    else if (length != 1)
        snprintf(dump->reason, sizeof dump->reason, "the second part has the length %zu, not 1",
                 length);
    else
        snprintf(dump->reason, sizeof dump->reason, "a %s has no command %02X",
                 sender_name(sender_of(dump)), *data_of(dump, NUMBER_PART));
}

static void explain_count(struct command_dump *dump)
{
    uint32_t sender = sender_of(dump), number = *data_of(dump, NUMBER_PART);
    const char *asked = "4 to 19";

    if (sender == LAMPREYCOIL_WORKER)
        asked = number == LAMPREYCOIL_WORKER_READY      ? "3"
                : number < LAMPREYCOIL_WORKER_HEARTBEAT ? "5 to 20"
                                                        : "2";
    snprintf(dump->reason, sizeof dump->reason, "there are %zu parts, and a %s's %s has %s",
             dump->count, sender_name(sender), command_name(sender, number), asked);
}

static void explain_name(struct command_dump *dump)
{
    const uint8_t *name = data_of(dump, THIRD_PART);
    size_t length = dump->parts[THIRD_PART].length, at = 0;

    if (length == 0) {
        snprintf(dump->reason, sizeof dump->reason, "the name is empty");
        return;
    }
    while (at < length && name[at] >= 0x20 && name[at] <= 0x7E)
        at++;
    if (length > LAMPREYCOIL_COMMAND_NAME_MAX)
        snprintf(dump->reason, sizeof dump->reason, "the name has the length %zu, and %d may be",
                 length, LAMPREYCOIL_COMMAND_NAME_MAX);
    else if (at < length)
        snprintf(dump->reason, sizeof dump->reason,
                 "the name has %02X as its byte %zu, not one of 20 to 7E", name[at], at);
}

static void explain_separator(struct command_dump *dump)
{
    snprintf(dump->reason, sizeof dump->reason,
             "the part behind the address has the length %zu, not 0",
             dump->parts[SEPARATOR_PART].length);
}

void explain_command(struct command_dump *dump)
{
    if (dump->refusal == LAMPREYCOIL_COMMAND_LONG)
        snprintf(dump->reason, sizeof dump->reason, "there are more than %d bytes",
                 LAMPREYCOIL_COMMAND_MAX);
    else if (dump->refusal == LAMPREYCOIL_COMMAND_PART_WRONG)
        explain_part(dump);
    else if (dump->refusal == LAMPREYCOIL_MARK_WRONG)
        explain_mark(dump);
    else if (dump->refusal == LAMPREYCOIL_COMMAND_WRONG)
        explain_number(dump);
    else if (dump->refusal == LAMPREYCOIL_PART_COUNT_WRONG)
        explain_count(dump);
    else if (dump->refusal == LAMPREYCOIL_NAME_WRONG)
        explain_name(dump);
    else if (dump->refusal == LAMPREYCOIL_ADDRESS_WRONG)
        explain_route("the address", data_of(dump, THIRD_PART), dump->parts[THIRD_PART].length,
                      dump->reason);
    else if (dump->refusal == LAMPREYCOIL_SEPARATOR_WRONG)
        explain_separator(dump);
}

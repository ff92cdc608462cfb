/* A Majordomo command as text for a person. Nothing that a terminal would obey is sent to it. */
#include "dump_command.h"

#include "dump_lines.h"
#include "files.h"
#include "names.h"
#include "put.h"

/* How much of a body's part is shown, unless all of it is asked for. */
enum { BODY_SHOWN = 64 };

uint32_t commanded(const struct command_dump *dump, size_t index)
{
    return lampreycoil_number(dump->record, index);
}

const struct part *body_parts(const struct command_dump *dump, size_t *count)
{
    *count = commanded(dump, LAMPREYCOIL_READ_COMMAND_BODY_PARTS);
    return dump->parts + dump->listed - *count;
}

/* ---- the text */

static void put_command_name(const struct command_dump *dump)
{
    size_t length = commanded(dump, LAMPREYCOIL_READ_COMMAND_NAME_LENGTH);

    put_name("name");
    if (length == 0)
        put_text("none\n");
    else
        put_text_at(dump->bytes, length, commanded(dump, LAMPREYCOIL_READ_COMMAND_NAME_START));
}

static void put_address(const struct command_dump *dump)
{
    size_t start = commanded(dump, LAMPREYCOIL_READ_COMMAND_ADDRESS_START);

    put_name("address");
    if (start == 0) {
        put_text("none\n");
        return;
    }
    put_bytes(dump->bytes + start, LAMPREYCOIL_ROUTE_SIZE - 1);
    put_from_byte(start);
    put_byte('\n');
}

static void put_body(const struct command_dump *dump)
{
    size_t count;
    const struct part *parts = body_parts(dump, &count);
    int cut = 0;

    put_name("body");
    if (count == 0) {
        put_text("none\n");
        return;
    }
    put_number(count);
    put_text(" part");
    put_text(plural(count));
    put_text(", ");
    put_count_of_bytes(commanded(dump, LAMPREYCOIL_READ_COMMAND_BODY_LENGTH));
    put_from_byte(commanded(dump, LAMPREYCOIL_READ_COMMAND_BODY_START));
    put_byte('\n');
    for (size_t i = 0; i < count; i++) {
        put_part(dump->bytes, i, &parts[i], dump->all ? parts[i].length : BODY_SHOWN);
        cut |= parts[i].length > BODY_SHOWN;
    }
    if (cut && !dump->all) {
        put_spaces(NAME_WIDTH);
        put_text("of each part 64 bytes at the most (--all shows all)\n");
    }
}

static void put_accepted(const struct command_dump *dump)
{
    uint32_t sender = commanded(dump, LAMPREYCOIL_READ_COMMAND_SENDER);
    uint32_t number = commanded(dump, LAMPREYCOIL_READ_COMMAND_NUMBER);

    put_name("command");
    put_count_of_bytes(dump->length);
    put_byte('\n');
    put_field("sender", sender, sender_name(sender));
    put_field("number", number, command_name(sender, number));
    put_command_name(dump);
    put_address(dump);
    put_body(dump);
}

static void put_parts(const struct command_dump *dump)
{
    put_name("parts");
    put_number(dump->count);
    put_text(dump->end_at == dump->length ? "\n" : " can be split\n");
    for (size_t i = 0; i < dump->listed; i++)
        put_part(dump->bytes, i, &dump->parts[i], PART_SHOWN);
    if (dump->listed < dump->count) {
        put_spaces(NAME_WIDTH);
        put_number(dump->count - dump->listed);
        put_text(" more\n");
    }
    if (dump->end_at < dump->length)
        put_no_more(dump->end_at);
}

static void put_refused(const struct command_dump *dump)
{
    put_name("input");
    put_count_of_bytes(dump->length);
    put_text(dump->more ? ", and more behind them\n" : "\n");
    put_why(dump->refusal, dump->reason);
    if (dump->refusal != LAMPREYCOIL_COMMAND_LONG)
        put_parts(dump);
}

void show_command(const struct command_dump *dump)
{
    if (dump->refusal == LAMPREYCOIL_OK)
        put_accepted(dump);
    else
        put_refused(dump);
    put_out();
}

/* ---- the command */

static void split_command(struct command_dump *dump)
{
    struct part part;
    size_t end;

    while ((end = split_part(dump->bytes, dump->length, dump->end_at, &part)) > 0) {
        if (dump->listed < COMMAND_PARTS_SHOWN)
            dump->parts[dump->listed++] = part;
        dump->count++;
        dump->end_at = end;
    }
}

/* One byte more than a command may have is read: then the library refuses what is too long. */
static int read_command(struct command_dump *dump, const char *file)
{
    static uint8_t bytes[LAMPREYCOIL_COMMAND_MAX + 1];
    struct input input;
    int status = open_input(&input, file);

    if (status != 0)
        return status;
    status = read_input(&input, bytes, sizeof bytes, &dump->length);
    dump->bytes = bytes;
    dump->more = !input.ended;
    close_input(&input);
    return status;
}

int dump_command(const struct dump_options *options)
{
    struct command_dump dump = {.all = options->all};
    int status = read_command(&dump, options->file);

    if (status != 0)
        return status;
    dump.refusal =
        lampreycoil_read_command(dump.bytes, dump.length, dump.record, sizeof dump.record);
    if (dump.refusal != LAMPREYCOIL_COMMAND_LONG)
        split_command(&dump);
    if (dump.refusal != LAMPREYCOIL_OK)
        explain_command(&dump);
    (options->json ? show_json_command : show_command)(&dump);
    status = flush_output();
    if (status != 0)
        return status;
    return dump.refusal == LAMPREYCOIL_OK ? EXIT_DONE : EXIT_REFUSED;
}

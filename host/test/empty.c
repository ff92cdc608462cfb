/*
 * Tests that an empty slice may be NULL: each slice of each call in turn, with what the call
 * answers then. The same calls with an empty slice that is not NULL have to answer the same. Prints
 * a line for each test, "passed" or "FAILED".
 */
#include "floor.h"

enum { SHORT_FRAME = 8 + 21 };

static uint8_t buffer[ROOM], record[LAMPREYCOIL_READ_RECORD], depths[RANKS];
static const uint8_t topic[] = {'l', 'o', 'g'};

static void answers(const char *label, uint32_t null, uint32_t other, uint32_t want)
{
    report(null == want && other == want, label);
}

static uint32_t write_control(uint8_t *empty, uint8_t *out, size_t out_length)
{
    return lampreycoil_write(LAMPREYCOIL_CONTROL, 0, 0, 0, 0, 0, empty, 0, empty, 0, empty, 0, out,
                             out_length, record, LAMPREYCOIL_WRITE_RECORD);
}

static uint32_t write_request(uint8_t flags, uint8_t *empty, size_t topic_length)
{
    return lampreycoil_write(LAMPREYCOIL_REQUEST, flags, 0, 0, 0, 0, empty, 0,
                             topic_length == 0 ? empty : topic, topic_length, empty, 0, buffer,
                             sizeof buffer, record, LAMPREYCOIL_WRITE_RECORD);
}

static void take_writes(uint8_t *other)
{
    const uint8_t flags = LAMPREYCOIL_TOPIC | LAMPREYCOIL_ROUTE;
    const uint8_t more = flags | LAMPREYCOIL_PAYLOAD;

    answers("no part at all", write_control(NULL, buffer, SHORT_FRAME),
            write_control(other, buffer, SHORT_FRAME), LAMPREYCOIL_OK);
    answers("no output", write_control(NULL, NULL, 0), write_control(other, other, 0),
            LAMPREYCOIL_OUTPUT_SHORT);
    answers("no routes and no payload", write_request(flags, NULL, sizeof topic),
            write_request(flags, other, sizeof topic), LAMPREYCOIL_OK);
    answers("an empty payload", write_request(more, NULL, sizeof topic),
            write_request(more, other, sizeof topic), LAMPREYCOIL_OK);
    answers("an empty topic", write_request(flags, NULL, 0), write_request(flags, other, 0),
            LAMPREYCOIL_TOPIC_WRONG);
}

static uint32_t write_unrecorded(uint8_t *empty)
{
    return lampreycoil_write(LAMPREYCOIL_CONTROL, 0, 0, 0, 0, 0, empty, 0, empty, 0, empty, 0,
                             buffer, sizeof buffer, empty, 0);
}

static void take_reads(uint8_t *other)
{
    answers("nothing to read", lampreycoil_read(NULL, 0, record, sizeof record),
            lampreycoil_read(other, 0, record, sizeof record), LAMPREYCOIL_INPUT_SHORT);
    answers("no record of a read", lampreycoil_read(buffer, sizeof buffer, NULL, 0),
            lampreycoil_read(buffer, sizeof buffer, other, 0), LAMPREYCOIL_OUTPUT_SHORT);
    answers("no fault of nothing", lampreycoil_read_fault(NULL, 0, record, sizeof record),
            lampreycoil_read_fault(other, 0, record, sizeof record), LAMPREYCOIL_INPUT_SHORT);
    answers("no record of a fault", lampreycoil_read_fault(buffer, sizeof buffer, NULL, 0),
            lampreycoil_read_fault(buffer, sizeof buffer, other, 0), LAMPREYCOIL_OUTPUT_SHORT);
    answers("no record of a write", write_unrecorded(NULL), write_unrecorded(other),
            LAMPREYCOIL_OUTPUT_SHORT);
}

/* What stopped the list, and 100 for each of its frames; 1000 and the refusal of the call itself.
 */
static uint32_t list_frames(const uint8_t *bytes, size_t length, uint8_t *list, size_t room)
{
    uint32_t refusal = lampreycoil_read_stream(bytes, length, list, room, record, sizeof record);

    if (refusal != LAMPREYCOIL_OK)
        return 1000 + refusal;
    return 100 * lampreycoil_number(record, LAMPREYCOIL_STREAM_ENTRIES) +
           lampreycoil_number(record, LAMPREYCOIL_STREAM_REFUSAL);
}

static void take_streams(uint8_t *other)
{
    uint8_t list[LAMPREYCOIL_ENTRY_SIZE];
    int good = write_control(other, buffer, SHORT_FRAME) == LAMPREYCOIL_OK;

    report(good && list_frames(buffer, SHORT_FRAME, list, sizeof list) == 101,
           "a stream of one frame");
    answers("a stream of nothing", list_frames(NULL, 0, list, sizeof list),
            list_frames(other, 0, list, sizeof list), LAMPREYCOIL_INPUT_SHORT);
    answers("no list of a stream", list_frames(buffer, SHORT_FRAME, NULL, 0),
            list_frames(buffer, SHORT_FRAME, other, 0), LAMPREYCOIL_OUTPUT_SHORT);
    answers("a stream of nothing, and no list", list_frames(NULL, 0, NULL, 0),
            list_frames(other, 0, other, 0), LAMPREYCOIL_INPUT_SHORT);
    answers("no record of a stream",
            lampreycoil_read_stream(buffer, SHORT_FRAME, list, sizeof list, NULL, 0),
            lampreycoil_read_stream(buffer, SHORT_FRAME, list, sizeof list, other, 0),
            LAMPREYCOIL_OUTPUT_SHORT);
}

/* The answer, and 100 for each byte of its place; 1000 and the refusal. */
static uint32_t check_json(const uint8_t *bytes, uint8_t *row, size_t row_length)
{
    uint32_t refusal = lampreycoil_check_json(bytes, 0, row, row_length);

    if (refusal != LAMPREYCOIL_OK)
        return 1000 + refusal;
    return 100 * lampreycoil_json_byte(row) + lampreycoil_number(row, LAMPREYCOIL_JSON_ANSWER);
}

static void take_json(uint8_t *other)
{
    answers("an empty payload is no JSON", check_json(NULL, record, sizeof record),
            check_json(other, record, sizeof record), LAMPREYCOIL_JSON_NO);
    answers("no record of a check of JSON", check_json(NULL, NULL, 0), check_json(other, other, 0),
            1000 + LAMPREYCOIL_OUTPUT_SHORT);
}

static uint32_t write_command(uint8_t *empty, uint8_t *to, size_t room, uint8_t *row,
                              size_t row_length)
{
    return lampreycoil_write_command(LAMPREYCOIL_WORKER, LAMPREYCOIL_WORKER_HEARTBEAT, empty, 0,
                                     empty, 0, empty, 0, to, room, row, row_length);
}

static void take_commands(uint8_t *other)
{
    answers("no name, address and body", write_command(NULL, buffer, 9, record, 4),
            write_command(other, buffer, 9, record, 4), LAMPREYCOIL_OK);
    answers("no output of a command", write_command(NULL, NULL, 0, record, 4),
            write_command(other, other, 0, record, 4), LAMPREYCOIL_OUTPUT_SHORT);
    answers("no record of a written command", write_command(NULL, buffer, 9, NULL, 0),
            write_command(other, buffer, 9, other, 0), LAMPREYCOIL_OUTPUT_SHORT);
    answers("no command to read", lampreycoil_read_command(NULL, 0, record, sizeof record),
            lampreycoil_read_command(other, 0, record, sizeof record), LAMPREYCOIL_MARK_WRONG);
    answers("no record of a read command", lampreycoil_read_command(buffer, 9, NULL, 0),
            lampreycoil_read_command(buffer, 9, other, 0), LAMPREYCOIL_OUTPUT_SHORT);
}

static uint32_t check_tree(const uint8_t *t, size_t length, uint8_t *d, size_t d_length,
                           uint8_t *row, size_t row_length)
{
    return lampreycoil_check_tree(t, length, d, d_length, row, row_length);
}

static void take_checks(uint8_t *other)
{
    answers("no tree", check_tree(NULL, 0, depths, RANKS, record, 4),
            check_tree(other, 0, depths, RANKS, record, 4), LAMPREYCOIL_TREE_WRONG);
    answers("no depths", check_tree(tree, sizeof tree, NULL, 0, record, 4),
            check_tree(tree, sizeof tree, other, 0, record, 4), LAMPREYCOIL_OUTPUT_SHORT);
    answers("no record of a tree", check_tree(tree, sizeof tree, depths, RANKS, NULL, 0),
            check_tree(tree, sizeof tree, depths, RANKS, other, 0), LAMPREYCOIL_OUTPUT_SHORT);
    answers("services of no tree", lampreycoil_check_services(NULL, 0, services, sizeof services),
            lampreycoil_check_services(other, 0, services, sizeof services),
            LAMPREYCOIL_TREE_WRONG);
    answers("no services", lampreycoil_check_services(tree, sizeof tree, NULL, 0),
            lampreycoil_check_services(tree, sizeof tree, other, 0), LAMPREYCOIL_OK);
    answers("identities of no tree",
            lampreycoil_check_identities(NULL, 0, identities, RANKS * LAMPREYCOIL_ROUTE_SIZE),
            lampreycoil_check_identities(other, 0, identities, RANKS * LAMPREYCOIL_ROUTE_SIZE),
            LAMPREYCOIL_TREE_WRONG);
    answers("no identities", lampreycoil_check_identities(tree, sizeof tree, NULL, 0),
            lampreycoil_check_identities(tree, sizeof tree, other, 0),
            LAMPREYCOIL_IDENTITIES_WRONG);
}

/* The slices of a step and of a walk, of which one is left out. */
enum slice { TREE, SERVICES_TABLE, IDENTITIES, BUFFER, RECORD, SLICES };

static uint32_t play(enum slice out, uint8_t *empty, int walk)
{
    const uint8_t *tables[] = {tree, services, identities};
    size_t lengths[] = {sizeof tree, sizeof services, RANKS * LAMPREYCOIL_ROUTE_SIZE};
    uint8_t *lent = out == BUFFER ? empty : buffer, *row = out == RECORD ? empty : record;
    size_t room = out == BUFFER ? 0 : sizeof buffer;
    size_t row_length = out == RECORD ? 0 : sizeof record;
    const struct message m = {LAMPREYCOIL_REQUEST,
                              LAMPREYCOIL_TOPIC | LAMPREYCOIL_ROUTE,
                              LAMPREYCOIL_NODEID_ANY,
                              "log",
                              RANKS,
                              1,
                              0};

    write_message(&m, buffer);
    if (out < BUFFER) {
        tables[out] = empty;
        lengths[out] = 0;
    }
    if (walk)
        return lampreycoil_walk(tables[0], lengths[0], tables[1], lengths[1], tables[2], lengths[2],
                                6, lent, room, row, row_length);
    return lampreycoil_step(tables[0], lengths[0], tables[1], lengths[1], tables[2], lengths[2], 6,
                            lent, room, row, row_length);
}

static void take_plays(uint8_t *other)
{
    static const char *const names[SLICES] = {"tree", "services", "identities", "buffer", "record"};
    static const uint32_t want[SLICES] = {LAMPREYCOIL_TREE_WRONG, LAMPREYCOIL_OK,
                                          LAMPREYCOIL_IDENTITIES_WRONG, LAMPREYCOIL_INPUT_SHORT,
                                          LAMPREYCOIL_OUTPUT_SHORT};
    char label[40];

    for (int i = 0; i < SLICES; i++) {
        enum slice out = (enum slice)i;

        snprintf(label, sizeof label, "a step with no %s", names[i]);
        answers(label, play(out, NULL, 0), play(out, other, 0), want[i]);
        snprintf(label, sizeof label, "a walk with no %s", names[i]);
        answers(label, play(out, NULL, 1), play(out, other, 1),
                out == BUFFER ? LAMPREYCOIL_OUTPUT_SHORT : want[i]);
    }
}

int main(void)
{
    uint8_t one = FILL;

    make_floor();
    take_reads(&one);
    take_writes(&one);
    take_streams(&one);
    take_json(&one);
    take_commands(&one);
    take_checks(&one);
    take_plays(&one);
    report(one == FILL, "nothing is written to an empty slice");
    return 0;
}

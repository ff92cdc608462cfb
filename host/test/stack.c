/*
 * Measures the stack that the calls for frames, streams, JSON and commands take, and the header's
 * lampreycoil_write_message: see stack.h. stack_walk.c has the calls that take tables.
 */
#include "stack.h"

enum {
    JSON_STACK = 4096,    /* the limit of check_json, which the header's words have */
    MESSAGE_STACK = 3072, /* that of write_message above write, as the header has it */
    SHORTEST = LAMPREYCOIL_FRAME_MIN,
    MOST = LAMPREYCOIL_LIST_MAX / LAMPREYCOIL_ENTRY_SIZE /* frames in a list */
};

static uint8_t routes[LAMPREYCOIL_ROUTES_MAX * LAMPREYCOIL_ROUTE_SIZE];

/* ---- the calls: each tells what came of it */

static uint32_t read_frame(void)
{
    return lampreycoil_read(frame, frame_length, record, sizeof record);
}

static uint32_t read_fault(void)
{
    return lampreycoil_read_fault(frame, frame_length, record, sizeof record);
}

/* The same message for both: as many routes as there may be, and the longest topic. */
static const uint8_t all_parts = LAMPREYCOIL_TOPIC | LAMPREYCOIL_ROUTE | LAMPREYCOIL_PAYLOAD;

static uint32_t write_frame(void)
{
    return lampreycoil_write(LAMPREYCOIL_REQUEST, all_parts, 0, 0, 0, 0, routes, sizeof routes,
                             payload, LAMPREYCOIL_TOPIC_MAX, payload, 30000, buffer, sizeof buffer,
                             record, sizeof record);
}

static struct lampreycoil_message message;
static size_t written;

static uint32_t write_message(void)
{
    return lampreycoil_write_message(&message, buffer, sizeof buffer, &written);
}

/* A stream of one frame again and again; what it stopped with, and 100 for each that is listed. */
static uint8_t stream[LAMPREYCOIL_STREAM_MAX], list[LAMPREYCOIL_LIST_MAX];
static size_t list_room;

static uint32_t read_stream(void)
{
    uint32_t refusal =
        lampreycoil_read_stream(stream, sizeof stream, list, list_room, record, sizeof record);

    return refusal ? refusal
                   : 100 * lampreycoil_number(record, LAMPREYCOIL_STREAM_ENTRIES) +
                         lampreycoil_number(record, LAMPREYCOIL_STREAM_REFUSAL);
}

static void make_stream(const uint8_t *one, size_t length)
{
    for (size_t at = 0; at < sizeof stream; at += length)
        memcpy(stream + at, one, length < sizeof stream - at ? length : sizeof stream - at);
}

/* A payload that is to be JSON; 100 and the answer, or 1000, the answer and the refusal. */
static uint8_t json[1 << 20];
static size_t json_length;

static uint32_t check_json(void)
{
    uint32_t refusal = lampreycoil_check_json(json, json_length, record, sizeof record);
    uint32_t answer = lampreycoil_number(record, LAMPREYCOIL_JSON_ANSWER);

    return refusal ? 1000 + 100 * answer + refusal : 100 + answer;
}

/* A worker's REQUEST, the longest that there is, written; and it or other bytes read. */
static uint8_t command[LAMPREYCOIL_COMMAND_MAX];
static size_t command_length;

static uint32_t write_command(void)
{
    const size_t part = LAMPREYCOIL_COMMAND_MAX - 9 - LAMPREYCOIL_ROUTE_STEP - 1;

    command[0] = 255;
    lampreycoil_put_number(command + 1, 0, (uint32_t)part - 5);
    return lampreycoil_write_command(LAMPREYCOIL_WORKER, LAMPREYCOIL_WORKER_REQUEST, NULL, 0,
                                     routes, LAMPREYCOIL_ROUTE_SIZE, command, part, buffer,
                                     sizeof buffer, record, sizeof record);
}

static uint32_t read_command(void)
{
    return lampreycoil_read_command(command, command_length, record, sizeof record);
}

/* ---- what is measured */

static void make_message(void)
{
    for (uint32_t i = 0; i < LAMPREYCOIL_ROUTES_MAX; i++)
        make_identity(routes + i * LAMPREYCOIL_ROUTE_SIZE, i);
    memset(&message, 0, sizeof message);
    message.type = LAMPREYCOIL_REQUEST;
    message.flags = all_parts;
    message.routes = routes;
    message.routes_count = LAMPREYCOIL_ROUTES_MAX;
    message.topic = payload;
    message.topic_length = LAMPREYCOIL_TOPIC_MAX;
    message.payload = payload;
    message.payload_length = 30000;
}

/* Where the compiler lays the header's functions into their callers, they are in this one. */
static void take_message(void)
{
    size_t call = measure(write_frame);

    make_message();
    takes_below(call + MESSAGE_STACK, "write_message", write_message, 0);
    printf("%s: the frame of write_message is whole\n",
           written == lampreycoil_number(record, LAMPREYCOIL_WRITE_LENGTH) ? "passed" : "FAILED");
}

static void take_streams(void)
{
    uint32_t longs = (uint32_t)(sizeof stream / frame_length);
    uint8_t control[SHORTEST], row[LAMPREYCOIL_WRITE_RECORD];

    list_room = sizeof list;
    make_stream(frame, frame_length);
    takes("read_stream, long frames", read_stream, 100 * longs + 1);
    if (lampreycoil_write(LAMPREYCOIL_CONTROL, 0, 0, 0, 0, 0, NULL, 0, NULL, 0, NULL, 0, control,
                          sizeof control, row, sizeof row))
        abort();
    make_stream(control, sizeof control);
    takes("read_stream, as many frames as can be listed", read_stream, 100 * MOST + 1);
    list_room = sizeof list / 2;
    takes("read_stream, a full list", read_stream, 100 * (MOST / 2) + 11);
    stream[SHORTEST] = 0;
    takes("read_stream, a wrong start", read_stream, 100 + 2);
}

/* So many of these pieces of text, one behind another, at the end of the payload. */
static void add(const char *piece, size_t times)
{
    for (; times > 0; times--) {
        memcpy(json + json_length, piece, strlen(piece));
        json_length += strlen(piece);
    }
}

/* So many levels, each opened and closed so, inside an object; all kinds of values are innermost.
 */
static void make_json(const char *opened, const char *closed, size_t levels)
{
    json_length = 0;
    add("{\"\":", 1);
    add(opened, levels - 2);
    add("{\"a\":-1.5e+10,\"\\u00e9\xC3\xA9\":\"\\n\\u00e9\xC3\xA9\xF0\x9F\x98\x80\"", 1);
    add(",\"b\":true,\"b\":false,\"\":null,\"c\":0}", 1);
    add(closed, levels - 2);
    add("}", 1);
    json[json_length++] = 0;
}

static void take_levels(const char *label, const char *opened, const char *closed)
{
    char text[100];

    make_json(opened, closed, LAMPREYCOIL_JSON_DEPTH_MAX);
    snprintf(text, sizeof text, "check_json, 32 levels, %s", label);
    takes_below(JSON_STACK, text, check_json, 101);
    make_json(opened, closed, LAMPREYCOIL_JSON_DEPTH_MAX + 1);
    snprintf(text, sizeof text, "check_json, 33 levels, %s", label);
    takes_below(JSON_STACK, text, check_json, 1026);
}

static void take_json(void)
{
    take_levels("objects", "{\"a\":", "}");
    take_levels("each its object's second member", "{\"a\":0,\"b\":", "}");
    take_levels("each its object's first member", "{\"a\":", ",\"b\":0}");
    take_levels("arrays", "[", "]");
    take_levels("each its array's second value", "[0,", "]");
    json_length = 0;
    add("{\"a\":", 1);
    add("9", sizeof json - json_length - 2);
    add("}", 1);
    json[json_length++] = 0;
    takes_below(JSON_STACK, "check_json, a long number", check_json, 101);
    json_length = 0;
    add("{\"", 1);
    add("\xF0\x9F\x98\x80", 200000);
    add("\":0}x", 1);
    takes_below(JSON_STACK, "check_json, a long name and a wrong end", check_json, 102);
    memset(json, ' ', sizeof json);
    json_length = sizeof json;
    takes_below(JSON_STACK, "check_json, white space alone", check_json, 102);
}

static void take_commands(void)
{
    takes("write_command", write_command, 0);
    memcpy(command, buffer, sizeof command);
    command_length = sizeof command;
    takes("read_command", read_command, 0);
    memset(command, 0, sizeof command);
    takes("read_command, as many parts as can be", read_command, LAMPREYCOIL_MARK_WRONG);
}

int main(void)
{
    begin();
    make_message();
    make_frame(LAMPREYCOIL_REQUEST, 0, LAMPREYCOIL_NODEID_ANY, payload, routes, 1, LONG_BODY);
    takes("read", read_frame, 0);
    takes("read_fault, a good frame", read_fault, 0);
    frame[LAMPREYCOIL_FRONT_SIZE + 1] = 'x';
    takes("read_fault, a wrong route", read_fault, LAMPREYCOIL_ROUTE_WRONG);
    frame[LAMPREYCOIL_FRONT_SIZE + 1] = '0';
    takes("write", write_frame, 0);
    take_message();
    take_streams();
    take_json();
    take_commands();
    return 0;
}

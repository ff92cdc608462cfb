/*
 * Tests take_frames, write_log and json_text, examples of docs/C-GUIDE.md: a stream that comes in
 * by pieces of each length gives the same frames. Prints a line for each test, "passed" or
 * "FAILED".
 */
#include "floor.h"

#include "examples/json_text.c"
#include "examples/take_frames.c"
#include "examples/write_log.c"

enum { PIECE_MAX = 400, STREAM_MAX = 100000, MANY = 300 };

/* ---- a stream: what was sent, and what was taken of it */

static uint8_t sent[STREAM_MAX], taken[STREAM_MAX];
static size_t sent_length, taken_length, taken_frames;

/* The pointer that take_frames hands on is that of the count. */
static void take(void *context, const uint8_t *frame, size_t length)
{
    size_t *count = context;

    memcpy(taken + taken_length, frame, length);
    taken_length += length;
    ++*count;
}

static void send_request(size_t payload)
{
    const struct message m = {LAMPREYCOIL_REQUEST,
                              LAMPREYCOIL_TOPIC | LAMPREYCOIL_ROUTE | LAMPREYCOIL_PAYLOAD,
                              LAMPREYCOIL_NODEID_ANY,
                              "log",
                              RANKS,
                              1,
                              payload};
    static uint8_t frame[ROOM];
    size_t length = write_message(&m, frame);

    memcpy(sent + sent_length, frame, length);
    sent_length += length;
}

/* Receives what was sent, so many bytes at a time; tells what the last call told. */
static uint32_t receive(size_t piece)
{
    static struct stream stream;
    uint32_t refusal = LAMPREYCOIL_OK;
    size_t at = 0;

    stream.length = taken_length = taken_frames = 0;
    while (at < sent_length && refusal == LAMPREYCOIL_OK) {
        size_t more = sent_length - at < piece ? sent_length - at : piece;

        if (more > sizeof stream.bytes - stream.length)
            return 100;
        memcpy(stream.bytes + stream.length, sent + at, more);
        stream.length += more;
        at += more;
        refusal = take_frames(&stream, take, &taken_frames);
    }
    return refusal;
}

static void in_pieces(const char *label, size_t whole, size_t frames, uint32_t told)
{
    int good = 1;

    for (size_t piece = 1; piece <= PIECE_MAX; piece++)
        good = good && receive(piece) == told && taken_frames == frames && taken_length == whole &&
               memcmp(taken, sent, whole) == 0;
    good = good && receive(LAMPREYCOIL_FRAME_MAX) == told && taken_frames == frames;
    report(good, label);
}

/* More frames at once than take_frames has room for in its list. */
static void take_many(void)
{
    size_t one;

    sent_length = 0;
    send_request(0);
    one = sent_length;
    while (sent_length < MANY * one)
        send_request(0);
    in_pieces("300 frames", sent_length, MANY, LAMPREYCOIL_OK);
    sent_length--;
    in_pieces("300 frames, the last one torn", (MANY - 1) * one, MANY - 1, LAMPREYCOIL_OK);
}

static void take_streams(void)
{
    size_t whole;

    send_request(0);
    send_request(300);
    send_request(1);
    whole = sent_length;
    in_pieces("three frames", whole, 3, LAMPREYCOIL_OK);
    send_request(LAMPREYCOIL_BODY_MAX - 200);
    sent_length--;
    in_pieces("and a torn tail", whole, 3, LAMPREYCOIL_OK);
    sent_length++;
    in_pieces("and the tail whole", sent_length, 4, LAMPREYCOIL_OK);
    sent_length = whole;
    lampreycoil_put_number(sent + whole, 0, 0xFFEE0012);
    lampreycoil_put_number(sent + whole, 1, 1);
    sent[whole + 8] = 1;
    sent_length += 9;
    send_request(2);
    in_pieces("a frame that is refused ends the stream", whole, 3, LAMPREYCOIL_PART_WRONG);
    sent[whole] = 0xFE;
    in_pieces("a wrong start ends the stream", whole, 3, LAMPREYCOIL_START_WRONG);
    lampreycoil_put_number(sent + whole, 0, 0xFFEE0012);
    lampreycoil_put_number(sent + whole, 1, LAMPREYCOIL_BODY_MAX + 1);
    in_pieces("a body that is too long ends it", whole, 3, LAMPREYCOIL_BODY_LONG);
}

/* ---- a payload, as it comes in a frame */

static const char *text_of(const char *payload, size_t length)
{
    static uint8_t frame[ROOM];
    struct lampreycoil_message m = {0}, seen;
    size_t took = 0;

    m.type = LAMPREYCOIL_TYPE_EVENT;
    m.flags = LAMPREYCOIL_FLAG_TOPIC;
    m.topic = (const uint8_t *)"x";
    m.topic_length = 1;
    if (payload != NULL) {
        m.flags |= LAMPREYCOIL_FLAG_PAYLOAD;
        m.payload = (const uint8_t *)payload;
        m.payload_length = length;
    }
    if (lampreycoil_write_message(&m, frame, sizeof frame, &took) != LAMPREYCOIL_OK ||
        lampreycoil_read_message(frame, took, &seen, &took) != LAMPREYCOIL_OK)
        return "FAILED";
    return json_text(&seen);
}

static void take_payloads(void)
{
    static const char json[] = "{\"a\":1}";
    const char *text = text_of(json, sizeof json);

    report(text != NULL && strcmp(text, json) == 0, "json_text of JSON");
    report(text_of(json, sizeof json - 1) == NULL, "json_text of JSON without its zero byte");
    report(text_of("{\"a\":01}", sizeof "{\"a\":01}") == NULL, "json_text of no JSON");
    report(text_of("", 0) == NULL && text_of(NULL, 0) == NULL, "json_text of nothing");
}

int main(void)
{
    /* The request for "log" with matchtag 1, whole. */
    static const uint8_t log_request[] = {
        0xFF, 0xEE, 0,    0x12, 0,    0, 0, 0x1B, 0, 4,    'l',  'o',  'g',  0, 0x14, 0x8E, 1, 1,
        9,    0xFF, 0xFF, 0xFF, 0xFF, 0, 0, 0,    0, 0xFF, 0xFF, 0xFF, 0xFF, 0, 0,    0,    1};
    uint8_t out[sizeof log_request];
    size_t length = 0;

    make_floor();
    report(write_log(1, out, sizeof out, &length) == LAMPREYCOIL_OK &&
               length == sizeof log_request && memcmp(out, log_request, length) == 0,
           "write_log");
    take_streams();
    take_many();
    take_payloads();
    return 0;
}

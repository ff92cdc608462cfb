/*
 * Tests the inline functions of the header that read and write messages, which are C over the
 * calls; helpers_words.c has the others. It is C and C++ alike, and compiled as both. Prints a line
 * for each test, "passed" or "FAILED".
 */
#include <stdio.h>
#include <string.h>

#include "lampreycoil.h"

enum { FILL = 0xA5, ROUTES = LAMPREYCOIL_ROUTES_MAX + 6 };

static uint8_t routes[ROUTES * LAMPREYCOIL_ROUTE_SIZE];
static uint8_t out[LAMPREYCOIL_FRAME_MAX], again[LAMPREYCOIL_FRAME_MAX];
static const uint8_t topic[] = {'k', 'v', 's', '.', 0xFF};
static const uint8_t payload[] = {'h', 'i', 0, 0x80};

static void report(int good, const char *label)
{
    printf("%s: %s\n", good ? "passed" : "FAILED", label);
}

static void make_routes(void)
{
    char form[LAMPREYCOIL_ROUTE_SIZE];
    unsigned i;

    for (i = 0; i < ROUTES; i++) {
        snprintf(form, sizeof form, "%08x-0123-4567-89ab-cdef01234567", i);
        memcpy(routes + i * LAMPREYCOIL_ROUTE_SIZE, form, sizeof form);
    }
}

/* A response with all its parts, and no two of its numbers alike. */
static struct lampreycoil_message response(size_t count)
{
    struct lampreycoil_message m;

    memset(&m, 0, sizeof m);
    m.type = LAMPREYCOIL_TYPE_RESPONSE;
    m.flags = LAMPREYCOIL_FLAG_TOPIC | LAMPREYCOIL_FLAG_PAYLOAD | LAMPREYCOIL_FLAG_ROUTE |
              LAMPREYCOIL_FLAG_STREAMING;
    m.userid = 0x01020304;
    m.rolemask = 0x05060708;
    m.first = 38;
    m.second = 0xFFFFFFFE;
    m.routes = routes;
    m.routes_count = count;
    m.topic = topic;
    m.topic_length = sizeof topic;
    m.payload = payload;
    m.payload_length = sizeof payload;
    return m;
}

/* ---- entries of a list */

static void take_entries(void)
{
    uint8_t list[1 + 3 * LAMPREYCOIL_ENTRY_SIZE];
    struct lampreycoil_place place;

    memset(list, FILL, sizeof list);
    lampreycoil_put_number(list + 1, 0, 0);
    lampreycoil_put_number(list + 1, 1, 29);
    lampreycoil_put_number(list + 1, 4, 0x000FFEDC);
    lampreycoil_put_number(list + 1, 5, LAMPREYCOIL_FRAME_MAX);
    place = lampreycoil_entry(list + 1, 0);
    report(place.start == 0 && place.length == 29, "the first entry of a list");
    place = lampreycoil_entry(list + 1, 2);
    report(place.start == 0x000FFEDC && place.length == LAMPREYCOIL_FRAME_MAX, "the third one");
}

/* The frames that are listed lie where the entries say, and can be read from there. */
static void take_listed(void)
{
    struct lampreycoil_message m = response(1), seen;
    uint8_t list[2 * LAMPREYCOIL_ENTRY_SIZE], record[LAMPREYCOIL_STREAM_RECORD];
    size_t first = 0, second = 0, took = 0;
    struct lampreycoil_place place;
    int good = lampreycoil_write_message(&m, out, sizeof out, &first) == LAMPREYCOIL_OK;

    m.second = 77;
    m.routes_count = 2;
    good = good && lampreycoil_write_message(&m, out + first, sizeof out - first, &second) ==
                       LAMPREYCOIL_OK;
    good = good && lampreycoil_read_stream(out, first + second, list, sizeof list, record,
                                           sizeof record) == LAMPREYCOIL_OK;
    good = good && lampreycoil_number(record, LAMPREYCOIL_STREAM_ENTRIES) == 2;
    place = lampreycoil_entry(list, 1);
    report(good && place.start == first && place.length == second &&
               lampreycoil_read_message(out + place.start, place.length, &seen, &took) ==
                   LAMPREYCOIL_OK &&
               took == second && seen.second == 77,
           "a frame that was listed is read from its entry");
}

/* ---- messages written and read */

static int same_part(const uint8_t *one, size_t length, const uint8_t *two, size_t other)
{
    return length == other && memcmp(one, two, length) == 0;
}

static int same_fields(const struct lampreycoil_message *a, const struct lampreycoil_message *b)
{
    return a->type == b->type && a->flags == b->flags && a->userid == b->userid &&
           a->rolemask == b->rolemask && a->first == b->first && a->second == b->second;
}

static int same_message(const struct lampreycoil_message *a, const struct lampreycoil_message *b)
{
    size_t i;
    int good = same_fields(a, b) && a->routes_count == b->routes_count &&
               same_part(a->topic, a->topic_length, b->topic, b->topic_length) &&
               same_part(a->payload, a->payload_length, b->payload, b->payload_length);

    for (i = 0; good && i < a->routes_count; i++)
        good =
            memcmp(lampreycoil_route(a, i), lampreycoil_route(b, i), LAMPREYCOIL_ROUTE_SIZE) == 0;
    return good;
}

/* The frame is the one that the call itself writes, and is read as the message that it was. */
static void round_trip(const char *label, const struct lampreycoil_message *m)
{
    uint8_t record[LAMPREYCOIL_WRITE_RECORD];
    struct lampreycoil_message seen;
    size_t length = 0, took = 0, relength = 0;
    int good;

    memset(out, FILL, sizeof out);
    memset(again, FILL, sizeof again);
    good = lampreycoil_write_message(m, out, sizeof out, &length) == LAMPREYCOIL_OK &&
           lampreycoil_write(m->type, m->flags, m->userid, m->rolemask, m->first, m->second,
                             m->routes, m->routes_count * LAMPREYCOIL_ROUTE_SIZE, m->topic,
                             m->topic_length, m->payload, m->payload_length, again, sizeof again,
                             record, sizeof record) == LAMPREYCOIL_OK &&
           lampreycoil_number(record, LAMPREYCOIL_WRITE_LENGTH) == length &&
           memcmp(out, again, sizeof out) == 0;
    good = good && lampreycoil_read_message(out, sizeof out, &seen, &took) == LAMPREYCOIL_OK &&
           took == length && same_message(m, &seen);
    /* Written again as it was read, its routes 38 bytes apart. */
    memset(again, FILL, sizeof again);
    good = good &&
           lampreycoil_write_message(&seen, again, sizeof again, &relength) == LAMPREYCOIL_OK &&
           relength == length && memcmp(out, again, sizeof out) == 0;
    report(good, label);
}

static void take_round_trips(void)
{
    struct lampreycoil_message m = response(2);

    round_trip("a response with all its parts", &m);
    m = response(LAMPREYCOIL_ROUTES_MAX);
    round_trip("as many routes as there may be", &m);
    m.routes_count = 0;
    round_trip("no routes", &m);
    m.payload_length = 0;
    round_trip("an empty payload", &m);
    m.flags = LAMPREYCOIL_FLAG_TOPIC | LAMPREYCOIL_FLAG_ROUTE;
    round_trip("no payload", &m);
    memset(&m, 0, sizeof m);
    m.type = LAMPREYCOIL_TYPE_CONTROL;
    m.topic = m.payload = topic; /* of length 0 */
    round_trip("a header alone", &m);
}

/* ---- refusals of both, which write nothing */

static void refuses(const char *label, const struct lampreycoil_message *m, size_t room,
                    uint32_t number)
{
    size_t i, length = 77;
    int good;

    memset(out, FILL, sizeof out);
    good = lampreycoil_write_message(m, out, room, &length) == number && length == 77;
    for (i = 0; i < sizeof out; i++)
        good = good && out[i] == FILL;
    report(good, label);
}

static void take_refusals(void)
{
    struct lampreycoil_message m = response(LAMPREYCOIL_ROUTES_MAX + 1), before;
    size_t took = 77;

    refuses("65 routes", &m, sizeof out, LAMPREYCOIL_ROUTE_WRONG);
    m.routes_count = ROUTES;
    refuses("70 routes", &m, sizeof out, LAMPREYCOIL_ROUTE_WRONG);
    m.flags = LAMPREYCOIL_FLAG_TOPIC | LAMPREYCOIL_FLAG_PAYLOAD;
    refuses("routes without their flag", &m, sizeof out, LAMPREYCOIL_PARTS_DISAGREE);
    m = response(2);
    m.routes_step = 1;
    refuses("routes that are none", &m, sizeof out, LAMPREYCOIL_ROUTE_WRONG);
    m = response(2);
    refuses("an output that is too short", &m, 8, LAMPREYCOIL_OUTPUT_SHORT);
    before = m;
    memset(out, 0, sizeof out);
    report(lampreycoil_read_message(out, sizeof out, &m, &took) == LAMPREYCOIL_START_WRONG &&
               took == 77 && memcmp(&m, &before, sizeof m) == 0,
           "a refused read leaves the message as it was");
}

/* ---- a frame's length */

static uint32_t length_of(uint32_t start, uint32_t body, size_t given, size_t *length)
{
    uint8_t front[LAMPREYCOIL_FRONT_SIZE];

    lampreycoil_put_number(front, 0, start);
    lampreycoil_put_number(front, 1, body);
    *length = 77;
    return lampreycoil_frame_length(front, given, length);
}

static void take_lengths(void)
{
    const uint32_t start = 0xFFEE0012;
    struct lampreycoil_message m = response(3);
    size_t written = 0, length = 0, given;
    int good = 1;

    report(length_of(start, 0, 8, &length) == LAMPREYCOIL_OK && length == 8, "no body");
    report(length_of(start, 32768, 8, &length) == LAMPREYCOIL_OK && length == LAMPREYCOIL_FRAME_MAX,
           "the longest body");
    report(length_of(start, 32769, 8, &length) == LAMPREYCOIL_BODY_LONG && length == 77,
           "a body that is too long");
    report(length_of(start, 0xFFFFFFFF, 8, &length) == LAMPREYCOIL_BODY_LONG && length == 77,
           "a body of 4 GiB");
    report(length_of(start + 1, 32769, 8, &length) == LAMPREYCOIL_START_WRONG && length == 77,
           "a wrong start");
    for (given = 0; given < LAMPREYCOIL_FRONT_SIZE; given++)
        good =
            good && length_of(start, 21, given, &length) == LAMPREYCOIL_INPUT_SHORT && length == 77;
    report(good, "fewer than eight bytes");
    good = lampreycoil_write_message(&m, out, sizeof out, &written) == LAMPREYCOIL_OK;
    for (given = LAMPREYCOIL_FRONT_SIZE; given <= written; given++)
        good = good && lampreycoil_frame_length(out, given, &length) == LAMPREYCOIL_OK &&
               length == written;
    report(good, "a frame's length while it comes in");
}

int main(void)
{
    make_routes();
    take_entries();
    take_listed();
    take_round_trips();
    take_refusals();
    take_lengths();
    return 0;
}

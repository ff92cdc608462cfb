/*
 * Tests the examples of docs/C-GUIDE.md that make tables, push and pop a client's route, reply with
 * an error, and hand a Majordomo request on. Prints a line for each test, "passed" or "FAILED".
 */
#include <stdio.h>
#include <string.h>

#include "lampreycoil.h"

#include "examples/client_route.c"
#include "examples/hand_on.c"
#include "examples/make_tables.c"
#include "examples/reply_error.c"
#include "examples/write_log.c"

enum { ROOM = LAMPREYCOIL_WALK_ROOM, PLAIN = LAMPREYCOIL_FLAG_TOPIC | LAMPREYCOIL_FLAG_ROUTE };

static const uint8_t client[] = "cccccccc-0123-4567-89ab-cdef01234567";
static struct tables tables;
static uint8_t frame[ROOM], other[ROOM], buffer[ROOM];

static void report(int good, const char *label)
{
    printf("%s: %s\n", good ? "passed" : "FAILED", label);
}

/* Writes a message with so many routes, all of them the client's, to frame; tells its length. */
static size_t write_frame(uint8_t type, uint8_t flags, uint32_t first, const char *topic,
                          size_t routes)
{
    static uint8_t stack[LAMPREYCOIL_ROUTES_MAX * LAMPREYCOIL_ROUTE_SIZE];
    struct lampreycoil_message m;
    size_t length = 0, i;

    for (i = 0; i < routes; i++)
        memcpy(stack + i * LAMPREYCOIL_ROUTE_SIZE, client, LAMPREYCOIL_ROUTE_SIZE);
    memset(&m, 0, sizeof m);
    m.type = type;
    m.flags = flags;
    m.userid = 1000;
    m.first = first;
    m.second = 7;
    m.routes = stack;
    m.routes_count = routes;
    m.topic = (const uint8_t *)topic;
    m.topic_length = strlen(topic);
    if (lampreycoil_write_message(&m, frame, sizeof frame, &length) != LAMPREYCOIL_OK)
        return 0;
    return length;
}

/* The walk of what is in buffer: the answer, where there is one. */
static uint32_t walk(uint32_t rank, uint8_t *record)
{
    if (lampreycoil_walk(tables.tree, sizeof tables.tree, tables.services, sizeof tables.services,
                         tables.identities, sizeof tables.identities, rank, buffer, sizeof buffer,
                         record, LAMPREYCOIL_WALK_RECORD) != LAMPREYCOIL_OK)
        return 0;
    return lampreycoil_number(record, LAMPREYCOIL_WALK_ANSWER);
}

static uint32_t step(uint32_t rank, uint8_t *record)
{
    return lampreycoil_step(tables.tree, sizeof tables.tree, tables.services,
                            sizeof tables.services, tables.identities, sizeof tables.identities,
                            rank, buffer, sizeof buffer, record, LAMPREYCOIL_STEP_RECORD);
}

/* A request of a client of rank 2 is delivered at rank 0, and its response is home with the client.
 */
static void test_client(void)
{
    uint8_t record[LAMPREYCOIL_WALK_RECORD], whose[LAMPREYCOIL_ROUTE_SIZE];
    size_t length = 0, took, plain;
    struct lampreycoil_message m;
    int good;

    good = write_log(7, frame, sizeof frame, &plain) == LAMPREYCOIL_OK &&
           push_client(frame, plain, client, buffer, sizeof buffer, &length) == LAMPREYCOIL_OK &&
           length == plain + LAMPREYCOIL_ROUTE_STEP && walk(2, record) == LAMPREYCOIL_DELIVERED &&
           lampreycoil_number(record, LAMPREYCOIL_WALK_RANK) == 0 &&
           lampreycoil_read_message(buffer, sizeof buffer, &m, &took) == LAMPREYCOIL_OK &&
           m.routes_count == 2 &&
           memcmp(lampreycoil_route(&m, 1), client, LAMPREYCOIL_ROUTE_SIZE) == 0;
    report(good, "push_client: the request is delivered, the client's route below");
    /* the service's response, with the request's routes */
    m.type = LAMPREYCOIL_TYPE_RESPONSE;
    m.first = 0;
    good = good && lampreycoil_write_message(&m, other, sizeof other, &length) == LAMPREYCOIL_OK;
    memset(buffer, 0, sizeof buffer);
    memcpy(buffer, other, length);
    good =
        good && walk(0, record) == LAMPREYCOIL_HOME &&
        lampreycoil_number(record, LAMPREYCOIL_WALK_RANK) == 2 &&
        pop_client(buffer, sizeof buffer, whose, other, sizeof other, &length) == LAMPREYCOIL_OK &&
        memcmp(whose, client, LAMPREYCOIL_ROUTE_SIZE) == 0 && length == plain &&
        lampreycoil_read_message(other, length, &m, &took) == LAMPREYCOIL_OK &&
        m.routes_count == 0 && m.type == LAMPREYCOIL_TYPE_RESPONSE && m.second == 7;
    report(good, "pop_client: the response is home, and the client is found");

    length = write_frame(LAMPREYCOIL_TYPE_RESPONSE, PLAIN, 0, "log", 0);
    good = pop_client(frame, length, whose, other, sizeof other, &took) == LAMPREYCOIL_OK &&
           whose[0] == 0 && took == length && memcmp(frame, other, length) == 0;
    report(good, "pop_client: a response without routes is the broker's own");
    length = write_frame(LAMPREYCOIL_TYPE_REQUEST, PLAIN, LAMPREYCOIL_NODEID_ANY, "log",
                         LAMPREYCOIL_ROUTES_MAX);
    report(push_client(frame, length, client, other, sizeof other, &took) ==
               LAMPREYCOIL_ROUTE_WRONG,
           "push_client: a 65th route is 8");
}

/* The daemon's own reply is the one that the step makes. */
static void replies_alike(const char *label, uint8_t flags)
{
    uint8_t record[LAMPREYCOIL_STEP_RECORD];
    size_t length =
               write_frame(LAMPREYCOIL_TYPE_REQUEST, flags, LAMPREYCOIL_NODEID_ANY, "kvs.get", 2),
           reply = 0;
    int good = length > 0 && reply_error(frame, length, LAMPREYCOIL_NO_SERVICE, other, sizeof other,
                                         &reply) == LAMPREYCOIL_OK;

    memcpy(buffer, frame, length);
    good = good && step(0, record) == LAMPREYCOIL_OK &&
           lampreycoil_number(record, LAMPREYCOIL_STEP_ANSWER) == LAMPREYCOIL_REPLIED &&
           lampreycoil_number(record, LAMPREYCOIL_STEP_LENGTH) == reply &&
           memcmp(buffer, other, reply) == 0;
    report(good, label);
}

static void test_reply(void)
{
    uint8_t record[LAMPREYCOIL_STEP_RECORD];
    struct lampreycoil_message m;
    size_t length, reply = 1, took;

    replies_alike("reply_error: the step's own reply", PLAIN);
    replies_alike("reply_error: the same of a stream", PLAIN | LAMPREYCOIL_FLAG_STREAMING);
    length = write_frame(LAMPREYCOIL_TYPE_REQUEST, PLAIN | LAMPREYCOIL_FLAG_NORESPONSE,
                         LAMPREYCOIL_NODEID_ANY, "kvs.get", 2);
    report(reply_error(frame, length, 90, other, sizeof other, &reply) == LAMPREYCOIL_OK &&
               reply == 0,
           "reply_error: none where none is wanted");
    length = write_frame(LAMPREYCOIL_TYPE_REQUEST, PLAIN, LAMPREYCOIL_NODEID_ANY, "log",
                         LAMPREYCOIL_ROUTES_MAX);
    memcpy(buffer, frame, length);
    report(step(1, record) == LAMPREYCOIL_FORWARD_LONG &&
               reply_error(buffer, length, 90, other, sizeof other, &reply) == LAMPREYCOIL_OK &&
               reply <= length &&
               lampreycoil_read_message(other, reply, &m, &took) == LAMPREYCOIL_OK &&
               m.type == LAMPREYCOIL_TYPE_RESPONSE && m.first == 90 && m.second == 7 &&
               m.routes_count == LAMPREYCOIL_ROUTES_MAX,
           "reply_error: of a request that is refused with 12");
}

/* A client's request for echo, with the parts "hi" and none, becomes the worker's. */
static void test_hand_on(void)
{
    static const uint8_t parts[] = "\2hi";
    static const uint8_t name[] = {'e', 'c', 'h', 'o'};
    uint8_t record[LAMPREYCOIL_READ_COMMAND_RECORD];
    size_t length = 0, asked;
    int good = lampreycoil_write_command(LAMPREYCOIL_CLIENT, LAMPREYCOIL_CLIENT_REQUEST, name,
                                         sizeof name, NULL, 0, parts, sizeof parts, frame,
                                         sizeof frame, record, sizeof record) == LAMPREYCOIL_OK;

    asked = lampreycoil_number(record, LAMPREYCOIL_WRITE_COMMAND_LENGTH);
    good = good && asked == 9 + 5 + sizeof parts &&
           hand_on(frame, asked, client, other, sizeof other, &length) == LAMPREYCOIL_OK &&
           length == 9 + LAMPREYCOIL_ROUTE_STEP + 1 + sizeof parts &&
           lampreycoil_read_command(other, length, record, sizeof record) == LAMPREYCOIL_OK &&
           lampreycoil_number(record, LAMPREYCOIL_READ_COMMAND_SENDER) == LAMPREYCOIL_WORKER &&
           memcmp(other + lampreycoil_number(record, LAMPREYCOIL_READ_COMMAND_ADDRESS_START),
                  client, LAMPREYCOIL_ROUTE_SIZE) == 0 &&
           lampreycoil_number(record, LAMPREYCOIL_READ_COMMAND_BODY_PARTS) == 2 &&
           memcmp(other + lampreycoil_number(record, LAMPREYCOIL_READ_COMMAND_BODY_START), parts,
                  sizeof parts) == 0;
    report(good, "hand_on: a client's request is a worker's, with the same body");
    report(good && hand_on(other, length, client, frame, sizeof frame, &asked) ==
                       LAMPREYCOIL_COMMAND_WRONG,
           "hand_on: a worker's command is 33");
}

int main(void)
{
    uint8_t small[LAMPREYCOIL_SERVICE_SIZE];

    report(make_tables(&tables) == LAMPREYCOIL_OK, "make_tables");
    put_service(small, 1, "a-name-of-28-bytes-is-1-more");
    report(lampreycoil_check_services(tables.tree, sizeof tables.tree, small, sizeof small) ==
               LAMPREYCOIL_SERVICES_WRONG,
           "put_service: a name that is too long");
    test_client();
    test_reply();
    test_hand_on();
    return 0;
}

/*
 * What the tests of the step and of the walk share: the floor of paper 01 (parents
 * none,0,0,1,1,2,2; services bench at 1 and 4, log at 0), messages on it, and the line that a test
 * writes.
 */
#include <stdio.h>
#include <string.h>

#include "lampreycoil.h"

enum { RANKS = 7, SERVICES = 3, ROOM = LAMPREYCOIL_FRAME_MAX + 100, FILL = 0xA5 };

static uint8_t tree[RANKS * LAMPREYCOIL_RANK_SIZE];
static uint8_t services[SERVICES * LAMPREYCOIL_SERVICE_SIZE];
static uint8_t identities[(LAMPREYCOIL_ROUTES_MAX + 1) * LAMPREYCOIL_ROUTE_SIZE];

static void set_parent(int rank, uint32_t parent)
{
    for (int i = 0; i < 4; i++)
        tree[rank * 4 + i] = (uint8_t)(parent >> (24 - 8 * i));
}

static void set_service(int record, uint8_t rank, const char *name)
{
    uint8_t *at = services + record * LAMPREYCOIL_SERVICE_SIZE;

    at[3] = rank;
    at[4] = (uint8_t)strlen(name);
    memcpy(at + 5, name, strlen(name));
}

/* What the payloads are made of. */
static uint8_t text[LAMPREYCOIL_BODY_MAX];

static void make_floor(void)
{
    set_parent(0, LAMPREYCOIL_NO_PARENT);
    for (int rank = 1; rank < RANKS; rank++)
        set_parent(rank, (uint32_t)(rank - 1) / 2);
    set_service(0, 1, "bench");
    set_service(1, 4, "bench");
    set_service(2, 0, "log");
    /* Of the routes only the first RANKS are brokers'. */
    for (unsigned i = 0; i <= LAMPREYCOIL_ROUTES_MAX; i++)
        snprintf((char *)identities + i * LAMPREYCOIL_ROUTE_SIZE, LAMPREYCOIL_ROUTE_SIZE,
                 "%08x-0123-4567-89ab-cdef01234567", i);
    memset(text, 'x', sizeof text);
}

/* A message: its routes are so many in a row, from the one with the number top on. */
struct message {
    uint8_t type, flags;
    uint32_t first;
    const char *topic;
    int top, routes;
    size_t payload;
};

/*
 * Writes a message's frame into out, of which the rest is filled, with the identities of these
 * brokers, the last one on top, above its own routes; tells the frame's length.
 */
static size_t write_passed(const struct message *m, const uint32_t *brokers, size_t count,
                           uint8_t *out)
{
    uint8_t routes[(LAMPREYCOIL_ROUTES_MAX + 8) * LAMPREYCOIL_ROUTE_SIZE];
    size_t own = (size_t)m->routes * LAMPREYCOIL_ROUTE_SIZE;
    uint8_t record[LAMPREYCOIL_WRITE_RECORD] = {0};
    uint32_t userid = m->type == LAMPREYCOIL_RESPONSE ? LAMPREYCOIL_USERID_UNKNOWN : 1000;

    for (size_t i = 0; i < count; i++)
        memcpy(routes + (count - 1 - i) * LAMPREYCOIL_ROUTE_SIZE,
               identities + brokers[i] * LAMPREYCOIL_ROUTE_SIZE, LAMPREYCOIL_ROUTE_SIZE);
    memcpy(routes + count * LAMPREYCOIL_ROUTE_SIZE, identities + m->top * LAMPREYCOIL_ROUTE_SIZE,
           own);
    memset(out, FILL, ROOM);
    if (lampreycoil_write(m->type, m->flags, userid, 0, m->first,
                          m->type == LAMPREYCOIL_EVENT ? 0 : 5, routes,
                          count * LAMPREYCOIL_ROUTE_SIZE + own, (const uint8_t *)m->topic,
                          strlen(m->topic), text, m->payload, out, ROOM, record, sizeof record))
        printf("FAILED: a message for '%s' is not written\n", m->topic);
    return lampreycoil_number(record, LAMPREYCOIL_WRITE_LENGTH);
}

static size_t write_message(const struct message *m, uint8_t *out)
{
    return write_passed(m, NULL, 0, out);
}

static void report(int good, const char *label)
{
    printf("%s: %s\n", good ? "passed" : "FAILED", label);
}

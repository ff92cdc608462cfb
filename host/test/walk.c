/*
 * Tests lampreycoil_walk through the header, on the floor of paper 01: the walks W1 to W11 with
 * their responses' walks home, then walks that are refused. Prints a line for each test, "passed"
 * or "FAILED".
 */
#include "floor.h"

static uint8_t buffer[ROOM], want[ROOM];

static uint32_t walk(uint32_t rank, size_t room, uint8_t *record, size_t record_length)
{
    return lampreycoil_walk(tree, sizeof tree, services, sizeof services, identities,
                            RANKS * LAMPREYCOIL_ROUTE_SIZE, rank, buffer, room, record,
                            record_length);
}

/* The walk of what is in buffer returns so, lists these numbers and nothing else, and leaves want.
 */
static int comes_to(uint32_t entry, size_t room, uint32_t refusal, const uint32_t *numbers)
{
    uint8_t record[LAMPREYCOIL_WALK_RECORD + 4];
    int good;

    memset(record, FILL, sizeof record);
    good = walk(entry, room, record, sizeof record) == refusal && memcmp(buffer, want, ROOM) == 0;
    for (size_t i = 0; i < LAMPREYCOIL_WALK_RECORD / 4; i++)
        good = good && lampreycoil_number(record, i) == numbers[i];
    for (size_t i = LAMPREYCOIL_WALK_RECORD; i < sizeof record; i++)
        good = good && record[i] == FILL;
    return good;
}

/* ---- the walks of paper 01 */

enum { ANY = -1, NOWHERE = 7 };

static const struct row {
    const char *label;
    int nodeid;
    uint8_t more; /* flags, besides those of the topic and the routes */
    const char *topic;
    uint32_t answer, number, error;
    uint32_t links, brokers[5]; /* those visited, from the entry to the end */
} rows[] = {
    {"W1", ANY, 0, "bench.run", LAMPREYCOIL_DELIVERED, 0, 0, 1, {3, 1}},
    {"W2", ANY, 0, "bench.run", LAMPREYCOIL_DELIVERED, 1, 0, 0, {4}},
    {"W3", ANY, 0, "bench.run", LAMPREYCOIL_REPLIED, 0, 38, 2, {5, 2, 0}},
    {"W4", ANY, 0, "log", LAMPREYCOIL_DELIVERED, 2, 0, 2, {5, 2, 0}},
    {"W5", 4, 0, "bench.run", LAMPREYCOIL_DELIVERED, 1, 0, 4, {6, 2, 0, 1, 4}},
    {"W6", 5, 0, "bench.run", LAMPREYCOIL_REPLIED, 0, 38, 4, {3, 1, 0, 2, 5}},
    {"W7", NOWHERE, 0, "bench.run", LAMPREYCOIL_REPLIED, 0, 113, 0, {3}},
    {"W8", 4, LAMPREYCOIL_UPSTREAM, "bench.run", LAMPREYCOIL_DELIVERED, 0, 0, 1, {4, 1}},
    {"W9", 0, LAMPREYCOIL_UPSTREAM, "log.put", LAMPREYCOIL_REPLIED, 0, 38, 0, {0}},
    {"W10", ANY, 0, "benchmark.run", LAMPREYCOIL_REPLIED, 0, 38, 2, {3, 1, 0}},
    {"W11", ANY, LAMPREYCOIL_NORESPONSE, "bench.run", LAMPREYCOIL_SILENCED, 0, 38, 2, {5, 2, 0}},
    /* Upstream, the rank that the nodeid names is skipped, wherever it stands, and no other. */
    {"past 5", 5, LAMPREYCOIL_UPSTREAM, "bench.run", LAMPREYCOIL_DELIVERED, 1, 0, 0, {4}},
    {"past 1", 1, LAMPREYCOIL_UPSTREAM, "bench.run", LAMPREYCOIL_REPLIED, 0, 38, 2, {3, 1, 0}},
    {"past 7", NOWHERE, LAMPREYCOIL_UPSTREAM, "log", LAMPREYCOIL_DELIVERED, 2, 0, 0, {0}},
};

/*
 * The request, with a client's route and a payload, ends as its row says. Then its response, or the
 * error reply that was left, goes home with that route alone.
 */
static void walks(const struct row *w)
{
    const uint8_t plain = LAMPREYCOIL_TOPIC | LAMPREYCOIL_ROUTE;
    const uint8_t full = LAMPREYCOIL_TOPIC | LAMPREYCOIL_ROUTE | LAMPREYCOIL_PAYLOAD;
    const uint32_t nodeid = w->nodeid == ANY ? LAMPREYCOIL_NODEID_ANY : (uint32_t)w->nodeid;
    const struct message request = {
        LAMPREYCOIL_REQUEST, (uint8_t)(full | w->more), nodeid, w->topic, RANKS, 1, 300};
    const struct message reply = {LAMPREYCOIL_RESPONSE, plain, w->error, w->topic, RANKS, 1, 0};
    const struct message response = {LAMPREYCOIL_RESPONSE, full, 0, w->topic, RANKS, 1, 1000};
    const int replied = w->answer == LAMPREYCOIL_REPLIED;
    const struct message *back = replied ? &reply : &response;
    const uint32_t entry = w->brokers[0], rest = w->brokers[w->links];
    size_t length;
    char label[40];

    write_message(&request, buffer);
    length = write_passed(replied ? &reply : &request, w->brokers, w->links, want);
    if (w->links > 0 || replied)
        memset(want + length, 0, ROOM - length);
    snprintf(label, sizeof label, "%s", w->label);
    report(comes_to(entry, ROOM, LAMPREYCOIL_OK,
                    (uint32_t[]){w->answer, w->number, w->error, (uint32_t)length, rest, w->links}),
           label);

    if (!replied)
        write_passed(&response, w->brokers, w->links, buffer);
    length = write_message(back, want);
    if (w->links > 0 || replied)
        memset(want + length, 0, ROOM - length);
    snprintf(label, sizeof label, "%s, its response's way home", w->label);
    report(comes_to(rest, ROOM, LAMPREYCOIL_OK,
                    (uint32_t[]){LAMPREYCOIL_HOME, 0, 0, (uint32_t)length, entry, w->links}),
           label);
}

/* ---- walks that are refused */

/*
 * The walk is refused with this number, at this rank and after these links: its record says so. The
 * buffer has what the last link left, or what was there.
 */
static void refuses(const char *label, uint32_t entry, const struct message *given, size_t room,
                    uint32_t number, uint32_t rank, uint32_t links, const struct message *left,
                    const uint32_t *above)
{
    size_t length;

    write_message(given, buffer);
    length = write_passed(left, above, above ? 1 : 0, want);
    if (links > 0)
        memset(want + length, 0, ROOM - length);
    report(comes_to(entry, room, number, (uint32_t[]){0, 0, 0, 0, rank, links}), label);
}

/* A record that is too short: 11, and nothing is written. */
static void short_record(const char *label, uint32_t entry, const struct message *given,
                         size_t room)
{
    uint8_t record[LAMPREYCOIL_WALK_RECORD];
    int good;

    write_message(given, buffer);
    write_message(given, want);
    memset(record, FILL, sizeof record);
    good = walk(entry, room, record, sizeof record - 1) == LAMPREYCOIL_OUTPUT_SHORT &&
           memcmp(buffer, want, ROOM) == 0;
    for (size_t i = 0; i < sizeof record; i++)
        good = good && record[i] == FILL;
    report(good, label);
}

int main(void)
{
    const uint32_t any = LAMPREYCOIL_NODEID_ANY, rank_5 = 5;
    const uint8_t plain = LAMPREYCOIL_TOPIC | LAMPREYCOIL_ROUTE;
    const struct message log = {LAMPREYCOIL_REQUEST, plain, any, "log", RANKS, 1, 0};
    const struct message most = {LAMPREYCOIL_REQUEST, plain, any, "log", 1, 63, 0};
    const struct message event = {LAMPREYCOIL_EVENT, LAMPREYCOIL_TOPIC, 0, "up", 0, 0, 0};
    const struct message astray = {LAMPREYCOIL_RESPONSE, plain, 0, "log", 1, 2, 0};
    const struct message left_astray = {LAMPREYCOIL_RESPONSE, plain, 0, "log", 2, 1, 0};

    make_floor();
    for (size_t n = 0; n < sizeof rows / sizeof rows[0]; n++)
        walks(&rows[n]);

    short_record("a record of 23 bytes is 11", 5, &log, ROOM);
    refuses("a buffer of 32,775 bytes is 11", 5, &log, LAMPREYCOIL_WALK_ROOM - 1,
            LAMPREYCOIL_OUTPUT_SHORT, 5, 0, &log, NULL);
    refuses("rank 7 is 17", 7, &log, ROOM, LAMPREYCOIL_RANK_WRONG, 7, 0, &log, NULL);
    refuses("an event is 18", 5, &event, ROOM, LAMPREYCOIL_NOT_ROUTED, 5, 0, &event, NULL);
    refuses("a 65th route behind the first link is 12", 5, &most, ROOM, LAMPREYCOIL_FORWARD_LONG, 2,
            1, &most, &rank_5);
    refuses("a top route that is no neighbour behind the first link is 19", 3, &astray, ROOM,
            LAMPREYCOIL_NO_NEIGHBOUR, 1, 1, &left_astray, NULL);
    set_parent(6, 6);
    refuses("a wrong tree is 14, at any rank", 4000000000u, &log, ROOM, LAMPREYCOIL_TREE_WRONG,
            4000000000u, 0, &log, NULL);
    refuses("a short buffer is 11 before a wrong tree", 8, &log, 0, LAMPREYCOIL_OUTPUT_SHORT, 8, 0,
            &log, NULL);
    short_record("a short record is 11 before a short buffer", 8, &log, 0);
    return 0;
}

/*
 * Tests lampreycoil_step through the header, on the floor of paper 01. Then gives messages to
 * take_message and is_delivered, examples of docs/C-GUIDE.md. Prints a line for each test, "passed"
 * or "FAILED".
 */
#include "floor.h"

#include "examples/is_delivered.c"
#include "examples/take_message.c"

static const struct broker at_rank_0 = {
    tree, services, identities, sizeof tree, sizeof services, RANKS *LAMPREYCOIL_ROUTE_SIZE, 0};
static const struct floor_tables on_floor = {
    tree, services, identities, sizeof tree, sizeof services, RANKS *LAMPREYCOIL_ROUTE_SIZE};

static uint32_t step(uint32_t rank, uint8_t *buffer, size_t room, uint8_t *record,
                     size_t record_length)
{
    return lampreycoil_step(tree, sizeof tree, services, sizeof services, identities,
                            RANKS * LAMPREYCOIL_ROUTE_SIZE, rank, buffer, room, record,
                            record_length);
}

static uint8_t buffer[ROOM], want[ROOM];

/* The step answers so, and leaves the frame of `left`, or what was there if that is NULL. */
static void answers(const char *label, uint32_t rank, const struct message *given, uint32_t answer,
                    uint32_t number, uint32_t error, const struct message *left)
{
    uint8_t record[LAMPREYCOIL_STEP_RECORD + 4];
    size_t length = write_message(given, buffer);
    uint32_t refusal;
    int good;

    write_message(given, want);
    if (left) {
        length = write_message(left, want);
        memset(want + length, 0, ROOM - length);
    }
    memset(record, FILL, sizeof record);
    refusal = step(rank, buffer, ROOM, record, sizeof record);
    good = refusal == LAMPREYCOIL_OK && memcmp(buffer, want, ROOM) == 0 &&
           lampreycoil_number(record, LAMPREYCOIL_STEP_ANSWER) == answer &&
           lampreycoil_number(record, LAMPREYCOIL_STEP_NUMBER) == number &&
           lampreycoil_number(record, LAMPREYCOIL_STEP_ERROR) == error &&
           lampreycoil_number(record, LAMPREYCOIL_STEP_LENGTH) == length;
    for (size_t i = LAMPREYCOIL_STEP_RECORD; i < sizeof record; i++)
        good = good && record[i] == FILL;
    report(good, label);
}

/* The step is refused with this number, and has written nothing. */
static void refuses(const char *label, uint32_t rank, const struct message *given, size_t room,
                    size_t record_length, uint32_t number)
{
    uint8_t record[LAMPREYCOIL_STEP_RECORD];
    uint32_t refusal;
    int good;

    write_message(given, buffer);
    write_message(given, want);
    memset(record, FILL, sizeof record);
    refusal = step(rank, buffer, room, record, record_length);
    good = refusal == number && memcmp(buffer, want, ROOM) == 0;
    for (size_t i = 0; i < sizeof record; i++)
        good = good && record[i] == FILL;
    report(good, label);
}

/* What the daemon of the example was told to do, in words. */
static char told[200];

static void tell(const char *what, uint32_t number, size_t length)
{
    size_t used = strlen(told);

    snprintf(told + used, sizeof told - used, "%s %u (%zu); ", what, (unsigned)number, length);
}

void give_to_service(uint32_t record, const uint8_t *frame, size_t length)
{
    tell(frame == buffer ? "service" : "another buffer", record, length);
}

void send_to_broker(uint32_t rank, const uint8_t *frame, size_t length)
{
    tell(frame == buffer ? "broker" : "another buffer", rank, length);
}

void give_to_client(const uint8_t *frame, size_t length)
{
    tell(frame == buffer ? "client" : "another buffer", 0, length);
}

void note_silence(uint32_t error)
{
    tell("silence", error, 0);
}

void note_refusal(uint32_t refusal, const uint8_t *frame, size_t length)
{
    tell(frame == buffer ? "refusal" : "another buffer", refusal, length);
}

/* A request that enters at this rank ends so; where it is delivered, at rest. */
static void ends(const char *label, uint32_t entry, const struct message *given, int delivered,
                 uint32_t rest)
{
    uint32_t rank = RANKS;

    write_message(given, buffer);
    report(is_delivered(&on_floor, entry, buffer, ROOM, &rank) == delivered && rank == rest, label);
}

/* The daemon of this rank does so with a message, and leaves what is behind a route's room. */
static void does(const char *label, uint32_t rank, const struct message *given, const char *so)
{
    struct broker b = at_rank_0;
    size_t length = write_message(given, buffer);
    int good;

    b.rank = rank;
    told[0] = '\0';
    take_message(&b, buffer, length);
    good = strcmp(told, so) == 0;
    for (size_t i = length + LAMPREYCOIL_ROUTE_STEP; i < ROOM; i++)
        good = good && buffer[i] == FILL;
    report(good, label);
}

enum {
    PLAIN = LAMPREYCOIL_TOPIC | LAMPREYCOIL_ROUTE,
    FULL = PLAIN | LAMPREYCOIL_PAYLOAD,
    SILENT = PLAIN | LAMPREYCOIL_NORESPONSE,
    UPSTREAM = PLAIN | LAMPREYCOIL_UPSTREAM,
    BENCH_LENGTH = 8 + 1 + 11 + 21
};

static const struct message bench = {
    LAMPREYCOIL_REQUEST, PLAIN, LAMPREYCOIL_NODEID_ANY, "bench.run", 0, 0, 0};
static const struct message bench_3 = {
    LAMPREYCOIL_REQUEST, PLAIN, LAMPREYCOIL_NODEID_ANY, "bench.run", 3, 1, 0};
static const struct message past_4 = {LAMPREYCOIL_REQUEST, UPSTREAM, 4, "bench.run", 0, 0, 0};
static const struct message past_4_up = {LAMPREYCOIL_REQUEST, UPSTREAM, 4, "bench.run", 4, 1, 0};
static const struct message past_5 = {LAMPREYCOIL_REQUEST, UPSTREAM, 5, "bench.run", 0, 0, 0};
static const struct message past_7 = {LAMPREYCOIL_REQUEST, UPSTREAM, 7, "bench.run", 0, 0, 0};
static const struct message past_0 = {LAMPREYCOIL_REQUEST, UPSTREAM, 0, "log", 0, 0, 0};
static const struct message past_0_38 = {LAMPREYCOIL_RESPONSE, PLAIN, 38, "log", 0, 0, 0};
static const struct message past_any = {
    LAMPREYCOIL_REQUEST, UPSTREAM, LAMPREYCOIL_NODEID_ANY, "bench.run", 0, 0, 0};
static const struct message kvs = {
    LAMPREYCOIL_REQUEST, FULL, LAMPREYCOIL_NODEID_ANY, "kvs.get", 1, 2, 300};
static const struct message kvs_38 = {LAMPREYCOIL_RESPONSE, PLAIN, 38, "kvs.get", 1, 2, 0};
static const struct message far = {LAMPREYCOIL_REQUEST, PLAIN, 7, "bench.run", 0, 0, 0};
static const struct message far_113 = {LAMPREYCOIL_RESPONSE, PLAIN, 113, "bench.run", 0, 0, 0};
static const struct message quiet = {
    LAMPREYCOIL_REQUEST, SILENT, LAMPREYCOIL_NODEID_ANY, "kvs.get", 0, 0, 0};
static const struct message back = {LAMPREYCOIL_RESPONSE, FULL, 0, "kvs.get", 1, 1, 300};
static const struct message back_home = {LAMPREYCOIL_RESPONSE, FULL, 0, "kvs.get", 1, 0, 300};
static const struct message most = {
    LAMPREYCOIL_REQUEST, PLAIN, LAMPREYCOIL_NODEID_ANY, "x", 1, 64, 0};
static const struct message event = {LAMPREYCOIL_EVENT, LAMPREYCOIL_TOPIC, 0, "up", 0, 0, 0};

static void test_answers(void)
{
    answers("1: delivered, with its record", 4, &bench, LAMPREYCOIL_DELIVERED, 1, 0, NULL);
    answers("2: a request goes up, with our identity", 3, &bench, LAMPREYCOIL_FORWARD, 1, 0,
            &bench_3);
    answers("2: a response goes on, without its top route", 3, &back, LAMPREYCOIL_FORWARD, 1, 0,
            &back_home);
    answers("3: an error reply, 38", 0, &kvs, LAMPREYCOIL_REPLIED, 0, LAMPREYCOIL_NO_SERVICE,
            &kvs_38);
    answers("3: an error reply, 113", 3, &far, LAMPREYCOIL_REPLIED, 0, LAMPREYCOIL_NO_RANK,
            &far_113);
    answers("4: silenced", 0, &quiet, LAMPREYCOIL_SILENCED, 0, LAMPREYCOIL_NO_SERVICE, NULL);
    answers("5: home", 3, &back_home, LAMPREYCOIL_HOME, 0, 0, NULL);
}

static void test_upstream(void)
{
    answers("upstream, the named rank is skipped", 4, &past_4, LAMPREYCOIL_FORWARD, 1, 0,
            &past_4_up);
    answers("upstream, another rank tries its services", 1, &past_4, LAMPREYCOIL_DELIVERED, 0, 0,
            NULL);
    answers("upstream, the entry too, where another is named", 4, &past_5, LAMPREYCOIL_DELIVERED, 1,
            0, NULL);
    answers("upstream, rank 7 skips nobody", 4, &past_7, LAMPREYCOIL_DELIVERED, 1, 0, NULL);
    answers("upstream, rank 0 that is named is 38", 0, &past_0, LAMPREYCOIL_REPLIED, 0,
            LAMPREYCOIL_NO_SERVICE, &past_0_38);
    answers("upstream for any rank is as without", 4, &past_any, LAMPREYCOIL_DELIVERED, 1, 0, NULL);
}

static void test_refusals(void)
{
    refuses("a record of 15 bytes is 11", 9, &bench, ROOM, 15, LAMPREYCOIL_OUTPUT_SHORT);
    refuses("a buffer without room for a route is 11", 3, &bench, BENCH_LENGTH + 37, 16,
            LAMPREYCOIL_OUTPUT_SHORT);
    refuses("a 65th route is 12", 3, &most, ROOM, 16, LAMPREYCOIL_FORWARD_LONG);
    refuses("rank 7 is 17", 7, &bench, ROOM, 16, LAMPREYCOIL_RANK_WRONG);
    refuses("a frame cut short is 1", 3, &bench, BENCH_LENGTH - 1, 16, LAMPREYCOIL_INPUT_SHORT);
    refuses("an event is 18", 3, &event, ROOM, 16, LAMPREYCOIL_NOT_ROUTED);
    refuses("a top route that is our own is 19", 1, &back, ROOM, 16, LAMPREYCOIL_NO_NEIGHBOUR);
    services[3] = RANKS;
    refuses("a service at rank 7 is 15", 9, &event, ROOM, 16, LAMPREYCOIL_SERVICES_WRONG);
    services[3] = 1;
}

static void test_examples(void)
{
    does("C-GUIDE.md: delivered", 4, &bench, "service 1 (41); ");
    does("C-GUIDE.md: forwarded", 3, &bench, "broker 1 (79); ");
    does("C-GUIDE.md: a reply goes to the broker below", 0, &kvs, "broker 1 (77); ");
    does("C-GUIDE.md: a reply to a client", 3, &far, "client 0 (41); ");
    does("C-GUIDE.md: silenced", 0, &quiet, "silence 38 (0); ");
    does("C-GUIDE.md: home", 3, &back_home, "client 0 (344); ");
    does("C-GUIDE.md: refused", 7, &bench, "refusal 17 (41); ");

    ends("C-GUIDE.md: a walk that is delivered", 3, &bench, 1, 1);
    ends("C-GUIDE.md: a walk that ends in an error", 3, &kvs, 0, RANKS);
    ends("C-GUIDE.md: a walk that is refused", 7, &bench, 0, RANKS);
}

int main(void)
{
    make_floor();
    test_answers();
    test_upstream();
    test_refusals();
    test_examples();
    return 0;
}

/*
 * Measures the stack that the calls take that are given tables: the checks, the step and the walk.
 * See stack.h.
 */
#include "stack.h"

enum {
    RANKS = LAMPREYCOIL_RANKS_MAX,
    RECORDS = LAMPREYCOIL_SERVICES_MAX,
    LINKS = 32,        /* the most between two ranks */
    WALK_BODY = 31552, /* the longest that grows by a route at each of them */
    CHAINS = 4096,
    CHAIN = 9, /* records in a chain of the library's hash, before it puts all in order */
    USED_CHAINS = RECORDS / CHAIN + 1
};

static uint8_t tree[RANKS * LAMPREYCOIL_RANK_SIZE];
static uint8_t identities[RANKS * LAMPREYCOIL_ROUTE_SIZE];
static uint8_t services[RECORDS * LAMPREYCOIL_SERVICE_SIZE];
static uint8_t hostile_identities[sizeof identities];
static uint8_t hostile_services[sizeof services];

/* ---- tables: two chains of 16 ranks below rank 0, and all other ranks below rank 0 too */

static void make_tree(void)
{
    for (uint32_t rank = 0; rank < RANKS; rank++) {
        uint32_t parent = rank == 0                 ? LAMPREYCOIL_NO_PARENT
                          : rank < 33 && rank != 17 ? rank - 1
                                                    : 0;

        for (int i = 0; i < 4; i++)
            tree[4 * rank + (uint32_t)i] = (uint8_t)(parent >> (24 - 8 * i));
    }
}

/* The service with a number. Each is at rank 0. */
static void make_service(uint8_t *at, uint32_t number)
{
    char name[LAMPREYCOIL_NAME_MAX + 1];

    snprintf(name, sizeof name, "a-name-as-long-as-can%06x", (unsigned)number);
    memset(at, 0, LAMPREYCOIL_SERVICE_SIZE);
    at[4] = LAMPREYCOIL_NAME_MAX;
    memcpy(at + 5, name, LAMPREYCOIL_NAME_MAX);
}

static uint32_t word(const uint8_t *at)
{
    return (uint32_t)at[3] << 24 | (uint32_t)at[2] << 16 | (uint32_t)at[1] << 8 | at[0];
}

static uint32_t stir(uint32_t hash, const uint8_t *at)
{
    return hash * 2135587861u + word(at) * 1540483477u + word(at + 4);
}

/* The chain that a record belongs to in the library (crates/table_distinct, `hash`). */
static uint32_t chain_of(const uint8_t *at, size_t width)
{
    uint32_t hash = 0;

    for (size_t i = 0; i < width / 8; i++)
        hash = stir(hash, at + 8 * i);
    return stir(hash, at + width - 8) * 1540483477u >> 20;
}

/* A table that was made to be slow: the last record is one too many in its chain. */
static void make_hostile(uint8_t *table, size_t width, void (*make)(uint8_t *, uint32_t))
{
    static int used[CHAINS];
    size_t made = 0;

    memset(used, 0, sizeof used);
    for (uint32_t number = 0; made < RECORDS && number < 1u << 24; number++) {
        uint8_t *at = table + made * width;
        uint32_t chain;

        make(at, number);
        chain = chain_of(at, width);
        if (chain < USED_CHAINS && (used[chain] < CHAIN) == (made < RECORDS - 1)) {
            used[chain]++;
            made++;
        }
    }
    if (made < RECORDS)
        abort();
}

/* ---- the calls: each tells what came of it, a step its answer and 100, a walk its links too */

static const uint8_t *lent_services, *lent_identities;
static uint32_t at_rank;

static uint32_t check_tree(void)
{
    return lampreycoil_check_tree(tree, sizeof tree, buffer, sizeof buffer, record, sizeof record);
}

static uint32_t check_services(void)
{
    return lampreycoil_check_services(tree, sizeof tree, lent_services, sizeof services);
}

static uint32_t check_identities(void)
{
    return lampreycoil_check_identities(tree, sizeof tree, lent_identities, sizeof identities);
}

static uint32_t step(void)
{
    uint32_t refusal =
        lampreycoil_step(tree, sizeof tree, lent_services, sizeof services, lent_identities,
                         sizeof identities, at_rank, buffer, sizeof buffer, record, sizeof record);

    return refusal ? refusal : 100 + lampreycoil_number(record, LAMPREYCOIL_STEP_ANSWER);
}

static uint32_t walk(void)
{
    uint32_t refusal =
        lampreycoil_walk(tree, sizeof tree, lent_services, sizeof services, lent_identities,
                         sizeof identities, at_rank, buffer, sizeof buffer, record, sizeof record);

    return 1000 * lampreycoil_number(record, LAMPREYCOIL_WALK_LINKS) +
           (refusal ? refusal : 100 + lampreycoil_number(record, LAMPREYCOIL_WALK_ANSWER));
}

/* ---- what is measured */

/* A step or a walk of one message, and what it tells. */
struct call {
    const char *label;
    uint32_t (*what)(void);
    uint32_t rank, told;
    uint8_t type, more;
    uint32_t first;
    const uint8_t *routes;
    size_t count, body;
};

static void take_call(const struct call *call, const uint8_t *s, const char *kind)
{
    char label[100];

    at_rank = call->rank;
    make_frame(call->type, call->more, call->first, s + 5, call->routes, call->count, call->body);
    snprintf(label, sizeof label, "%s, %s", call->label, kind);
    takes(label, call->what, call->told);
}

/* The routes of a request from rank 16 that rests at 32, over rank 0. */
static void make_passed(uint8_t *passed, const uint8_t *i)
{
    for (uint32_t n = 0; n < LINKS; n++) {
        uint32_t rank = n < 15 ? 31 - n : n == 15 ? 0 : n - 15;

        memcpy(passed + n * LAMPREYCOIL_ROUTE_SIZE, i + rank * LAMPREYCOIL_ROUTE_SIZE,
               LAMPREYCOIL_ROUTE_SIZE);
    }
}

static void take_tables(const uint8_t *s, const uint8_t *i, const char *kind)
{
    const uint8_t request = LAMPREYCOIL_REQUEST, response = LAMPREYCOIL_RESPONSE;
    const uint8_t silent = LAMPREYCOIL_NORESPONSE;
    const uint8_t *last = i + (RANKS - 1) * LAMPREYCOIL_ROUTE_SIZE;
    uint8_t passed[LINKS * LAMPREYCOIL_ROUTE_SIZE];
    const struct call calls[] = {
        {"a step that delivers", step, 0, 101, request, 0, 0, i, 0, LONG_BODY},
        {"a step that forwards up", step, 16, 102, request, 0, 32, i, 0, LONG_BODY},
        {"a step that forwards down", step, 0, 102, request, 0, 32, i, 0, LONG_BODY},
        {"a step that replies", step, 0, 103, request, 0, RANKS, i, 0, LONG_BODY},
        {"a step that is silent", step, 0, 104, request, silent, RANKS, i, 0, LONG_BODY},
        {"a step that sends home", step, 0, 102, response, 0, 0, last, 1, LONG_BODY},
        {"a step at home", step, 0, 105, response, 0, 0, i, 0, LONG_BODY},
        {"a walk that delivers on 0 links", walk, 0, 101, request, 0, 0, i, 0, WALK_BODY},
        {"a walk that delivers on 16 links", walk, 16, 16101, request, 0, 0, i, 0, WALK_BODY},
        {"a walk that replies on 32 links", walk, 16, 32103, request, 0, 32, i, 0, WALK_BODY},
        {"a walk that is silent on 32 links", walk, 16, 32104, request, silent, 32, i, 0,
         WALK_BODY},
        {"a walk home on 32 links", walk, 32, 32105, response, 0, 0, passed, LINKS,
         LAMPREYCOIL_BODY_MAX},
        {"a walk with 12 on its last link", walk, 16, 31012, request, 0, 32, i, 0, WALK_BODY + 1},
    };
    char label[100];

    make_passed(passed, i);
    lent_services = s;
    lent_identities = i;
    snprintf(label, sizeof label, "check_services, %s", kind);
    takes(label, check_services, 0);
    snprintf(label, sizeof label, "check_identities, %s", kind);
    takes(label, check_identities, 0);
    for (size_t n = 0; n < sizeof calls / sizeof calls[0]; n++)
        take_call(&calls[n], s, kind);
}

int main(void)
{
    make_tree();
    for (uint32_t i = 0; i < RANKS; i++) {
        make_identity(identities + i * LAMPREYCOIL_ROUTE_SIZE, i);
        make_service(services + i * LAMPREYCOIL_SERVICE_SIZE, i);
    }
    make_hostile(hostile_identities, LAMPREYCOIL_ROUTE_SIZE, make_identity);
    make_hostile(hostile_services, LAMPREYCOIL_SERVICE_SIZE, make_service);
    begin();
    takes("check_tree", check_tree, 0);
    take_tables(services, identities, "full tables");
    take_tables(hostile_services, hostile_identities, "hostile tables");
    return 0;
}

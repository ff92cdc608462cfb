#include "floor_tell.h"

#include <string.h>

#include "names.h"
#include "one_line.h"
#include "quoted.h"

uint32_t see(struct seen *seen, const struct floor *floor, const uint8_t *frame, size_t length)
{
    uint8_t record[LAMPREYCOIL_READ_RECORD];
    uint32_t refusal = lampreycoil_read(frame, length, record, sizeof record);
    const uint8_t *period;

    if (refusal != LAMPREYCOIL_OK)
        return refusal;
    seen->length = lampreycoil_number(record, LAMPREYCOIL_READ_TOOK);
    seen->type = lampreycoil_number(record, LAMPREYCOIL_READ_TYPE);
    seen->flags = lampreycoil_number(record, LAMPREYCOIL_READ_FLAGS);
    seen->first = lampreycoil_number(record, LAMPREYCOIL_READ_FIRST);
    seen->second = lampreycoil_number(record, LAMPREYCOIL_READ_SECOND);
    seen->routes = lampreycoil_number(record, LAMPREYCOIL_READ_ROUTES);
    seen->top = LAMPREYCOIL_NO_PARENT;
    if (seen->routes != 0)
        seen->top =
            find_identity(floor, frame + lampreycoil_number(record, LAMPREYCOIL_READ_ROUTE_START));
    seen->topic_length = lampreycoil_number(record, LAMPREYCOIL_READ_TOPIC_LENGTH);
    memcpy(seen->topic, frame + lampreycoil_number(record, LAMPREYCOIL_READ_TOPIC_START),
           seen->topic_length);
    period = memchr(seen->topic, '.', seen->topic_length);
    seen->service_length = period == NULL ? seen->topic_length : (size_t)(period - seen->topic);
    return LAMPREYCOIL_OK;
}

void tell_message(const struct seen *seen)
{
    int topic = (seen->flags & LAMPREYCOIL_TOPIC) != 0;

    printf("%s%s ", type_by_number(seen->type)->name, topic ? "" : ",");
    print_topic_and_fields(topic ? seen->topic : NULL, seen->topic_length, seen->type, seen->first,
                           seen->second);
    print_marks(seen->flags);
    printf(": %lu bytes, %lu route%s\n", (unsigned long)seen->length, (unsigned long)seen->routes,
           plural(seen->routes));
}

static void tell_service(const struct seen *seen, const char *before)
{
    printf("%s ", before);
    print_quoted(stdout, seen->topic, seen->service_length);
}

/* Whether the request looks for its service on the way up, and not at the rank of its nodeid. */
static int goes_up(const struct seen *seen)
{
    return seen->first == LAMPREYCOIL_NODEID_ANY || (seen->flags & LAMPREYCOIL_UPSTREAM) != 0;
}

/* Why the services of the broker at `rank` did not serve a request that goes up. */
static void tell_passed_over(const struct seen *seen, uint32_t rank)
{
    if (seen->first == rank)
        printf("rank %lu is named and is passed by", (unsigned long)rank);
    else
        tell_service(seen, "it has no service");
}

static void tell_forward(const struct floor *floor, const struct seen *seen, uint32_t rank,
                         uint32_t to)
{
    int up = floor->rank[rank].parent == to;

    printf("forwards it to rank %lu, its %s: ", (unsigned long)to, up ? "parent" : "child");
    if (seen->type == LAMPREYCOIL_RESPONSE)
        printf("the top route is rank %lu's, and is taken off", (unsigned long)seen->top);
    else if (goes_up(seen))
        tell_passed_over(seen, rank);
    else if (to == seen->first)
        printf("that is the request's rank");
    else
        printf("rank %lu is %s rank %lu", (unsigned long)seen->first, up ? "not below" : "below",
               (unsigned long)(up ? rank : to));
    putchar('\n');
}

static void tell_error(const struct seen *seen, uint32_t rank, uint32_t error)
{
    const struct error_name *name = error_by_number(error);

    if (error == LAMPREYCOIL_NO_RANK) {
        printf("rank %lu is not on this floor", (unsigned long)seen->first);
    } else if (goes_up(seen)) {
        tell_passed_over(seen, rank);
        printf(", and it has no parent");
    } else {
        tell_service(seen, "it is the request's rank, and has no service");
    }
    printf(" (error %lu, %s)\n", (unsigned long)error, name == NULL ? "unknown" : name->name);
}

static void tell_home(const struct seen *seen)
{
    printf("has it home: %s\n", seen->routes == 0
                                    ? "no route is left, so the request came from this broker"
                                    : "the top route is no broker's, so it is a client's");
}

void tell_step(const struct floor *floor, const struct seen *seen, uint32_t rank, uint32_t refusal,
               const uint8_t *record)
{
    uint32_t number = lampreycoil_number(record, LAMPREYCOIL_STEP_NUMBER);
    uint32_t error = lampreycoil_number(record, LAMPREYCOIL_STEP_ERROR);

    printf("rank %lu ", (unsigned long)rank);
    if (refusal != LAMPREYCOIL_OK) {
        printf("refuses it, %lu: %s\n", (unsigned long)refusal, lampreycoil_refusal_words(refusal));
        return;
    }
    switch (lampreycoil_number(record, LAMPREYCOIL_STEP_ANSWER)) {
    case LAMPREYCOIL_DELIVERED:
        tell_service(seen, goes_up(seen)
                               ? "delivers it: it has the service"
                               : "delivers it: it is the request's rank, and has the service");
        printf(" (record %lu)\n", (unsigned long)number);
        break;
    case LAMPREYCOIL_FORWARD:
        tell_forward(floor, seen, rank, number);
        break;
    case LAMPREYCOIL_REPLIED:
        printf("makes the error reply: ");
        tell_error(seen, rank, error);
        break;
    case LAMPREYCOIL_SILENCED:
        printf("drops it in silence, for noresponse is set: ");
        tell_error(seen, rank, error);
        break;
    default:
        tell_home(seen);
    }
}

void tell_routes(const struct floor *floor, const uint8_t *frame, size_t length)
{
    uint8_t record[LAMPREYCOIL_READ_RECORD];

    if (lampreycoil_read(frame, length, record, sizeof record) != LAMPREYCOIL_OK)
        return;
    uint32_t routes = lampreycoil_number(record, LAMPREYCOIL_READ_ROUTES);
    size_t start = lampreycoil_number(record, LAMPREYCOIL_READ_ROUTE_START);

    for (uint32_t i = 0; i < routes; i++) {
        const uint8_t *route = frame + start + (size_t)i * LAMPREYCOIL_ROUTE_STEP;
        uint32_t rank = find_identity(floor, route);

        printf("  route %-3lu %s  ", (unsigned long)i, (const char *)route);
        if (rank == LAMPREYCOIL_NO_PARENT)
            puts("no broker's");
        else
            printf("rank %lu\n", (unsigned long)rank);
    }
}

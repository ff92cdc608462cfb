#include "write_reason.h"

#include <stdio.h>
#include <string.h>

#include "lampreycoil.h"

/* The option that gave a part which no message of the type has; NULL where none did. */
static const char *needless_part(const struct write_options *options, uint8_t flags)
{
    if (options->type != LAMPREYCOIL_CONTROL && options->type != LAMPREYCOIL_EVENT)
        return NULL;
    if (options->routes_length > 0)
        return "route: leave out --route";
    if (options->type == LAMPREYCOIL_EVENT)
        return NULL;
    if (options->topic != NULL)
        return "topic: leave out --topic";
    return (flags & LAMPREYCOIL_PAYLOAD) != 0 ? "payload: leave it out" : NULL;
}

/* Flags that were given as such are taken as they stand; others follow from the parts. */
static void explain_parts(const struct write_options *options, uint8_t flags, char *reason)
{
    const char *needless = needless_part(options, flags);
    const char *broken = flags_broken(options->type, flags);

    if (options->flags_given)
        snprintf(reason, REASON_ROOM, "--flags %02X: %s", flags,
                 broken != NULL ? broken : "a part is given whose flag is not set");
    else if (needless != NULL)
        snprintf(reason, REASON_ROOM, "%s has no %s",
                 options->type == LAMPREYCOIL_EVENT ? "an event" : "a control message", needless);
    else
        snprintf(reason, REASON_ROOM, "--topic is missing");
}

static void explain_routes(const struct write_options *options, char *reason)
{
    size_t number = 0, at = 0;

    for (; at < options->routes_length; number++) {
        const char *route = (const char *)options->routes + at;
        size_t size = strlen(route) + 1, place;

        if (size != LAMPREYCOIL_ROUTE_SIZE) {
            snprintf(reason, REASON_ROOM, "--route number %zu has %zu characters, not %d",
                     number + 1, size - 1, LAMPREYCOIL_ROUTE_SIZE - 1);
            return;
        }
        place = wrong_in_route(options->routes + at);
        if (place < size) {
            snprintf(reason, REASON_ROOM,
                     "--route number %zu has '%c' as its character %zu, not %s", number + 1,
                     route[place], place + 1, route_place(place));
            return;
        }
        at += size;
    }
    snprintf(reason, REASON_ROOM, "there are %zu routes, and %d may be", number,
             LAMPREYCOIL_ROUTES_MAX);
}

/* What a part takes in the body, with its size in front. */
static size_t taken(size_t length)
{
    return length + (length < 255 ? 1 : 5);
}

static void explain_long(const struct write_options *options, uint8_t flags, size_t payload_length,
                         char *reason)
{
    enum { HEADER_LENGTH = 20 };
    size_t routes = options->routes_length / LAMPREYCOIL_ROUTE_SIZE;
    size_t body = routes * LAMPREYCOIL_ROUTE_STEP + taken(HEADER_LENGTH);

    if ((flags & LAMPREYCOIL_ROUTE) != 0)
        body += taken(0);
    if (options->topic != NULL)
        body += taken(strlen(options->topic) + 1);
    body += taken(payload_length);
    snprintf(reason, REASON_ROOM, "with a payload of %zu bytes the body has %zu", payload_length,
             body);
}

void explain_write(uint32_t refusal, const struct write_options *options, uint8_t flags,
                   size_t payload_length, char reason[REASON_ROOM])
{
    const struct field_value *field =
        options->type == LAMPREYCOIL_EVENT ? &options->second : &options->first;

    reason[0] = '\0';
    if (refusal == LAMPREYCOIL_TYPE_WRONG)
        snprintf(reason, REASON_ROOM, "there is no type %d", options->type);
    else if (refusal == LAMPREYCOIL_FLAG_WRONG)
        snprintf(reason, REASON_ROOM, "--flags %02X: flag 80 is set", flags);
    else if (refusal == LAMPREYCOIL_PARTS_DISAGREE)
        explain_parts(options, flags, reason);
    else if (refusal == LAMPREYCOIL_ROUTE_WRONG)
        explain_routes(options, reason);
    else if (refusal == LAMPREYCOIL_TOPIC_WRONG &&
             (options->topic == NULL || *options->topic == '\0'))
        snprintf(reason, REASON_ROOM, "--topic is %s",
                 options->topic == NULL ? "missing" : "empty");
    else if (refusal == LAMPREYCOIL_TOPIC_WRONG)
        snprintf(reason, REASON_ROOM, "--topic has %zu bytes, and %d may be",
                 strlen(options->topic), LAMPREYCOIL_TOPIC_MAX);
    else if (refusal == LAMPREYCOIL_FIELD_WRONG)
        snprintf(reason, REASON_ROOM, "%s is %lu", field->option, (unsigned long)field->value);
    else if (refusal == LAMPREYCOIL_BODY_LONG)
        explain_long(options, flags, payload_length, reason);
}

#include "names.h"

#include <string.h>

#include "lampreycoil.h"

static const struct type_names types[] = {
    {LAMPREYCOIL_REQUEST, "request", "nodeid", "matchtag"},
    {LAMPREYCOIL_RESPONSE, "response", "errnum", "matchtag"},
    {LAMPREYCOIL_EVENT, "event", "sequence", "unused"},
    {LAMPREYCOIL_CONTROL, "control", "control type", "status"},
};

enum { TYPES = sizeof types / sizeof types[0] };

const struct bit_name flag_names[FLAG_NAMES] = {
    {LAMPREYCOIL_TOPIC, "topic"},           {LAMPREYCOIL_PAYLOAD, "payload"},
    {LAMPREYCOIL_NORESPONSE, "noresponse"}, {LAMPREYCOIL_ROUTE, "route"},
    {LAMPREYCOIL_UPSTREAM, "upstream"},     {LAMPREYCOIL_PRIVATE, "private"},
    {LAMPREYCOIL_STREAMING, "streaming"},
};

const struct bit_name role_names[ROLE_NAMES] = {{1, "owner"}, {2, "user"}, {4, "local"}};

/* A number and its name are one word in the source, so that they cannot come apart. */
#define NAMED(name)                                                                                \
    {                                                                                              \
        name, #name                                                                                \
    }

static const struct {
    uint32_t number;
    const char *name;
} refusals[] = {
    NAMED(LAMPREYCOIL_INPUT_SHORT),        NAMED(LAMPREYCOIL_START_WRONG),
    NAMED(LAMPREYCOIL_BODY_LONG),          NAMED(LAMPREYCOIL_PART_WRONG),
    NAMED(LAMPREYCOIL_PARTS_MANY),         NAMED(LAMPREYCOIL_HEADER_WRONG),
    NAMED(LAMPREYCOIL_PARTS_DISAGREE),     NAMED(LAMPREYCOIL_ROUTE_WRONG),
    NAMED(LAMPREYCOIL_TOPIC_WRONG),        NAMED(LAMPREYCOIL_FIELD_WRONG),
    NAMED(LAMPREYCOIL_MAGIC_WRONG),        NAMED(LAMPREYCOIL_VERSION_WRONG),
    NAMED(LAMPREYCOIL_TYPE_WRONG),         NAMED(LAMPREYCOIL_FLAG_WRONG),
    NAMED(LAMPREYCOIL_COMMAND_PART_WRONG), NAMED(LAMPREYCOIL_COMMAND_LONG),
    NAMED(LAMPREYCOIL_MARK_WRONG),         NAMED(LAMPREYCOIL_COMMAND_WRONG),
    NAMED(LAMPREYCOIL_PART_COUNT_WRONG),   NAMED(LAMPREYCOIL_NAME_WRONG),
    NAMED(LAMPREYCOIL_ADDRESS_WRONG),      NAMED(LAMPREYCOIL_SEPARATOR_WRONG),
};

#undef NAMED

enum { REFUSALS = sizeof refusals / sizeof refusals[0] };

const char *refusal_name(uint32_t number)
{
    for (size_t i = 0; i < REFUSALS; i++) {
        if (refusals[i].number == number)
            return refusals[i].name;
    }
    return NULL;
}

const struct type_names *type_by_number(uint32_t number)
{
    for (size_t i = 0; i < TYPES; i++) {
        if (types[i].number == number)
            return &types[i];
    }
    return NULL;
}

const struct type_names *type_by_name(const char *name)
{
    for (size_t i = 0; i < TYPES; i++) {
        if (strcmp(types[i].name, name) == 0)
            return &types[i];
    }
    return NULL;
}

const char *sender_name(uint32_t sender)
{
    if (sender == LAMPREYCOIL_CLIENT)
        return "client";
    return sender == LAMPREYCOIL_WORKER ? "worker" : NULL;
}

const char *command_name(uint32_t sender, uint32_t number)
{
    static const char *const of_client[] = {"REQUEST", "PARTIAL", "FINAL"};
    static const char *const of_worker[] = {"READY", "REQUEST",   "PARTIAL",
                                            "FINAL", "HEARTBEAT", "DISCONNECT"};

    if (sender == LAMPREYCOIL_CLIENT && number - 1 < sizeof of_client / sizeof of_client[0])
        return of_client[number - 1];
    if (sender == LAMPREYCOIL_WORKER && number - 1 < sizeof of_worker / sizeof of_worker[0])
        return of_worker[number - 1];
    return NULL;
}

const char *plural(unsigned long long count)
{
    return count == 1 ? "" : "s";
}

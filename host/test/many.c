/*
 * Writes a capture with many frames, for the tests of flux_floor audit over host/example.floor:
 *
 *   many pairs N    N requests, each with the reply that is due to it
 *   many late N     one request and its reply, N more such pairs, and the first reply once more
 *   many open N     N requests that nobody replies to, with noresponse set
 *
 * It enters at rank 5 and is captured at rank 2. Returns 0, or 1 where something was refused.
 */
#include <stdio.h>
#include <stdlib.h>
#include <string.h>

#include "lampreycoil.h"

static const char broker[] = "00000005-0123-4567-89ab-cdef01234567";

static int put(uint32_t number, uint8_t type, uint8_t flags, uint32_t first)
{
    /* Rank 0 has log and is asked for it; nobody on the way has bench; there is no rank 7. */
    static const char *const topics[] = {"log.put", "bench.run", "log.get"};
    static uint8_t frame[LAMPREYCOIL_FRAME_MAX];
    const char *topic = topics[number % 3];
    struct lampreycoil_message message = {0};
    size_t length;

    message.type = type;
    message.flags = (uint8_t)(LAMPREYCOIL_TOPIC | LAMPREYCOIL_ROUTE | flags);
    message.userid = LAMPREYCOIL_USERID_UNKNOWN;
    message.first = first;
    message.second = number;
    message.routes = (const uint8_t *)broker;
    message.routes_count = 1;
    message.topic = (const uint8_t *)topic;
    message.topic_length = strlen(topic);
    if (lampreycoil_write_message(&message, frame, sizeof frame, &length) != LAMPREYCOIL_OK)
        return 1;
    return fwrite(frame, 1, length, stdout) != length;
}

static int put_request(uint32_t number, uint8_t flags)
{
    return put(number, LAMPREYCOIL_REQUEST, flags,
               number % 3 == 2 ? 7 : (uint32_t)LAMPREYCOIL_NODEID_ANY);
}

static int put_reply(uint32_t number)
{
    static const uint32_t due[] = {0, LAMPREYCOIL_NO_SERVICE, LAMPREYCOIL_NO_RANK};

    return put(number, LAMPREYCOIL_RESPONSE, 0, due[number % 3]);
}

int main(int argc, char **argv)
{
    uint32_t count = argc == 3 ? (uint32_t)strtoul(argv[2], NULL, 10) : 0;
    int open = argc == 3 && strcmp(argv[1], "open") == 0;
    int late = argc == 3 && strcmp(argv[1], "late") == 0;
    int wrong = 0;

    if (argc != 3)
        return 1;
    for (uint32_t number = 0; number < count + (uint32_t)late; number++) {
        wrong |= put_request(number, open ? LAMPREYCOIL_NORESPONSE : 0);
        if (!open)
            wrong |= put_reply(number);
    }
    if (late)
        wrong |= put_reply(0);
    return wrong | (fflush(stdout) != 0);
}

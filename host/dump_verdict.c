#include "dump_verdict.h"

#include <stdio.h>
#include <string.h>

#include "files.h"
#include "lampreycoil.h"

/* Whether it would be JSON with a zero byte behind it. */
static int lacks_zero(const uint8_t *payload, size_t length)
{
    static uint8_t ended[LAMPREYCOIL_BODY_MAX + 1];
    uint8_t record[LAMPREYCOIL_JSON_RECORD];

    if (length >= sizeof ended)
        return 0;
    memcpy(ended, payload, length);
    ended[length] = 0;
    return lampreycoil_is_json(lampreycoil_check_json(ended, length + 1, record, sizeof record),
                               record);
}

static void explain_no(const uint8_t *payload, size_t length, struct verdict *verdict)
{
    size_t byte = verdict->byte;
    char *reason = verdict->reason;

    if (length == 0)
        snprintf(reason, REASON_ROOM, "it is empty");
    else if (byte >= length && lacks_zero(payload, length))
        snprintf(reason, REASON_ROOM, "the zero byte at its end is missing");
    else if (byte >= length)
        snprintf(reason, REASON_ROOM, "it ends too early, at byte %zu of it", length);
    else if (byte > 0 && payload[byte - 1] == 0)
        /* A zero byte anywhere else would be the place itself. */
        snprintf(reason, REASON_ROOM, "byte %zu of it, %02X, is behind the zero byte that ends it",
                 byte, payload[byte]);
    else
        snprintf(reason, REASON_ROOM, "byte %zu of it, %02X, cannot stand there", byte,
                 payload[byte]);
}

int judge_payload(const uint8_t *payload, size_t length, struct verdict *verdict)
{
    uint8_t record[LAMPREYCOIL_JSON_RECORD];
    uint32_t returned = lampreycoil_check_json(payload, length, record, sizeof record);

    if (returned != LAMPREYCOIL_OK && returned != LAMPREYCOIL_JSON_DEEP)
        return trouble("the library takes no record of %zu bytes", sizeof record);
    verdict->byte = lampreycoil_json_byte(record);
    verdict->reason[0] = '\0';
    if (lampreycoil_is_json(returned, record)) {
        verdict->kind = VERDICT_JSON;
    } else if (returned == LAMPREYCOIL_JSON_DEEP) {
        verdict->kind = VERDICT_DEEP;
        snprintf(verdict->reason, REASON_ROOM, "level %d opens at byte %zu of it, and %d may be",
                 LAMPREYCOIL_JSON_DEPTH_MAX + 1, verdict->byte, LAMPREYCOIL_JSON_DEPTH_MAX);
    } else {
        verdict->kind = VERDICT_NO;
        explain_no(payload, length, verdict);
    }
    return 0;
}

const char *verdict_words(enum verdict_kind kind)
{
    static const char *const words[] = {"JSON", "not JSON", "too deep for JSON"};

    return words[kind];
}

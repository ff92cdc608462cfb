/* Whether a payload is JSON, as the library says, and why not, as far as that can be known. */
#ifndef HOST_DUMP_VERDICT_H
#define HOST_DUMP_VERDICT_H

#include <stddef.h>
#include <stdint.h>

#include "explain.h"

enum verdict_kind {
    VERDICT_JSON, /* its text is all but its last byte, which is zero */
    VERDICT_NO,
    VERDICT_DEEP /* too deep for the library to say */
};

struct verdict {
    enum verdict_kind kind;
    size_t byte; /* the place of a no or of a level too many, from the payload's front */
    char reason[REASON_ROOM]; /* of these; one line of ASCII */
};

/* Judges the payload of an accepted frame. Returns 0, or has said what is wrong. */
int judge_payload(const uint8_t *payload, size_t length, struct verdict *verdict);

/* The verdict in a word or two. */
const char *verdict_words(enum verdict_kind kind);

#endif

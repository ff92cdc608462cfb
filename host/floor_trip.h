/* A request's walk there, and the way back of what answers it. */
#ifndef HOST_FLOOR_TRIP_H
#define HOST_FLOOR_TRIP_H

#include "floor_play.h"

/* In what a response that is home is not the request's. */
enum mismatch { OTHER_RANK, OTHER_ROUTES, OTHER_TOPIC, OTHER_MATCHTAG, MISMATCHES };
extern const char *const mismatch_names[MISMATCHES];

struct trip {
    struct play there, back;
    int returned;     /* whether there was a way back */
    uint32_t refusal; /* of the answer, which could not be written; 0: none */
    int mismatch[MISMATCHES];
    int status;         /* the exit status */
    const char *answer; /* what the whole says, in a word */
};

/* Whether the response is home, and is not the request's. */
int mismatched(const struct trip *trip);

/* The request's own response, which is home, or NULL where there is none. */
const struct seen *trip_home(const struct trip *trip);

#endif

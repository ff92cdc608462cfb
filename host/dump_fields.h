/* The members of a frame's object that --fields asks for, in that order. */
#ifndef HOST_DUMP_FIELDS_H
#define HOST_DUMP_FIELDS_H

#include <stddef.h>

struct member;

enum { ASKED_MAX = 64 }; /* no fewer than there are, and none is asked for twice */

struct asked_fields {
    const struct member *members[ASKED_MAX];
    size_t count;
    int judged; /* one of them tells whether the payload is JSON */
};

/* Takes the names, with commas between them. Returns 0, or has said what is wrong. */
int read_asked_fields(const char *list, struct asked_fields *asked);

#endif

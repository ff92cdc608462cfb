/*
 * The members of the object that --json writes of a frame: what each is called, of which frames it
 * is there, and its value.
 */
#ifndef HOST_DUMP_MEMBERS_H
#define HOST_DUMP_MEMBERS_H

#include <stddef.h>

#include "dump.h"
#include "names.h"

/* What can be true of a frame. */
enum kind {
    ANY = 1,
    PLACED = 1 << 1, /* shown with its place in the capture */
    INPUT = 1 << 2,  /* shown without it, or not whole */
    MORE = 1 << 3,   /* not whole, and the capture goes on behind what is looked at */
    ACCEPTED = 1 << 4,
    SINGLE = 1 << 5, /* accepted, and shown without its place */
    REFUSED = 1 << 6,
    SHORT = 1 << 7,          /* refused for want of bytes */
    SPLIT = 1 << 8,          /* refused, with a front that tells of parts */
    FOUND = 1 << 9,          /* refused, and a header is found in it */
    HEADED = 1 << 10,        /* accepted, or a header is found in it */
    TYPED = 1 << 11,         /* and the type in it has a name */
    NAMED_ERROR = 1 << 12,   /* and it is a response's whose errnum has a name */
    HAS_DELIMITER = 1 << 13, /* here and below: accepted */
    HAS_TOPIC = 1 << 14,
    HAS_PAYLOAD = 1 << 15,
    IS_JSON = 1 << 16,
    IS_NOT_JSON = 1 << 17, /* or is too deep to tell */
    IS_DEEP = 1 << 18,
    SIZED = 1 << 19, /* accepted, or passed by its own length */
    JUDGED = 1 << 20 /* of no frame: marks a member for which the payload has to be judged */
};

/* A frame, and what its members are told by. */
struct object {
    const struct dump *dump;
    unsigned kinds;                 /* all that are true of it */
    struct fields fields;           /* where it is HEADED */
    const struct type_names *type;  /* where it is TYPED */
    const struct error_name *error; /* where it has a NAMED_ERROR */
};

/* A member, which is there if its kind is true. Its value is a number, or is put. */
struct member {
    const char *name;
    unsigned kind;
    unsigned long long (*number)(const struct object *object);
    void (*put)(const struct object *object);
};

/* Members side by side: of the frame itself, or of a part, whose name and a period are in front. */
struct members {
    const struct member *first;
    size_t count;
    size_t prefix; /* how long that is */
};
#define MEMBERS(members, prefix)                                                                   \
    {                                                                                              \
        members, sizeof members / sizeof members[0], sizeof prefix - 1                             \
    }

/* Writes the member under its own name, or under what follows the prefix, if it is there. */
void put_member(const struct object *object, const struct member *member, size_t prefix);

/* Writes those of a part as an object, or null where the frame is not of this kind. */
void put_part_members(const struct object *object, unsigned kind, const struct members *members);

/* Those of the frame itself; and of the parts that an accepted one has once at the most. */
extern const struct members frame_members;
extern const struct members delimiter_members, topic_members, payload_members, header_members;

#endif

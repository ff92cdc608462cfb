/*
 * A frame's parts, as far as they can be split. Only for frames that the library refuses: where
 * it accepts one, it says itself where the parts are.
 */
#ifndef HOST_SPLIT_H
#define HOST_SPLIT_H

#include <stddef.h>
#include <stdint.h>

enum { FRONT = 8, HEADER = 20, PARTS_MAX = 68 };

/* A part's size that is this byte goes on in four more. */
enum { LONG_SIZE = 255 };

/* What a part is by flags and place. */
enum part_role {
    ROLE_UNKNOWN,
    ROLE_ROUTE,
    ROLE_DELIMITER,
    ROLE_TOPIC,
    ROLE_PAYLOAD,
    ROLE_EXTRA, /* neither type nor flags have a place for it */
    ROLE_HEADER
};

struct part {
    size_t start; /* of its data, from the frame's front */
    size_t length;
    enum part_role role;
};

struct split {
    uint32_t body; /* the body's length, as the front has it */
    size_t limit;  /* where the body ends, or the input if it ends before */
    struct part parts[PARTS_MAX];
    size_t count;
    int whole;       /* they end where the body does */
    size_t end_at;   /* behind them; where they are not whole, no part can be split off there */
    size_t header;   /* where the header's bytes begin; 0 where none was found */
    int header_last; /* it is the last part; otherwise it only stands at the body's end */
};

/* The big-endian number at bytes. */
uint32_t number_at(const uint8_t *bytes);

/*
 * Splits off the part whose size begins at a byte in front of the limit, or at it. Returns where
 * the part ends, or 0 where none can be split off there.
 */
size_t split_part(const uint8_t *bytes, size_t limit, size_t at, struct part *part);

/* Splits the frame. There are at least FRONT bytes. */
void split_frame(const uint8_t *bytes, size_t length, struct split *split);

const char *role_name(enum part_role role);

#endif

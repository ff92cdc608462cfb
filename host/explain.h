/*
 * Why the library refuses a frame, more closely than the number's words. Where it is wrong the
 * library says; here stands only what can be read there.
 */
#ifndef HOST_EXPLAIN_H
#define HOST_EXPLAIN_H

#include <stddef.h>
#include <stdint.h>

#include "split.h"

/* Room for a reason, and for one with its byte in front. */
enum { REASON_ROOM = 200, TOLD_ROOM = REASON_ROOM + 24 };

struct fault {
    uint32_t byte;            /* counted from the frame's front; 0 where there is none */
    char reason[REASON_ROOM]; /* what stands there, or is missing: one line of ASCII */
    char told[TOLD_ROOM];     /* the same, behind the byte */
};

/*
 * Asks the library why it refuses a frame and at which byte, and returns the number. The frame's
 * parts go to split, which is left alone where there are fewer than FRONT bytes.
 */
uint32_t explain(const uint8_t *bytes, size_t length, struct split *split, struct fault *fault);

/*
 * Here and below: to a reason, which has room for REASON_ROOM bytes. Why no part can be split off
 * at a byte of a whole, such as a body, that ends at the limit.
 */
void explain_size(const uint8_t *bytes, size_t at, size_t limit, const char *whole, char *reason);

/* Why something, which has this name, is no route; of a route the reason stays as it is. */
void explain_route(const char *name, const uint8_t *route, size_t length, char *reason);

/* Whether the library tells a byte: not of 1, 2 and 3. */
int has_byte(const struct fault *fault);

/* What the flags topic, payload and route have against a type; NULL where they agree with it. */
const char *flags_broken(uint8_t type, uint8_t flags);

/*
 * The first of the LAMPREYCOIL_ROUTE_SIZE bytes of a route that is wrong, or their number where
 * none is; and what should stand at such a place.
 */
size_t wrong_in_route(const uint8_t *route);
const char *route_place(size_t place);

/* How many bytes the frame takes, as far as is known: FRONT, or FRONT and the body. */
unsigned long long bytes_needed(size_t length, const struct split *split);

/*
 * Whether a frame may begin with these bytes. The library looks at a frame's start only once all of
 * its front is there, so of fewer bytes it says no more than that they are too few.
 */
int may_begin(const uint8_t *bytes, size_t length);

#endif

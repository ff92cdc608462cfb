/* What a broker's step did with a message and why, in words. */
#ifndef HOST_FLOOR_TELL_H
#define HOST_FLOOR_TELL_H

#include "floor.h"

/* What a step decides by, taken from the frame before the step changes it. */
struct seen {
    uint32_t type, flags, first, second;
    uint32_t length; /* of the frame */
    uint32_t routes;
    uint32_t top; /* the rank whose identity the top route is; LAMPREYCOIL_NO_PARENT: none's */
    uint8_t topic[LAMPREYCOIL_TOPIC_MAX];
    size_t topic_length, service_length; /* the service is the topic's front */
};

/* Looks at the frame. Returns 0, or the reader's refusal. */
uint32_t see(struct seen *seen, const struct floor *floor, const uint8_t *frame, size_t length);

/* One line for the message as it is now. */
void tell_message(const struct seen *seen);

/* The step of the broker at `rank`, with its refusal and its record. */
void tell_step(const struct floor *floor, const struct seen *seen, uint32_t rank, uint32_t refusal,
               const uint8_t *record);

/* The frame's routes, and whose they are. */
void tell_routes(const struct floor *floor, const uint8_t *frame, size_t length);

#endif

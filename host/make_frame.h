/* The frame of the message that the options describe. */
#ifndef HOST_MAKE_FRAME_H
#define HOST_MAKE_FRAME_H

#include <stddef.h>
#include <stdint.h>

#include "explain.h"
#include "write_options.h"

/*
 * Makes the frame in LAMPREYCOIL_FRAME_MAX bytes and sets *length. Reads the payload's file if
 * there is one. Returns 0, or the exit status, and has said what is wrong.
 */
int make_frame(const struct write_options *options, uint8_t *frame, size_t *length);

/* Why the library made no frame: its number, and the reason as far as the options tell it. */
struct write_refusal {
    uint32_t number;
    char reason[REASON_ROOM];
};

/* The same, but a refusal, with EXIT_REFUSED, is not said yet: it is in *why. */
int try_frame(const struct write_options *options, uint8_t *frame, size_t *length,
              struct write_refusal *why);

/* Says it. */
void tell_frame_refused(const struct write_refusal *why);

#endif

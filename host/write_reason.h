/* Why the library refused to write a message, as far as its options tell. */
#ifndef HOST_WRITE_REASON_H
#define HOST_WRITE_REASON_H

#include <stddef.h>
#include <stdint.h>

#include "explain.h"
#include "write_options.h"

/*
 * Puts the reason for the refusal, one line, into reason. The flags are those that the library was
 * given, and so is the length of the payload.
 */
void explain_write(uint32_t refusal, const struct write_options *options, uint8_t flags,
                   size_t payload_length, char reason[REASON_ROOM]);

#endif

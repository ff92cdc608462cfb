/* Reading an input on while it grows. */
#ifndef HOST_FOLLOW_H
#define HOST_FOLLOW_H

#include <stddef.h>
#include <stdint.h>

#include "files.h"

/* From here on SIGINT ends following, and not the program; a second one ends the program. */
void start_following(void);

/*
 * Reads what is there, and waits while there is nothing: for a file to grow, for a pipe to deliver.
 * Sets *length, to 0 where nothing more is read: the pipe has ended, or SIGINT came. input->ended
 * then says whether nothing follows what was read. Returns 0, or has said what is wrong: a file
 * that got shorter is.
 */
int follow_input(struct input *input, uint8_t *bytes, size_t room, size_t *length);

#endif

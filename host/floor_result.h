/* The result of a play in one line, and its parts. */
#ifndef HOST_FLOOR_RESULT_H
#define HOST_FLOOR_RESULT_H

#include "floor_play.h"

/* A line that is made piece by piece; what is over its room is cut. */
struct line {
    char text[2048];
    size_t length;
};

void add_words(struct line *line, const char *format, ...);

/* An error's number and its name. */
void add_error(struct line *line, uint32_t error);

/* The ranks of the brokers that were visited, from the one with this index on. */
void add_path(struct line *line, const struct play *play, uint32_t from);

/* All of it: how it ended, where, over how many links and brokers. */
void add_result(struct line *line, const struct play *play);

/* The name of an error, or NULL. */
const char *error_name(uint32_t error);

#endif

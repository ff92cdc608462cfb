/* What a command found, as one JSON object on one line. The man page has all keys. */
#ifndef HOST_FLOOR_JSON_H
#define HOST_FLOOR_JSON_H

#include "floor_asked.h"
#include "floor_trip.h"

/* A floor, with its tree if that is asked for. */
void json_floor(const char *command, const struct floor *floor, int status, int with_tree);

/* What was played, or was refused before it could be: refusal 0 is that of the floor. */
void json_walk(const struct asked *asked, const struct play *play);
void json_trip(const struct asked *asked, const struct trip *trip);
void json_refused(const struct asked *asked, const struct play *play, uint32_t refusal, int status);

#endif

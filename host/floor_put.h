/* Parts of flux_floor's JSON objects. */
#ifndef HOST_FLOOR_PUT_H
#define HOST_FLOOR_PUT_H

#include "floor.h"

/* A named value of the object that is open. */
void put_named_number(const char *name, unsigned long long number);
void put_number_or_null(const char *name, int there, unsigned long long number);
void put_text_or_null(const char *name, const char *text);

/* The remarks that are told, and how many there are. */
void put_remarks(const char *name, const char *count_name, const struct floor *floor,
                 const struct remarks *remarks);

/* Opens the object of a command: the command, its exit status and the floor. */
void open_object(const char *command, int status, const char *file);

#endif

/* The lines of a dump for a person: a name, and what is told of it. What is put waits (put.h). */
#ifndef HOST_DUMP_LINES_H
#define HOST_DUMP_LINES_H

#include <stddef.h>
#include <stdint.h>

#include "split.h"

/* The column of names, so that all values stand below each other. */
enum { NAME_WIDTH = 14 };

/* How much of a part is shown where what it is in was refused. */
enum { PART_SHOWN = 40 };

void put_name(const char *name);

/* A line of its own: a number, with a note behind it; and how many bytes from where on. */
void put_field(const char *name, uint32_t number, const char *note);
void put_stretch(const char *name, size_t length, size_t start);

void put_count_of_bytes(size_t length);
void put_from_byte(unsigned long long start);

/* Bytes as a text, how many they are, and where: to the end of the line. */
void put_text_at(const uint8_t *bytes, size_t length, size_t start);

/* One of the parts that lie in these bytes, on a line, with so many of its bytes at the most. */
void put_part(const uint8_t *bytes, size_t index, const struct part *part, size_t most);

/* That no part can be split off at a byte. */
void put_no_more(size_t byte);

/* Why something is refused: the number and its words, and the reason. */
void put_why(uint32_t refusal, const char *reason);

#endif

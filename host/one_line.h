/* What both programs tell of a message in one line, so that they word it alike. */
#ifndef HOST_ONE_LINE_H
#define HOST_ONE_LINE_H

#include <stddef.h>
#include <stdint.h>

/*
 * The topic, which is NULL where the message has none, and the two fields by their names. Here and
 * below: what is put waits (put.h), and what is printed does not.
 */
void put_topic_and_fields(const uint8_t *topic, size_t topic_length, uint32_t type, uint32_t first,
                          uint32_t second);
void print_topic_and_fields(const uint8_t *topic, size_t topic_length, uint32_t type,
                            uint32_t first, uint32_t second);

/* The flags that no part stands for, each behind a comma. */
void put_marks(uint32_t flags);
void print_marks(uint32_t flags);

#endif

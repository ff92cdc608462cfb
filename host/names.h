/* The names and words that a person reads, for the numbers that the library uses. */
#ifndef HOST_NAMES_H
#define HOST_NAMES_H

#include <stddef.h>
#include <stdint.h>

struct type_names {
    uint8_t number;
    const char *name;
    const char *first;  /* name of the first field */
    const char *second; /* name of the second field */
};

struct bit_name {
    uint32_t bit;
    const char *name;
};

/* The bits of the flags, and those of the rolemask as Flux RFC 12 has them. */
enum { FLAG_NAMES = 7, ROLE_NAMES = 3 };
extern const struct bit_name flag_names[FLAG_NAMES];
extern const struct bit_name role_names[ROLE_NAMES];

struct error_name {
    const char *name;
    const char *words;
};

/* NULL where Linux has no such error. */
const struct error_name *error_by_number(uint32_t number);

/* NULL where there is no such type. */
const struct type_names *type_by_number(uint32_t number);
const struct type_names *type_by_name(const char *name);

/* The header's name for a number with which a frame or a command is refused; NULL for another. */
const char *refusal_name(uint32_t number);

/* Of a Majordomo command: who sends it, and what it is called. NULL where there is no such one. */
const char *sender_name(uint32_t sender);
const char *command_name(uint32_t sender, uint32_t number);

/* What stands behind a word for so many of a thing: nothing for 1, and "s" for any other number. */
const char *plural(unsigned long long count);

#endif

/* The message that `flux_frame write` was asked to write, or `flux_floor` to play. */
#ifndef HOST_WRITE_OPTIONS_H
#define HOST_WRITE_OPTIONS_H

#include <stddef.h>
#include <stdint.h>

/* Room for more than the 64 routes that are allowed, so that the library refuses the 65th. */
enum { ROUTES_ROOM = 8192 };

/* One of a message's two fields. */
struct field_value {
    uint32_t value;
    const char *option; /* the option that gave it; NULL where none did */
    uint8_t types;      /* the types, as bits, to which that option belongs */
};

struct write_options {
    uint32_t given;        /* the options that came, as bits */
    const char *type_name; /* NULL where --type-number gave the type */
    int type_given;
    uint8_t type;
    uint8_t marks; /* flags given by name, which no part stands for */
    int flags_given;
    uint8_t flags; /* --flags, in place of all that the other options say */
    uint32_t userid;
    uint32_t rolemask;
    struct field_value first;
    struct field_value second;
    uint8_t routes[ROUTES_ROOM];
    size_t routes_length;
    const char *topic; /* here and below: NULL where not given */
    const char *payload_text;
    const char *payload_json; /* the text, without the zero byte that goes behind it */
    const char *payload_file;
};

struct words;

void start_write_options(struct write_options *options);

/* Takes the option that `words` has come to. Returns 0, NO_SUCH_OPTION, or has said what is wrong.
 */
int take_write_option(struct write_options *options, struct words *words);

/* The type of a message whose options do not give one. */
void default_type(struct write_options *options, uint8_t type);

/* Looks at all of them, once they are taken. Returns 0, or has said what is wrong. */
int check_write_options(struct write_options *options);

#endif

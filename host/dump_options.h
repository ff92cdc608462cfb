/* What `flux_frame dump` was asked to show. */
#ifndef HOST_DUMP_OPTIONS_H
#define HOST_DUMP_OPTIONS_H

#include <stdint.h>

#include "dump_fields.h"
#include "dump_select.h"

struct dump_options {
    const char *file; /* here and below: NULL where not given */
    const char *payload_out;
    const char *frame_out;
    const char *frame_text;    /* --frame as it was given */
    uint32_t frame;            /* and its number */
    const char *fields;        /* --fields as it was given */
    struct asked_fields asked; /* and what it asks for */
    int mdp;                   /* the input is a Majordomo command */
    int all;
    int json;
    int summary;
    int follow;
    int skip_refused;
    struct selection selection; /* with --frame in it, where any of its own options is given */
};

/* Takes the words. Returns 0, EXIT_SHOWN, or has said what is wrong. */
int read_dump_options(struct dump_options *options, int count, char **words);

/*
 * The option by which a frame's bytes are written to a file, and nothing is shown; NULL where there
 * is none.
 */
const char *writes_bytes(const struct dump_options *options);

#endif

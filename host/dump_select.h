/* Which frames of a capture `flux_frame dump` was asked for. */
#ifndef HOST_DUMP_SELECT_H
#define HOST_DUMP_SELECT_H

#include <stdint.h>

struct dump;
struct words;

/* What all of the options together select. Where none is given that is every frame. */
struct selection {
    const char *type; /* here and below, as it was given: NULL where it was not */
    const char *topic;
    const char *service;
    const char *matchtag;
    const char *frames;
    int errors;
    /* What check_selection makes of them. */
    uint8_t types;                  /* bits of the types of which there may be any */
    uint32_t tag;                   /* the matchtag */
    unsigned long long first, last; /* the first and the last frame */
};

/* Takes the option that `words` has come to. Returns 0, NO_SUCH_OPTION, or has said what is wrong.
 */
int take_selection(struct selection *selection, struct words *words);

/* Looks at all of them, once they are taken. Returns 0, or has said what is wrong. */
int check_selection(struct selection *selection);

/* Whether any of the options is given. */
int is_selective(const struct selection *selection);

/*
 * Of an accepted frame: whether the options ask about it, which is all of them but --errors, for
 * which it has to be a response; and whether they select it, its errnum too.
 */
int asks_about(const struct selection *selection, const struct dump *dump);
int selects(const struct selection *selection, const struct dump *dump);

#endif

/* What walk, home and trip were asked for: a floor, a message, where it begins, and the form. */
#ifndef HOST_FLOOR_ASKED_H
#define HOST_FLOOR_ASKED_H

#include "floor_answer.h"
#include "floor_form.h"
#include "floor_play.h"
#include "make_frame.h"
#include "write_options.h"

struct asked {
    const char *command;
    const char *entry; /* the option that gives the rank */
    uint8_t type;      /* of a message that the options describe */
    int any_type;      /* whether a frame may be of another type */
    int answers;       /* whether the command takes an answer */
    const char *rank;
    const char *floor;
    const char *frame;
    const char *output;
    struct form form;
    struct write_options message;
    struct answer answer;
};

/*
 * Takes the words of the command, then reads the floor and the message, and the answer's files if
 * there is one: all that the play needs. Returns 0, or the exit status, and has told what is wrong,
 * in the form that was asked for.
 */
int read_asked(struct asked *asked, int count, char **words, struct play *play);

/*
 * Tells that this file was refused before anything was played, or the message that options describe
 * where file is NULL: on standard error, or as an object. Returns EXIT_REFUSED.
 */
int tell_unplayed(const struct asked *asked, const struct play *play, const char *file,
                  const struct write_refusal *why);

/* Writes the frame in the buffer to the output, if one was named. Returns 0, or has said why not.
 */
int write_rest(const struct asked *asked, const struct play *play);

#endif

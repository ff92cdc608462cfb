/* The answer to a request that is delivered: a framed response, or what one is made of. */
#ifndef HOST_FLOOR_ANSWER_H
#define HOST_FLOOR_ANSWER_H

#include "files.h"
#include "floor_tell.h"

struct words;

struct answer {
    const char *file; /* here and below: NULL where not given */
    const char *errnum;
    const char *payload_file;
    const char *payload_text;
    uint32_t number;                      /* the errnum */
    uint8_t frame[LAMPREYCOIL_WALK_ROOM]; /* the framed response */
    size_t payload_length;
    uint8_t payload[INPUT_MAX + 1];
};

/* Takes the option that `words` has come to. Returns 0, NO_SUCH_OPTION, or has said what is wrong.
 */
int take_answer(struct answer *answer, struct words *words);

/* Looks at all of them, once they are taken. Returns 0, or has said what is wrong. */
int check_answer(struct answer *answer);

int answer_given(const struct answer *answer);

/*
 * Reads the file that holds the response or its payload. Returns 0; EXIT_REFUSED with the reader's
 * refusal, which is not said yet; or has said what is wrong.
 */
int read_answer(struct answer *answer, const struct floor *floor, uint32_t *refusal);

/*
 * Puts the answer to the request in this frame to the front of out, which has
 * LAMPREYCOIL_WALK_ROOM bytes. Returns 0, or the writer's refusal.
 */
uint32_t make_answer(const struct answer *answer, const uint8_t *request, uint8_t *out);

/*
 * Reads the file's one frame to the front of buffer, which has LAMPREYCOIL_WALK_ROOM bytes, and
 * looks at it. Returns as read_answer.
 */
int read_one_frame(const char *name, const struct floor *floor, uint8_t *buffer, struct seen *seen,
                   uint32_t *refusal);

#endif

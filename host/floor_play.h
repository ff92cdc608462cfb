/* A message played over a floor: every step, and where and how it ends. */
#ifndef HOST_FLOOR_PLAY_H
#define HOST_FLOOR_PLAY_H

#include "floor_tell.h"

/* More steps than any walk makes: a response has 64 routes, a request crosses 32 links. */
enum { STEPS_MOST = 100 };

/* One broker's step: what it saw, and what it answered. */
struct step {
    uint32_t rank;
    struct seen seen;
    uint32_t refusal;
    uint8_t record[LAMPREYCOIL_STEP_RECORD]; /* zeros where it was refused */
};

struct play {
    const struct floor *floor;
    uint32_t enter;
    uint8_t buffer[LAMPREYCOIL_WALK_ROOM];
    uint8_t entered[LAMPREYCOIL_WALK_ROOM]; /* the buffer on entry, then what the walk call left */
    struct step steps[STEPS_MOST];
    uint32_t links;   /* the steps are one more */
    struct seen rest; /* the message as the last step left it; all zeros if that is no frame */
    int status;       /* the exit status: what the end says */
};

/*
 * Plays the message in the buffer from `enter` on, by the step call and by the walk call. If the
 * two differ it has said so, and the status is EXIT_DIFFERS.
 */
void play_message(struct play *play);

/* The last step, and a number of its record. */
const struct step *last_step(const struct play *play);
uint32_t last_number(const struct play *play, size_t index);

/* Whether the message came to rest: it was not refused, and the calls do not differ. */
int at_rest(const struct play *play);

/* How many brokers had the message: none where the rank is not in the tree. */
uint32_t brokers_visited(const struct play *play);

/* The answer of the whole in a word: "delivered", "error reply", .. "refused" or "differs". */
const char *play_answer(const struct play *play);

/* An answer of a step in a word. */
const char *step_answer(const struct step *step);

#endif

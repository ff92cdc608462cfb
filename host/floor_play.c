#include "floor_play.h"

#include <string.h>

#include "files.h"

const struct step *last_step(const struct play *play)
{
    return &play->steps[play->links];
}

uint32_t last_number(const struct play *play, size_t index)
{
    return lampreycoil_number(last_step(play)->record, index);
}

/* One step at this rank. */
static void play_step(struct play *play, uint32_t rank)
{
    const struct floor *floor = play->floor;
    struct step *step = &play->steps[play->links];

    step->rank = rank;
    memset(step->record, 0, sizeof step->record);
    see(&step->seen, floor, play->buffer, sizeof play->buffer);
    step->refusal =
        lampreycoil_step(floor->tree_table, floor->tree_length, floor->service_table,
                         floor->service_length, floor->identity_table, floor->identity_length, rank,
                         play->buffer, sizeof play->buffer, step->record, sizeof step->record);
}

/* The steps until an answer other than 2, or a refusal. Returns whether they end. */
static int play_steps(struct play *play)
{
    play->links = 0;
    play_step(play, play->enter);
    while (last_step(play)->refusal == LAMPREYCOIL_OK &&
           last_number(play, LAMPREYCOIL_STEP_ANSWER) == LAMPREYCOIL_FORWARD) {
        uint32_t next = last_number(play, LAMPREYCOIL_STEP_NUMBER);

        if (play->links + 1 == STEPS_MOST) {
            trouble("THE STEPS DO NOT END: %d were made", STEPS_MOST);
            return 0;
        }
        play->links++;
        play_step(play, next);
    }
    return 1;
}

static int same(const char *what, unsigned long step, unsigned long walk)
{
    if (step == walk)
        return 1;
    trouble("THE WALK CALL DIFFERS from the steps: %s %lu by the steps, %lu by the walk", what,
            step, walk);
    return 0;
}

static int same_bytes(const struct play *play)
{
    size_t at = 0;

    while (at < sizeof play->buffer && play->buffer[at] == play->entered[at])
        at++;
    if (at == sizeof play->buffer)
        return 1;
    trouble("THE WALK CALL DIFFERS from the steps: byte %lu of the buffer is %02X by the steps, "
            "%02X by the walk",
            (unsigned long)at, play->buffer[at], play->entered[at]);
    return 0;
}

/* Plays the same by the walk call, and compares all that it reports and leaves. */
static int same_walk(struct play *play)
{
    static const char *const names[] = {"answer", "number", "error", "length", "rank", "links"};
    const struct floor *floor = play->floor;
    uint8_t record[LAMPREYCOIL_WALK_RECORD] = {0};
    uint32_t refusal =
        lampreycoil_walk(floor->tree_table, floor->tree_length, floor->service_table,
                         floor->service_length, floor->identity_table, floor->identity_length,
                         play->enter, play->entered, sizeof play->entered, record, sizeof record);
    int good = same("refusal", last_step(play)->refusal, refusal);

    for (size_t i = LAMPREYCOIL_WALK_ANSWER; i <= LAMPREYCOIL_WALK_LENGTH; i++)
        good &= same(names[i], last_number(play, i), lampreycoil_number(record, i));
    good &= same(names[LAMPREYCOIL_WALK_RANK], last_step(play)->rank,
                 lampreycoil_number(record, LAMPREYCOIL_WALK_RANK));
    good &= same(names[LAMPREYCOIL_WALK_LINKS], play->links,
                 lampreycoil_number(record, LAMPREYCOIL_WALK_LINKS));
    return same_bytes(play) && good;
}

/* What the end says. Only a delivery, and a response at home without an error, are a yes. */
static int end_status(const struct play *play)
{
    if (last_step(play)->refusal != LAMPREYCOIL_OK)
        return EXIT_REFUSED;
    switch (last_number(play, LAMPREYCOIL_STEP_ANSWER)) {
    case LAMPREYCOIL_DELIVERED:
        return EXIT_DONE;
    case LAMPREYCOIL_REPLIED:
        return EXIT_NO;
    case LAMPREYCOIL_SILENCED:
        return EXIT_SILENCED;
    case LAMPREYCOIL_HOME:
        return play->rest.type == LAMPREYCOIL_RESPONSE && play->rest.first == 0 ? EXIT_DONE
                                                                                : EXIT_NO;
    default:
        trouble("THE STEPS END with no answer that there is: %lu",
                (unsigned long)last_number(play, LAMPREYCOIL_STEP_ANSWER));
        return EXIT_DIFFERS;
    }
}

void play_message(struct play *play)
{
    memcpy(play->entered, play->buffer, sizeof play->entered);
    memset(&play->rest, 0, sizeof play->rest);
    int good = play_steps(play) && same_walk(play);
    if (see(&play->rest, play->floor, play->buffer, sizeof play->buffer) != LAMPREYCOIL_OK) {
        trouble("THE STEPS LEAVE what is no frame");
        good = 0;
    }
    play->status = good ? end_status(play) : EXIT_DIFFERS;
}

int at_rest(const struct play *play)
{
    return play->status != EXIT_REFUSED && play->status != EXIT_DIFFERS;
}

uint32_t brokers_visited(const struct play *play)
{
    return play->steps[0].refusal == LAMPREYCOIL_RANK_WRONG ? 0 : play->links + 1;
}

const char *step_answer(const struct step *step)
{
    static const char *const answers[] = {"refused",     "delivered", "forward",
                                          "error reply", "silenced",  "home"};
    uint32_t answer = lampreycoil_number(step->record, LAMPREYCOIL_STEP_ANSWER);

    return answer < sizeof answers / sizeof answers[0] ? answers[answer] : "unknown";
}

const char *play_answer(const struct play *play)
{
    return play->status == EXIT_DIFFERS ? "differs" : step_answer(last_step(play));
}

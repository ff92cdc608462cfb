#include "floor_text.h"

#include <stdio.h>

#include "floor_show.h"

/* A tree with more ranks hides what is told above it. */
enum { RANKS_DRAWN = 64 };

/* What a picture is of. */
struct ways {
    const struct play *there, *back;
};

static void tell_rest(const struct play *play)
{
    if (play->rest.length == 0)
        return;
    printf("%s", at_rest(play) ? "at rest   " : "left      ");
    tell_message(&play->rest);
    tell_routes(play->floor, play->buffer, sizeof play->buffer);
}

void tell_play(const struct play *play)
{
    const struct seen *message = &play->steps[0].seen;

    printf("%s    at rank %lu\nmessage   ",
           message->type == LAMPREYCOIL_RESPONSE ? "starts" : "enters", (unsigned long)play->enter);
    tell_message(message);
    putchar('\n');
    for (uint32_t i = 0; i <= play->links; i++) {
        const struct step *step = &play->steps[i];

        printf("step %-4lu ", (unsigned long)i + 1);
        tell_step(play->floor, &step->seen, step->rank, step->refusal, step->record);
    }
    putchar('\n');
    tell_rest(play);
}

/* The numbers of the steps that the broker at `rank` made; returns how many. */
static int draw_visits(struct drawing *drawing, const struct play *play, const char *word,
                       uint32_t rank)
{
    int here = 0;

    for (uint32_t i = 0; i < brokers_visited(play); i++) {
        if (play->steps[i].rank == rank)
            draw_words(drawing, "%s%lu", here++ == 0 ? word : ", ", (unsigned long)i + 1);
    }
    return here;
}

/* A rank's services, and when the message came by. */
static void note_visits(struct drawing *drawing, const struct floor *floor, uint32_t rank,
                        const void *more)
{
    const struct ways *ways = more;
    const struct play *last = ways->back == NULL ? ways->there : ways->back;
    int here = draw_visits(drawing, ways->there, "step ", rank);

    if (ways->back != NULL)
        here += draw_visits(drawing, ways->back, here == 0 ? "back " : ", back ", rank);
    if (here == 0)
        draw_words(drawing, "-");
    if (rank == last_step(last)->rank)
        draw_words(drawing, at_rest(last) ? ": at rest here" : ": ends here");
    if (!has_services(floor, rank))
        return;
    draw_words(drawing, "  [");
    draw_services(drawing, rank);
    draw_words(drawing, "]");
}

void tell_tree(const struct form *form, const struct play *there, const struct play *back)
{
    const struct ways ways = {there, back};
    unsigned long ranks = there->floor->ranks;

    putchar('\n');
    if (ranks <= RANKS_DRAWN || form->tree)
        draw_tree(there->floor, "visited  [services]", note_visits, &ways);
    else
        printf("the tree has %lu ranks: --tree draws it\n", ranks);
}

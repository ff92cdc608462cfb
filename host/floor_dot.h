/* A floor, and what was played over it, as a graph for Graphviz. */
#ifndef HOST_FLOOR_DOT_H
#define HOST_FLOOR_DOT_H

#include "floor_play.h"

struct graph {
    const struct floor *floor;
    const struct play *there, *back; /* the ways that were played, or NULL */
    int status;                      /* what they came to, as the exit status */
    const char *answer;              /* the same in a word */
    const char *title;               /* what stands above */
};

void draw_graph(const struct graph *graph);

#endif

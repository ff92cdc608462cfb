/* A floor as text: how large it is, and its tree. */
#ifndef HOST_FLOOR_SHOW_H
#define HOST_FLOOR_SHOW_H

#include "floor.h"

/* "7 ranks, depth 2, 2 service names, 3 registrations" */
void print_size(const struct floor *floor);

struct drawing;

/* Prints what stands behind a rank in the picture, by the two calls below. */
typedef void (*rank_note)(struct drawing *drawing, const struct floor *floor, uint32_t rank,
                          const void *more);

void draw_words(struct drawing *drawing, const char *format, ...);

/* The names of a rank's services, with spaces between them, on as many lines as they need. */
void draw_services(struct drawing *drawing, uint32_t rank);

/* Draws the tree; the notes stand below each other, behind the head's words. */
void draw_tree(const struct floor *floor, const char *head, rank_note note, const void *more);

#endif

/* What was played, as text behind the line with the result. */
#ifndef HOST_FLOOR_TEXT_H
#define HOST_FLOOR_TEXT_H

#include "floor_form.h"
#include "floor_play.h"

/* Where the message enters, each step, and what is at rest. */
void tell_play(const struct play *play);

/*
 * The tree with the steps of the walk, and those of the way back where `back` is not NULL; of a
 * large floor only where it is asked for.
 */
void tell_tree(const struct form *form, const struct play *there, const struct play *back);

#endif

/*
 * Files beside others, whose names they take once they are whole. None is left where the program
 * ends, be it by a signal that asks it to.
 */
#ifndef HOST_BESIDE_H
#define HOST_BESIDE_H

#include "files.h"
#include "places.h"

struct beside {
    char name[PLACE_ROOM]; /* empty where there is no such file */
};

/* One for each output of a command. */
extern struct beside besides[OUTPUTS_MOST];

/*
 * Until unwatch_endings, what asks the program to end has it remove these files first. What
 * unwatch_endings still finds of them it removes.
 */
void watch_endings(void);
void unwatch_endings(void);

/* Opens a new file in the folder of the path. Returns its descriptor, or -1 with errno. */
int open_beside(struct beside *beside, const char *path);

/* Gives the file this name, in place of what had it. Returns 0, or -1 with errno. */
int take_name(struct beside *beside, const char *path);

#endif

/* What both programs have: a name, the text of --help, and commands. Each gives its own. */
#ifndef HOST_PROGRAM_H
#define HOST_PROGRAM_H

#include "words.h"

extern const char program[];
extern const char usage[];

/* The exit statuses, which are the same for both: the end of every help. */
extern const char statuses[];

/* A command gets the words after its name, and returns the exit status. */
struct command {
    const char *name;
    int (*run)(int count, char **words);
};

/* The last one has no name. */
extern const struct command commands[];

/*
 * For an option that the command has not itself: every command has --help and --version. Returns
 * EXIT_SHOWN, or has said what is wrong.
 */
int other_option(const struct words *words, const char *command);

#endif

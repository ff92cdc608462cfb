/*
 * Which file the name of an output means. Two names may mean one file: by a link, by another way
 * to the same folder, or because standard output goes to it.
 */
#ifndef HOST_PLACES_H
#define HOST_PLACES_H

#include <stddef.h>
#include <sys/stat.h>

/* Room for the longest name that the system takes. */
enum { PLACE_ROOM = 4096 };

struct place {
    int there;             /* something has the name already */
    int open_file;         /* the name is that of an open file, as /dev/stdout is */
    struct stat is;        /* what is there; or else the folder that it would be in */
    char path[PLACE_ROOM]; /* the name that is no link; of standard output, nothing */
};

/* Whether a name is that of standard output, or of standard input: NULL or "-". */
int is_standard(const char *name);

/* Finds the place of an output, or of standard output. Returns 0, or -1 with errno. */
int find_place(struct place *place, const char *name);

/* Where the last name of a path begins: behind its folder, which may be nothing. */
size_t last_name(const char *path);

/*
 * Whether what is written to one is lost, or mixed with what is written to the other. A device
 * such as /dev/null loses nothing by being both.
 */
int same_place(const struct place *one, const struct place *other);

#endif

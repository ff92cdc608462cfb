/* lstat and readlink are POSIX. */
#define _POSIX_C_SOURCE 200112L

#include "places.h"

#include <errno.h>
#include <string.h>
#include <unistd.h>

/* More links one behind another than the system itself follows. */
enum { LINKS_MOST = 40 };

int is_standard(const char *name)
{
    return name == NULL || strcmp(name, "-") == 0;
}

size_t last_name(const char *path)
{
    const char *slash = strrchr(path, '/');

    return slash == NULL ? 0 : (size_t)(slash - path) + 1;
}

static int same_file(const struct stat *one, const struct stat *other)
{
    return one->st_dev == other->st_dev && one->st_ino == other->st_ino;
}

/* The links in /proc are the files that a program has open, whatever name these have by now. */
static int is_open_file(const struct stat *link)
{
    struct stat proc;

    return stat("/proc", &proc) == 0 && link->st_dev == proc.st_dev;
}

/* Puts the target of the link in its place: behind its folder, unless it begins at the root. */
static int follow(char path[PLACE_ROOM])
{
    char target[PLACE_ROOM];
    ssize_t length = readlink(path, target, sizeof target);
    size_t front;

    if (length < 0)
        return -1;
    front = length > 0 && target[0] == '/' ? 0 : last_name(path);
    if (front + (size_t)length >= PLACE_ROOM) {
        errno = ENAMETOOLONG;
        return -1;
    }
    memcpy(path + front, target, (size_t)length);
    path[front + (size_t)length] = '\0';
    return 0;
}

/* Follows links up to a name that is none, or that nothing has, or that is of an open file. */
static int find_end(struct place *place)
{
    struct stat link;

    for (int links = 0; lstat(place->path, &link) == 0 && S_ISLNK(link.st_mode); links++) {
        place->open_file = is_open_file(&link);
        if (place->open_file)
            return 0;
        if (links == LINKS_MOST) {
            errno = ELOOP;
            return -1;
        }
        if (follow(place->path) != 0)
            return -1;
    }
    return 0;
}

/* The folder of a name that nothing has. What ends with a slash would be a folder itself. */
static int find_folder(struct place *place)
{
    char folder[PLACE_ROOM + 1];
    size_t length = last_name(place->path);

    if (place->path[length] == '\0') {
        errno = length == 0 ? ENOENT : EISDIR;
        return -1;
    }
    memcpy(folder, place->path, length);
    memcpy(folder + length, ".", sizeof ".");
    return stat(folder, &place->is);
}

int find_place(struct place *place, const char *name)
{
    memset(place, 0, sizeof *place);
    place->there = 1;
    if (is_standard(name))
        return fstat(STDOUT_FILENO, &place->is);
    if (strlen(name) >= sizeof place->path) {
        errno = ENAMETOOLONG;
        return -1;
    }
    strcpy(place->path, name);
    if (find_end(place) != 0)
        return -1;
    if (stat(place->path, &place->is) == 0)
        return 0;
    place->there = 0;
    return errno == ENOENT ? find_folder(place) : -1;
}

int same_place(const struct place *one, const struct place *other)
{
    if (one->there != other->there || !same_file(&one->is, &other->is))
        return 0;
    if (one->there)
        return !S_ISCHR(one->is.st_mode);
    return strcmp(one->path + last_name(one->path), other->path + last_name(other->path)) == 0;
}

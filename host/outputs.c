/*
 * Bytes out. A regular file is replaced as a whole: its bytes are written to a file beside it,
 * which takes its name only once they are all there. So whatever fails, the old file stays as it
 * was. What is no regular file is written as it is.
 */
/* fchown, fsync and O_CLOEXEC are POSIX. */
#define _XOPEN_SOURCE 700

#include <errno.h>
#include <fcntl.h>
#include <string.h>
#include <unistd.h>

#include "beside.h"
#include "files.h"
#include "places.h"

/* An output that is open. */
struct sink {
    const struct output *output;
    struct place place;
    struct beside *beside; /* the file that takes its name; NULL of what is written as it is */
    int fd;                /* of that file, or of what is written as it is; -1 where none is open */
};

/* Says why an output was not written. A reader that went away has read what it wanted. */
static int unwritten(const char *name)
{
    if (errno == EPIPE)
        return EXIT_TROUBLE;
    return trouble("cannot write %s: %s", output_name(name), strerror(errno));
}

static int is_terminal(const char *name)
{
    return trouble("%s is a terminal, and what is to be written is binary: name a file",
                   output_name(name));
}

/* ---- what the outputs are, before anything is written */

int same_output(const char *one, const char *other)
{
    static struct place places[2];

    return find_place(&places[0], one) == 0 && find_place(&places[1], other) == 0 &&
           same_place(&places[0], &places[1]);
}

/* What is no regular file, such as a terminal or /dev/null, loses nothing by being both. */
int check_apart(const char *output, const char *input, const char *what)
{
    struct stat in, out;
    int in_there = is_standard(input) ? fstat(STDIN_FILENO, &in) : stat(input, &in);
    int out_there = is_standard(output) ? fstat(STDOUT_FILENO, &out) : stat(output, &out);

    if (in_there != 0 || out_there != 0 || !S_ISREG(in.st_mode) || in.st_dev != out.st_dev ||
        in.st_ino != out.st_ino)
        return 0;
    return trouble("%s is the %s itself: name another file", output_name(output), what);
}

/* What cannot be opened is told when it is to be written. */
int check_beside_text(const char *output)
{
    struct stat out;

    if (same_output(output, NULL))
        return trouble("%s is where standard output goes: name another file", output_name(output));
    if (stat(output, &out) == 0 && S_ISCHR(out.st_mode)) {
        int fd = open(output, O_WRONLY | O_NOCTTY | O_NONBLOCK | O_CLOEXEC);
        int terminal = fd >= 0 && isatty(fd);

        if (fd >= 0)
            close(fd);
        return terminal ? is_terminal(output) : 0;
    }
    return 0;
}

/* ---- writing */

/* What is there already is opened too: one that may not be written is not replaced. */
static int open_sink(struct sink *sink, const struct output *output, struct beside *beside)
{
    const struct place *place = &sink->place;
    int whole = !is_standard(output->name);

    sink->output = output;
    sink->fd = -1;
    if (find_place(&sink->place, output->name) != 0)
        return unwritten(output->name);
    whole = whole && !place->open_file && (!place->there || S_ISREG(place->is.st_mode));
    sink->beside = whole ? beside : NULL;
    if (is_standard(output->name))
        sink->fd = STDOUT_FILENO;
    else if (place->there)
        /* Only who opened an open file knows what of it is to stay. */
        sink->fd = open(output->name, O_WRONLY | O_NOCTTY | O_CLOEXEC | O_APPEND);
    if (place->there && sink->fd < 0)
        return unwritten(output->name);
    return sink->fd >= 0 && isatty(sink->fd) ? is_terminal(output->name) : 0;
}

static int close_sink(struct sink *sink)
{
    int fd = sink->fd;

    sink->fd = -1;
    return fd < 0 || fd == STDOUT_FILENO ? 0 : close(fd);
}

static int write_bytes(int fd, const struct output *output)
{
    size_t at = 0;

    while (at < output->length) {
        ssize_t wrote = write(fd, output->bytes + at, output->length - at);

        if (wrote < 0 && errno != EINTR)
            return -1;
        at += wrote < 0 ? 0 : (size_t)wrote;
    }
    return 0;
}

/* Who may do what with the old file may do it with the new one, and nobody else. */
static int keep_mode(int fd, const struct stat *old)
{
    mode_t mode = old->st_mode & 07777;

    if (fchown(fd, (uid_t)-1, old->st_gid) != 0)
        mode &= ~(mode_t)07070;
    if (fchown(fd, old->st_uid, (gid_t)-1) != 0)
        mode &= 0777;
    return fchmod(fd, mode);
}

/* A file system that cannot say whether the bytes are on the disk says EINVAL. */
static int write_beside(struct sink *sink)
{
    const char *name = sink->output->name;

    close_sink(sink);
    sink->fd = open_beside(sink->beside, sink->place.path);
    if (sink->fd < 0 && sink->place.there)
        return trouble("cannot write %s: a file beside it, to take its place, cannot be made: %s",
                       name, strerror(errno));
    if (sink->fd < 0 || (sink->place.there && keep_mode(sink->fd, &sink->place.is) != 0) ||
        write_bytes(sink->fd, sink->output) != 0 || (fsync(sink->fd) != 0 && errno != EINVAL) ||
        close_sink(sink) != 0)
        return unwritten(name);
    return 0;
}

/* First all that can be taken back, then what cannot, and the names last. */
static int write_sinks(struct sink *sinks, size_t count)
{
    int status = 0;

    for (size_t i = 0; status == 0 && i < count; i++) {
        if (sinks[i].beside != NULL)
            status = write_beside(&sinks[i]);
    }
    for (size_t i = 0; status == 0 && i < count; i++) {
        if (sinks[i].beside == NULL &&
            (write_bytes(sinks[i].fd, sinks[i].output) != 0 || close_sink(&sinks[i]) != 0))
            status = unwritten(sinks[i].output->name);
    }
    for (size_t i = 0; status == 0 && i < count; i++) {
        if (sinks[i].beside != NULL && take_name(sinks[i].beside, sinks[i].place.path) != 0)
            status = unwritten(sinks[i].output->name);
    }
    return status;
}

static int open_sinks(struct sink *sinks, const struct output *outputs, size_t count)
{
    int status = 0;

    for (size_t i = 0; i < count; i++)
        sinks[i].fd = -1;
    for (size_t i = 0; status == 0 && i < count; i++) {
        status = open_sink(&sinks[i], &outputs[i], &besides[i]);
        if (status == 0 && i > 0 && same_place(&sinks[i - 1].place, &sinks[i].place))
            status = trouble("%s and %s are one file", output_name(outputs[i - 1].name),
                             output_name(outputs[i].name));
    }
    return status;
}

int write_outputs(const struct output *outputs, size_t count)
{
    static struct sink sinks[OUTPUTS_MOST];
    int status = flush_output(); /* what is text stands in front of the bytes */

    if (status != 0)
        return status;
    status = open_sinks(sinks, outputs, count);
    if (status == 0) {
        watch_endings();
        status = write_sinks(sinks, count);
        unwatch_endings();
    }
    for (size_t i = 0; i < count; i++)
        close_sink(&sinks[i]);
    return status;
}

int write_all(const char *name, const uint8_t *bytes, size_t length)
{
    struct output output = {name, bytes, length};

    return write_outputs(&output, 1);
}

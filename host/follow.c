/* sigaction with its flags, poll, read and fstat are POSIX with XSI. */
#define _XOPEN_SOURCE 600

#include "follow.h"

#include <errno.h>
#include <poll.h>
#include <signal.h>
#include <string.h>
#include <sys/stat.h>
#include <unistd.h>

/* How long it waits, in milliseconds, before it looks again. */
enum { PAUSE = 100 };

static volatile sig_atomic_t interrupted;

static void interrupt(int signal_number)
{
    (void)signal_number;
    interrupted = 1;
}

/*
 * Also where SIGINT was ignored: a script's shell has it so for what runs beside it, and would have
 * no other way to end this with the stop told. What is being written then is written.
 */
void start_following(void)
{
    struct sigaction action;

    memset(&action, 0, sizeof action);
    action.sa_handler = interrupt;
    action.sa_flags = SA_RESTART | SA_RESETHAND;
    sigaction(SIGINT, &action, NULL);
}

/* What is known of the input: whether it is a regular file, and how much of that was not read. */
struct growth {
    int regular;
    off_t left; /* below 0 where the file got shorter than what was read of it */
};

static int look_at_growth(const struct input *input, struct growth *growth)
{
    struct stat now;
    int descriptor = fileno(input->stream);

    growth->regular = 0;
    growth->left = 0;
    if (fstat(descriptor, &now) != 0)
        return trouble("cannot read %s: %s", input->name, strerror(errno));
    if (S_ISREG(now.st_mode)) {
        off_t at = lseek(descriptor, 0, SEEK_CUR);

        growth->regular = 1;
        growth->left = now.st_size - at;
        if (growth->left < 0)
            return trouble("%s got shorter while it was followed: %lld bytes were read, and it "
                           "has %lld",
                           input->name, (long long)at, (long long)now.st_size);
    }
    return 0;
}

/*
 * Waits a while for a pipe to deliver, or lets the time pass for a file; *there says whether
 * something can be read. Where nobody reads standard output any more, nothing is waited for.
 */
static void wait_a_while(struct input *input, const struct growth *growth, int *there)
{
    struct pollfd looked[] = {{STDOUT_FILENO, 0, 0}, {fileno(input->stream), POLLIN, 0}};
    int ready;

    *there = growth->left > 0;
    if (*there)
        return;
    ready = poll(looked, growth->regular ? 1 : 2, interrupted ? 0 : PAUSE);
    if (ready > 0 && looked[0].revents != 0)
        input->ended = 1;
    *there = ready > 0 && looked[1].revents != 0;
}

int follow_input(struct input *input, uint8_t *bytes, size_t room, size_t *length)
{
    struct growth growth;

    *length = 0;
    while (!input->ended) {
        ssize_t got;
        int there, status = look_at_growth(input, &growth);

        if (status != 0)
            return status;
        wait_a_while(input, &growth, &there);
        if (interrupted) {
            input->ended = !there;
            return 0;
        }
        if (!there)
            continue;
        got = read(fileno(input->stream), bytes, room);
        if (got < 0 && errno != EINTR && errno != EAGAIN)
            return trouble("cannot read %s: %s", input->name, strerror(errno));
        if (got > 0) {
            *length = (size_t)got;
            return 0;
        }
        input->ended = got == 0 && !growth.regular;
    }
    return 0;
}

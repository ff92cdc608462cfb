/* sigaction and O_CLOEXEC are POSIX. */
#define _XOPEN_SOURCE 700

#include "beside.h"

#include <errno.h>
#include <fcntl.h>
#include <signal.h>
#include <stdio.h>
#include <string.h>
#include <unistd.h>

#include "program.h"

/* The signals that ask a program to end. */
static const int endings[] = {SIGHUP, SIGINT, SIGQUIT, SIGTERM};
enum { ENDINGS = sizeof endings / sizeof endings[0] };
static struct sigaction before[ENDINGS];

/* The names change only while these signals are held. */
struct beside besides[OUTPUTS_MOST];

static void hold_endings(sigset_t *mask)
{
    sigset_t set;

    sigemptyset(&set);
    for (size_t i = 0; i < ENDINGS; i++)
        sigaddset(&set, endings[i]);
    sigprocmask(SIG_BLOCK, &set, mask);
}

static void release_endings(const sigset_t *mask)
{
    sigprocmask(SIG_SETMASK, mask, NULL);
}

static void remove_besides(void)
{
    for (size_t i = 0; i < OUTPUTS_MOST; i++) {
        if (besides[i].name[0] != '\0')
            unlink(besides[i].name);
        besides[i].name[0] = '\0';
    }
}

/* The signal comes again, and ends the program, as soon as this returns. */
static void end(int number)
{
    remove_besides();
    signal(number, SIG_DFL);
    raise(number);
}

/* One that is ignored, as by nohup, stays so. */
void watch_endings(void)
{
    struct sigaction action;

    memset(&action, 0, sizeof action);
    sigemptyset(&action.sa_mask);
    action.sa_handler = end;
    for (size_t i = 0; i < ENDINGS; i++) {
        sigaction(endings[i], NULL, &before[i]);
        if (before[i].sa_handler != SIG_IGN)
            sigaction(endings[i], &action, NULL);
    }
}

void unwatch_endings(void)
{
    sigset_t mask;

    hold_endings(&mask);
    remove_besides();
    for (size_t i = 0; i < ENDINGS; i++)
        sigaction(endings[i], &before[i], NULL);
    release_endings(&mask);
}

int open_beside(struct beside *beside, const char *path)
{
    enum { TRIES = 100 };
    char name[PLACE_ROOM];
    sigset_t mask;
    int fd = -1, length;

    for (int i = 0; fd < 0 && i < TRIES && (i == 0 || errno == EEXIST); i++) {
        length = snprintf(name, sizeof name, "%.*s.%s-%ld-%d", (int)last_name(path), path, program,
                          (long)getpid(), i);
        if (length < 0 || (size_t)length >= sizeof name) {
            errno = ENAMETOOLONG;
            return -1;
        }
        hold_endings(&mask);
        fd = open(name, O_WRONLY | O_CREAT | O_EXCL | O_CLOEXEC, 0666);
        if (fd >= 0)
            memcpy(beside->name, name, (size_t)length + 1);
        release_endings(&mask);
    }
    return fd;
}

int take_name(struct beside *beside, const char *path)
{
    sigset_t mask;
    int failed;

    hold_endings(&mask);
    failed = rename(beside->name, path);
    if (failed == 0)
        beside->name[0] = '\0';
    release_endings(&mask);
    return failed;
}

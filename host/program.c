/* SIGPIPE, SIGXFSZ and fcntl are POSIX. */
#define _XOPEN_SOURCE 700

#include "program.h"

#include <errno.h>
#include <fcntl.h>
#include <signal.h>
#include <stdio.h>
#include <string.h>
#include <unistd.h>

#include "files.h"
#include "lampreycoil.h"

const char statuses[] =
    "\n"
    "Exit status:\n"
    "  0  yes: delivered, or home with errnum 0, or what was asked for was done and held\n"
    "  1  refused: a frame, a command, a table or a floor file; number and words say why\n"
    "  2  wrong usage, or a file that cannot be read or written; nothing is said of a\n"
    "     pipe whose reader went away, as in | head\n"
    "  3  two calls of the library differ, which must not be: please report it\n"
    "  4  the verdict is no: an error reply, a response home with an error, or findings\n"
    "  5  silenced: an error that nobody is told, because noresponse is set\n";

/* Ends the text that is shown in place of a command. */
static int shown(void)
{
    return flush_output() == 0 ? EXIT_SHOWN : EXIT_TROUBLE;
}

/* If the word asks for help or version, shows it and returns as above; returns 0 if not. */
static int show_if_asked(const char *word)
{
    if (strcmp(word, "--help") == 0 || strcmp(word, "-h") == 0) {
        fputs(usage, stdout);
        fputs(statuses, stdout);
        return shown();
    }
    if (strcmp(word, "--version") == 0) {
        printf("%s %s\n", program, LAMPREYCOIL_VERSION);
        return shown();
    }
    return 0;
}

int other_option(const struct words *words, const char *command)
{
    int status = show_if_asked(words->word);

    if (status != 0)
        return status;
    return trouble("unknown option '%s' of %s (see %s --help)", words->word, command, program);
}

static int run_command(const char *name, int count, char **words)
{
    for (const struct command *command = commands; command->name != NULL; command++) {
        if (strcmp(name, command->name) == 0)
            return command->run(count, words);
    }
    return trouble("unknown command '%s' (see %s --help)", name, program);
}

/* A standard stream that is closed stays so: no file that is opened gets its number. */
static void keep_closed(void)
{
    for (int fd = STDIN_FILENO; fd <= STDERR_FILENO; fd++) {
        if (fcntl(fd, F_GETFD) == -1 && errno == EBADF &&
            open("/dev/null", fd == STDIN_FILENO ? O_WRONLY : O_RDONLY) != fd)
            _exit(EXIT_TROUBLE);
    }
}

int main(int argc, char **argv)
{
    /* A reader that goes away, or a limit on a file's length, is an output that cannot be written.
     */
    signal(SIGPIPE, SIG_IGN);
    signal(SIGXFSZ, SIG_IGN);
    keep_closed();
    if (argc < 2) {
        fputs(usage, stderr);
        fputs(statuses, stderr);
        return EXIT_TROUBLE;
    }
    int status = show_if_asked(argv[1]);
    if (status == 0)
        status = run_command(argv[1], argc - 2, argv + 2);
    return status == EXIT_SHOWN ? EXIT_DONE : status;
}

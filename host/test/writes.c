/*
 * Runs a program with standard error on a socket that keeps what each write sends apart, and prints
 * how many writes there were: a line that is written in pieces can be torn by another program's.
 */
#define _POSIX_C_SOURCE 200112L

#include <stdio.h>
#include <sys/socket.h>
#include <sys/types.h>
#include <sys/wait.h>
#include <unistd.h>

static int run(int error, int other, char **words)
{
    if (dup2(error, STDERR_FILENO) < 0)
        return 127;
    close(error);
    close(other);
    execv(words[0], words);
    return 127;
}

int main(int argc, char **argv)
{
    static char bytes[65536];
    int ends[2], writes = 0;

    if (argc < 2 || socketpair(AF_UNIX, SOCK_SEQPACKET, 0, ends) != 0)
        return 2;
    pid_t child = fork();
    if (child < 0)
        return 2;
    if (child == 0)
        _exit(run(ends[1], ends[0], argv + 1));
    close(ends[1]);
    while (recv(ends[0], bytes, sizeof bytes, 0) > 0)
        writes++;
    waitpid(child, NULL, 0);
    printf("%d\n", writes);
    return 0;
}

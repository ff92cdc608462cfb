/* isatty, fstat and clock_gettime are POSIX. */
#define _POSIX_C_SOURCE 200112L

#include "progress.h"

#include <sys/stat.h>
#include <time.h>
#include <unistd.h>

/* How many bytes are read before the clock is looked at, and how many milliseconds a line stays. */
enum { STEP = 1048576, STAY = 500 };

static unsigned long long size; /* of the input; 0 where nothing is told */
static unsigned long long next; /* where the clock is looked at */
static long long told;          /* when the line was written last, in milliseconds */
static int width;               /* of the line that stands there; 0 where none does */

static long long now(void)
{
    struct timespec time = {0, 0};

    clock_gettime(CLOCK_MONOTONIC, &time);
    return (long long)time.tv_sec * 1000 + time.tv_nsec / 1000000;
}

void start_progress(FILE *stream)
{
    struct stat input;

    size = 0;
    if (isatty(STDERR_FILENO) && fstat(fileno(stream), &input) == 0 && S_ISREG(input.st_mode) &&
        input.st_size > PROGRESS_MIN)
        size = (unsigned long long)input.st_size;
    next = STEP;
    told = now() - STAY;
}

void tell_progress(unsigned long long bytes)
{
    if (size == 0 || bytes < next || bytes > size)
        return;
    next = bytes + STEP;
    if (now() - told < STAY)
        return;
    told = now();
    width = fprintf(stderr, "%3llu%%, %llu of %llu bytes", bytes * 100 / size, bytes, size);
    /* What is written next begins where this did. */
    fputc('\r', stderr);
    fflush(stderr);
}

void clear_progress(void)
{
    if (width > 0)
        fprintf(stderr, "%*s\r", width, "");
    width = 0;
}

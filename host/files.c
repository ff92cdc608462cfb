/* poll is POSIX. */
#define _POSIX_C_SOURCE 200112L

#include "files.h"

#include <errno.h>
#include <poll.h>
#include <stdarg.h>
#include <stdio.h>
#include <string.h>
#include <unistd.h>

#include "places.h"
#include "program.h"
#include "put.h"
#include "quoted.h"

int trouble(const char *format, ...)
{
    char text[1024];
    va_list values;

    va_start(values, format);
    vsnprintf(text, sizeof text, format, values);
    va_end(values);
    /* In one piece: standard error may be shared with others. */
    put_to(stderr);
    put_text(program);
    put_text(": ");
    put_plain(text);
    put_byte('\n');
    put_to(stdout);
    return EXIT_TROUBLE;
}

const char *input_name(const char *name)
{
    return is_standard(name) ? "standard input" : name;
}

const char *output_name(const char *name)
{
    return is_standard(name) ? "standard output" : name;
}

int open_input(struct input *input, const char *name)
{
    input->name = input_name(name);
    input->ended = 0;
    input->stream = is_standard(name) ? stdin : fopen(name, "rb");
    if (input->stream == NULL)
        return trouble("cannot read %s: %s", name, strerror(errno));
    return 0;
}

/* Whether the input ends is asked by one byte more, which goes back. */
int read_input(struct input *input, uint8_t *bytes, size_t room, size_t *length)
{
    int next;

    *length = 0;
    if (input->ended)
        return 0;
    *length = fread(bytes, 1, room, input->stream);
    next = *length < room ? EOF : getc(input->stream);
    if (ferror(input->stream))
        return trouble("cannot read %s: %s", input->name, strerror(errno));
    input->ended = next == EOF;
    if (next != EOF)
        ungetc(next, input->stream);
    return 0;
}

void close_input(struct input *input)
{
    if (input->stream != stdin)
        fclose(input->stream);
}

int read_all(const char *name, uint8_t *bytes, size_t *length)
{
    struct input input;
    int status = open_input(&input, name);

    if (status != 0)
        return status;
    status = read_input(&input, bytes, INPUT_MAX + 1, length);
    if (status == 0 && *length > INPUT_MAX)
        status = trouble("%s is longer than %d bytes", input.name, INPUT_MAX);
    close_input(&input);
    return status;
}

/* Whether nobody reads standard output any more: errno may be of something since then. */
static int reader_is_gone(void)
{
    struct pollfd output = {.fd = STDOUT_FILENO, .events = POLLOUT};

    return errno == EPIPE || (poll(&output, 1, 0) == 1 && (output.revents & POLLERR) != 0);
}

/* A full disk may show only when the last bytes are flushed. */
int flush_output(void)
{
    int failed = ferror(stdout);

    if (fflush(stdout) == 0 && !failed)
        return 0;
    /* A reader that goes away, as head does, has read what it wanted. */
    if (reader_is_gone())
        return EXIT_TROUBLE;
    return trouble("cannot write standard output: %s", strerror(errno));
}

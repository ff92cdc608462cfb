/* Files in, whole or piece by piece, and out, and what is said when something is wrong. */
#ifndef HOST_FILES_H
#define HOST_FILES_H

#include <stddef.h>
#include <stdint.h>
#include <stdio.h>

/*
 * What the program exits with: the table that `statuses` (program.h) tells. EXIT_SHOWN is for a
 * command that showed help or version in place of doing anything: the program exits with EXIT_DONE.
 */
enum {
    EXIT_SHOWN = -1,
    EXIT_DONE = 0,    /* yes */
    EXIT_REFUSED = 1, /* a frame, a command, a table or a floor file, whatever is wrong in it */
    EXIT_TROUBLE = 2, /* wrong usage, or a file that cannot be read or written */
    EXIT_DIFFERS = 3, /* two calls of the library differ */
    EXIT_NO = 4,      /* the verdict is no: an error, or findings */
    EXIT_SILENCED = 5 /* no error reply, because noresponse is set */
};

/* Far above the largest frame, so that the library and not this program judges a long input. */
enum { INPUT_MAX = 1048576 };

/*
 * Prints the program's name and the message to standard error, in one piece, and returns
 * EXIT_TROUBLE. Nothing goes to a terminal that it would obey: quoted.h says how it is shown.
 */
int trouble(const char *format, ...);

/* An input's and an output's name as a person is told it: that of NULL and "-" is in words. */
const char *input_name(const char *name);
const char *output_name(const char *name);

/* An input that is read piece by piece. */
struct input {
    FILE *stream;
    const char *name; /* as a person is told it */
    int ended;        /* nothing follows what was read */
};

/* Opens the file, or standard input if name is NULL or "-". Returns 0, or has said what is wrong.
 */
int open_input(struct input *input, const char *name);

/* Reads until room is full or the input ends; sets *length. Returns 0, or has said what is wrong.
 */
int read_input(struct input *input, uint8_t *bytes, size_t room, size_t *length);

void close_input(struct input *input);

/*
 * Reads all of the file, or of standard input if name is NULL or "-", and sets *length. bytes has
 * room for INPUT_MAX + 1, so that a longer input shows. Returns 0, or has said what is wrong.
 */
int read_all(const char *name, uint8_t *bytes, size_t *length);

/*
 * Whether the output, named as for write_all, is another file than the input, named as for
 * open_input: by writing it the input would be lost. Returns 0, or has said that it is the same;
 * `what` says what the input is.
 */
int check_apart(const char *output, const char *input, const char *what);

/*
 * Whether the output, named as for write_all, can be written by a command that shows text on
 * standard output: it is not where that goes, and no terminal. Returns 0, or has said what is
 * wrong.
 */
int check_beside_text(const char *output);

/* Whether two outputs, named as for write_all, are one file, though by names that differ. */
int same_output(const char *one, const char *other);

/* The most that one command writes. */
enum { OUTPUTS_MOST = 2 };

/* Bytes that go to a file, or to standard output if its name is NULL or "-". */
struct output {
    const char *name;
    const uint8_t *bytes;
    size_t length;
};

/*
 * Writes them all; not to a terminal, and no two to one file. A regular file gets its bytes as a
 * whole: where any output fails each stays as it was, or is not there. Returns 0, or has said what
 * is wrong; but of a pipe whose reader went away it says nothing.
 */
int write_outputs(const struct output *outputs, size_t count);

/* The same for one. */
int write_all(const char *name, const uint8_t *bytes, size_t length);

/*
 * Ends the text on standard output. Returns 0, or has said what is wrong; but of a pipe whose
 * reader went away it says nothing.
 */
int flush_output(void);

#endif

/*
 * What `flux_frame dump --mdp` shows: a Majordomo command, which is all of the input, or why the
 * library refuses it.
 */
#ifndef HOST_DUMP_COMMAND_H
#define HOST_DUMP_COMMAND_H

#include <stddef.h>
#include <stdint.h>

#include "dump_options.h"
#include "explain.h"
#include "lampreycoil.h"
#include "split.h"

/* The parts that are listed at the most: all of an accepted command, and of a refused one the
 * first. */
enum { COMMAND_PARTS_SHOWN = 4 + LAMPREYCOIL_COMMAND_PARTS_MAX };

/* A command, and what the library said of it. */
struct command_dump {
    const uint8_t *bytes;
    size_t length;
    int more; /* the input goes on behind these */
    uint32_t refusal;
    uint8_t record[LAMPREYCOIL_READ_COMMAND_RECORD]; /* where it was accepted */
    struct part parts[COMMAND_PARTS_SHOWN];
    size_t listed;          /* of the parts */
    size_t count;           /* all that can be split off; none where the command is too long */
    size_t end_at;          /* behind them */
    char reason[TOLD_ROOM]; /* where it was refused: one line of ASCII */
    int all;                /* show all bytes of the body */
};

/* Reads the input and shows it as the options ask. Returns the exit status. */
int dump_command(const struct dump_options *options);

/* The number at an index of the record. */
uint32_t commanded(const struct command_dump *dump, size_t index);

/* The body's parts, of an accepted command. They are the last that are listed. */
const struct part *body_parts(const struct command_dump *dump, size_t *count);

/* Why the command was refused, to its reason: what stands where the number says it is wrong. */
void explain_command(struct command_dump *dump);

/* Shows it, accepted or refused: for a person, and for a machine. */
void show_command(const struct command_dump *dump);
void show_json_command(const struct command_dump *dump);

#endif

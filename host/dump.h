/* What `flux_frame dump` shows, and the ways of showing it. */
#ifndef HOST_DUMP_H
#define HOST_DUMP_H

#include <stddef.h>
#include <stdint.h>

#include "capture.h"
#include "explain.h"
#include "split.h"
#include "dump_options.h"
#include "dump_verdict.h"
#include "lampreycoil.h"

/* The header's fields. */
struct fields {
    uint8_t type;
    uint8_t flags;
    uint32_t userid;
    uint32_t rolemask;
    uint32_t first;
    uint32_t second;
};

/* What was counted on the way through a capture. */
struct tally {
    unsigned long long accepted;
    unsigned long long asked;    /* of these, about which the options ask */
    unsigned long long selected; /* of these, shown or written */
    unsigned long long passed;   /* refused, and passed by their own length */
};

/* A frame, and what the library said of it. */
struct dump {
    struct frame frame;
    uint32_t refusal;
    uint8_t record[LAMPREYCOIL_READ_RECORD]; /* where it was accepted */
    struct verdict verdict;                  /* where it has a payload, too, that was judged */
    struct split split;                      /* here and below: where it was refused */
    struct fault fault;
    int selected;                       /* it is accepted, and to be shown */
    int passed;                         /* it was refused and passed: its length is its own */
    int range_ended;                    /* no frame: --frames ends here */
    struct tally tally;                 /* with this one */
    const struct dump_options *options; /* what was asked for */
    const struct asked_fields *asked;   /* NULL where all members are written */
    int all;                            /* show all bytes of the payload */
    int placed; /* show which frame it is, and where in the capture: not for a single one */
};

/* Why no more frames of a capture are shown: what stands behind the last whole one. */
enum stop {
    STOP_END,        /* nothing */
    STOP_TORN,       /* the beginning of a frame */
    STOP_REFUSED,    /* a frame that is refused, or fewer than FRONT bytes that begin none */
    STOP_RANGE,      /* nobody looked: --frames ends here */
    STOP_INTERRUPTED /* nobody looked: SIGINT ended --follow */
};

/*
 * Goes on to the next frame, or to what stands in its place, and has the library look at it. Counts
 * it. Returns 0, or has said what is wrong.
 */
int look_at_next(struct capture *capture, struct dump *dump);

/* Whether no more frames follow what was looked at; and why, where that is so. */
int at_stop(const struct dump *dump);
enum stop stop_of(const struct dump *dump);

/*
 * Where the next frame would begin, to *next, as far as anything tells it: behind what was looked
 * at, or, where that was refused, behind that by its own front. Returns whether it is told.
 */
int next_begins(const struct dump *dump, unsigned long long *next);

/* Whether it ended with a frame that is torn or refused, or with none accepted at all. */
int is_broken_off(const struct dump *dump);

/* The exit status for all of what was looked at, once it has come to the stop. */
int stop_status(const struct dump *dump);

/* Room for the line that tells it. */
enum { STOP_ROOM = TOLD_ROOM + 600 };

/* The number at an index of the record. */
uint32_t dumped(const struct dump *dump, size_t index);

/* The fields of the header whose bytes these are. */
struct fields fields_at(const uint8_t *header);

/* The places of an accepted frame's parts that the record does not name. */
size_t delimiter_start(const struct dump *dump);
size_t header_start(const struct dump *dump);

/* Whether an accepted frame has a payload, which may be empty, and where that is. */
int has_payload(const struct dump *dump);
const uint8_t *payload_bytes(const struct dump *dump);
size_t payload_length(const struct dump *dump);

/* What is in a payload, for a person, behind the line that tells its length; put.h has it wait. */
void put_payload(const struct dump *dump);

/* One frame, whole or refused: for a person, and for a machine. */
void show_text(const struct dump *dump);
void show_json(const struct dump *dump);

/* A frame in one line: a whole one, and one that was refused and passed. */
void show_summary(const struct dump *dump);
void show_passed(const struct dump *dump);

/* How many frames there were, and why no more: in words, as a line of text, and for a machine. */
void tell_stop(const struct dump *dump, char text[STOP_ROOM]);
void show_stop(const struct dump *dump);
void show_json_stop(const struct dump *dump);

/*
 * Writes the one frame that was looked at to the files that the options name, and shows nothing.
 * Returns the exit status, and has said what is wrong.
 */
int write_one(const struct dump *dump);

/* The same for the one frame of a capture that the options select: there has to be just one. */
int write_selected(struct capture *capture, struct dump *dump);

/* Says on standard error that the frame that was looked at is refused. */
void tell_refused(const struct dump *dump);

#endif

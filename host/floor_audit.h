/* The audit of a capture: what was due to each request, and what the capture shows. */
#ifndef HOST_FLOOR_AUDIT_H
#define HOST_FLOOR_AUDIT_H

#include "capture.h"
#include "explain.h"
#include "floor.h"
#include "floor_book.h"

enum finding {
    BLANK_REPLY,         /* an error was due, and the reply says none */
    WRONG_ERROR,         /* an error was due, and the reply says another */
    NO_ERROR_REPLY,      /* an error was due, and nobody replied */
    SECOND_REPLY,        /* more than one reply to a request that is not streaming */
    REPLY_TO_NORESPONSE, /* a reply though noresponse was set */
    NEVER_ANSWERED,      /* a delivery without a reply */
    RESPONSE_TO_NOBODY,  /* no request that it could belong to */
    REFUSED_FRAME,
    REFUSED_WALK, /* of a request */
    FINDINGS
};

/* What a finding tells, beside its kind. */
struct told {
    unsigned long long number;                 /* of the frame in the capture */
    unsigned long long start;                  /* and where that begins */
    const struct lampreycoil_message *message; /* its topic and matchtag; NULL: refused */
    const struct booked *request;              /* the request of a response; NULL: none */
    uint32_t due;                              /* the error that was due; 0: none */
    uint32_t refusal;                          /* of a frame or a walk */
    const struct fault *fault;                 /* why a frame was refused; NULL: it was not */
};

/* A service that was asked for and that nobody registers. */
struct unregistered {
    struct unregistered *next; /* as they came */
    unsigned long long requests;
    size_t length;
    uint8_t name[LAMPREYCOIL_TOPIC_MAX];
};

/* So many of them are listed, whatever the capture asks for. */
enum { UNREGISTERED_MAX = 1024 };

struct counts {
    unsigned long long frames, requests, responses, events, controls;
    unsigned long long delivered;
    unsigned long long no_service, no_rank; /* error replies that were due: 38 and 113 */
    unsigned long long silenced;
    unsigned long long streams;            /* still open at the end, with a reply or more */
    unsigned long long other_unregistered; /* requests for services beyond those listed */
    unsigned long long findings[FINDINGS];
};

struct audit {
    const struct floor *floor;
    uint32_t enter; /* --enter; LAMPREYCOIL_NO_PARENT where it was not given */
    int json, quiet;
    struct book book;
    struct counts counts;
    struct unregistered *unregistered, *unregistered_last;
    size_t unregistered_count;
};

/* Judges an accepted frame of the capture. Returns 0, or has said what is wrong. */
int judge_frame(struct audit *audit, const struct frame *frame);

/* Judges what is still open when the capture ends. */
void judge_open(struct audit *audit);

/* Counts a finding and tells it. */
void find(struct audit *audit, enum finding kind, const struct told *told);

/* How many findings there are, of all kinds. */
unsigned long long all_findings(const struct counts *counts);

/* The counts, at the end, with the exit status that goes with them. */
void tell_counts(const struct audit *audit, int status);

#endif

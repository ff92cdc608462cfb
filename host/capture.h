/*
 * A capture: frames one behind another, as a socket gave them. It may be longer than what the
 * library looks at in one call and hold more frames than one list, so it is gone through by a
 * window that moves on. It may also grow while it is gone through.
 */
#ifndef HOST_CAPTURE_H
#define HOST_CAPTURE_H

#include <stddef.h>
#include <stdint.h>

#include "files.h"
#include "lampreycoil.h"

/* The frames of one list. There may be more in a window: the list then ends before it. */
enum { LISTED_MAX = 1024 };

struct capture {
    struct input input;
    uint8_t window[LAMPREYCOIL_STREAM_MAX];
    size_t length;                                     /* bytes in the window */
    size_t front;                                      /* those in front of it are done with */
    unsigned long long start;                          /* where the front is in the capture */
    uint8_t list[LISTED_MAX * LAMPREYCOIL_ENTRY_SIZE]; /* frames, from the front on */
    size_t listed;                                     /* how many */
    size_t next;                                       /* the one that is given next */
    size_t stop;                                       /* where behind the front the list stopped */
    uint32_t refusal;                                  /* and by what */
    unsigned long long given;                          /* frames given so far */
    int follow;                                        /* wait for more where the capture ends */
    int over;                                          /* no more is read */
};

/* A frame of a capture, or what stands where the next one should. */
struct frame {
    const uint8_t *bytes;      /* good until the next one is asked for */
    size_t length;             /* its own where it is whole; if not, of what is in sight */
    int whole;                 /* the library lists it */
    int more;                  /* not whole, and the capture goes on behind what is in sight */
    unsigned long long number; /* counted from 0 */
    unsigned long long start;  /* where it begins in the capture */
};

/* Opens the capture of this name, as open_input does. Returns 0, or has said what is wrong. */
int open_capture(struct capture *capture, const char *name);

/*
 * The same for one that is read on as it grows: next_frame waits for a frame to be whole, at the
 * end of a file too, until a pipe ends or SIGINT comes.
 */
int follow_capture(struct capture *capture, const char *name);

/*
 * Of a capture that was just opened by open_capture: whether it is one frame with nothing
 * behind, or no whole frame at its front. So a file that holds a single frame is told from several.
 */
int is_single(const struct capture *capture);

/*
 * Gives the next frame. Behind the last whole one comes what is left, which is not whole; nothing
 * comes behind that. Returns 0, or has said what is wrong.
 */
int next_frame(struct capture *capture, struct frame *frame);

/* Whether the next frame is in sight already: whoever asks for it then waits for nothing. */
int in_sight(const struct capture *capture);

/*
 * Of the frame that was given last, which is not whole: brings all into sight that the window has
 * room for, as far as it is there. Returns as next_frame does.
 */
int see_rest(struct capture *capture, struct frame *frame);

/*
 * Passes the frame that was given last, which is not whole, by the length that its own front has:
 * the next frame is then the one behind it, and it keeps its number. Returns that length, or 0
 * where nothing tells it, and nothing is passed: after the refusals 1, 2 and 3.
 */
size_t pass_refused(struct capture *capture, const struct frame *frame);

void close_capture(struct capture *capture);

#endif

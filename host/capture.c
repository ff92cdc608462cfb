#include "capture.h"

#include <string.h>

#include "explain.h"
#include "follow.h"

static int list_frames(struct capture *capture)
{
    uint8_t record[LAMPREYCOIL_STREAM_RECORD];

    /* Only for the record is the call refused; what stopped the list stands in it. */
    if (lampreycoil_read_stream(capture->window + capture->front, capture->length - capture->front,
                                capture->list, sizeof capture->list, record,
                                sizeof record) != LAMPREYCOIL_OK)
        return trouble("the library takes no record of %zu bytes", sizeof record);
    capture->next = 0;
    capture->listed = lampreycoil_number(record, LAMPREYCOIL_STREAM_ENTRIES);
    capture->stop = lampreycoil_number(record, LAMPREYCOIL_STREAM_STOP);
    capture->refusal = lampreycoil_number(record, LAMPREYCOIL_STREAM_REFUSAL);
    return 0;
}

/*
 * Moves the front to the window's beginning and reads more behind what is there: until the window
 * is full, or, of a capture that is followed, what comes next.
 */
static int fill_window(struct capture *capture)
{
    size_t more;
    int status;

    capture->length -= capture->front;
    memmove(capture->window, capture->window + capture->front, capture->length);
    capture->front = 0;
    status = (capture->follow ? follow_input
                              : read_input)(&capture->input, capture->window + capture->length,
                                            sizeof capture->window - capture->length, &more);
    if (status != 0)
        return status;
    capture->length += more;
    capture->over = capture->input.ended || (capture->follow && more == 0);
    return 0;
}

/*
 * Whether more bytes could make a whole frame of what is at the front, where none was listed. Of
 * any other refusal than 1 they could not. Of 1 they could, and there is room for them: the window
 * is longer than any frame. A capture that is followed is not waited for where no frame begins so.
 */
static int wants_more(const struct capture *capture)
{
    return !capture->over && capture->refusal == LAMPREYCOIL_INPUT_SHORT &&
           (!capture->follow ||
            may_begin(capture->window + capture->front, capture->length - capture->front));
}

/*
 * Moves the front on to where the list stopped, and lists what is behind it, whatever the stop was:
 * behind a full list there are more frames, and the rest of a frame that the window cut may follow.
 * A frame that is refused is then at the front, with nothing listed, and so is what is left at the
 * capture's end.
 */
static int move_on(struct capture *capture)
{
    int status;

    capture->front += capture->stop;
    capture->start += capture->stop;
    status = list_frames(capture);
    while (status == 0 && capture->listed == 0 && wants_more(capture)) {
        status = fill_window(capture);
        if (status == 0)
            status = list_frames(capture);
    }
    return status;
}

/* Opens it at its beginning, with nothing read. */
static int start_capture(struct capture *capture, const char *name, int follow)
{
    int status = open_input(&capture->input, name);

    capture->length = capture->front = 0;
    capture->start = capture->given = 0;
    capture->over = 0;
    capture->follow = follow;
    return status == 0 ? list_frames(capture) : status;
}

int open_capture(struct capture *capture, const char *name)
{
    int status = start_capture(capture, name, 0);

    if (status == 0 && (status = move_on(capture)) != 0)
        close_capture(capture);
    return status;
}

/*
 * The first frame is waited for when it is asked for. SIGINT is caught only behind the opening: it
 * ends the program while that waits for somebody to write to a pipe.
 */
int follow_capture(struct capture *capture, const char *name)
{
    int status = start_capture(capture, name, 1);

    if (status == 0)
        start_following();
    return status;
}

/* One frame cannot fill the window, so where the window ends with it the capture does. */
int is_single(const struct capture *capture)
{
    return capture->listed == 0 || (capture->listed == 1 && capture->stop == capture->length);
}

/* What is at the front, where it is no whole frame: all that is in sight. */
static void give_rest(const struct capture *capture, struct frame *frame)
{
    frame->bytes = capture->window + capture->front;
    frame->length = capture->length - capture->front;
    frame->more = !capture->input.ended && (capture->over || !capture->follow);
}

int next_frame(struct capture *capture, struct frame *frame)
{
    int status = 0;

    /* Where nothing is listed there may be more by now: of a capture that is followed. */
    while (status == 0 && capture->next == capture->listed &&
           (capture->stop > 0 || wants_more(capture)))
        status = move_on(capture);
    if (status != 0)
        return status;
    frame->whole = in_sight(capture);
    frame->number = capture->given;
    frame->start = capture->start;
    if (frame->whole) {
        struct lampreycoil_place place = lampreycoil_entry(capture->list, capture->next++);

        frame->bytes = capture->window + capture->front + place.start;
        frame->length = place.length;
        frame->more = 0;
        frame->start += place.start;
        capture->given++;
    } else {
        give_rest(capture, frame);
    }
    return 0;
}

int in_sight(const struct capture *capture)
{
    return capture->next < capture->listed;
}

int see_rest(struct capture *capture, struct frame *frame)
{
    int status = capture->follow || capture->over ? 0 : fill_window(capture);

    if (status == 0)
        give_rest(capture, frame);
    return status;
}

/* It is at the front, where the list stopped with nothing in it. */
size_t pass_refused(struct capture *capture, const struct frame *frame)
{
    size_t length;

    if (frame->whole ||
        lampreycoil_frame_length(frame->bytes, frame->length, &length) != LAMPREYCOIL_OK ||
        length > frame->length)
        return 0;
    capture->stop = length;
    capture->given++;
    return length;
}

void close_capture(struct capture *capture)
{
    close_input(&capture->input);
}

/* Looking at the frames of a capture, one after another, up to what ends it. */
#include <stdio.h>

#include "dump.h"
#include "files.h"
#include "progress.h"

uint32_t dumped(const struct dump *dump, size_t index)
{
    return lampreycoil_number(dump->record, index);
}

struct fields fields_at(const uint8_t *header)
{
    struct fields fields = {header[2],
                            header[3],
                            number_at(header + 4),
                            number_at(header + 8),
                            number_at(header + 12),
                            number_at(header + 16)};

    return fields;
}

size_t delimiter_start(const struct dump *dump)
{
    return FRONT + 1 + (size_t)dumped(dump, LAMPREYCOIL_READ_ROUTES) * LAMPREYCOIL_ROUTE_STEP;
}

size_t header_start(const struct dump *dump)
{
    return dumped(dump, LAMPREYCOIL_READ_TOOK) - HEADER;
}

int has_payload(const struct dump *dump)
{
    return (dumped(dump, LAMPREYCOIL_READ_FLAGS) & LAMPREYCOIL_PAYLOAD) != 0;
}

const uint8_t *payload_bytes(const struct dump *dump)
{
    return dump->frame.bytes + dumped(dump, LAMPREYCOIL_READ_PAYLOAD_START);
}

size_t payload_length(const struct dump *dump)
{
    return dumped(dump, LAMPREYCOIL_READ_PAYLOAD_LENGTH);
}

int at_stop(const struct dump *dump)
{
    return !dump->frame.whole && !dump->passed;
}

/* Only of a capture that was interrupted is there more behind what a frame may begin with. */
enum stop stop_of(const struct dump *dump)
{
    const struct frame *frame = &dump->frame;

    if (dump->range_ended)
        return STOP_RANGE;
    if (dump->refusal != LAMPREYCOIL_INPUT_SHORT || !may_begin(frame->bytes, frame->length))
        return STOP_REFUSED;
    if (frame->more)
        return STOP_INTERRUPTED;
    return frame->length == 0 ? STOP_END : STOP_TORN;
}

/*
 * Of a refused frame something is left to say where it has a byte at fault: the start was right and
 * the whole body is there, so the front may be right where the rest of the frame is not.
 */
int next_begins(const struct dump *dump, unsigned long long *next)
{
    enum stop stop = stop_of(dump);

    *next = dump->frame.start;
    if (stop == STOP_TORN)
        return 0;
    if (stop != STOP_REFUSED)
        return 1;
    if (!has_byte(&dump->fault))
        return 0;
    *next += FRONT + (unsigned long long)dump->split.body;
    return 1;
}

/* No frame at all is a refusal too, as it is of lampreycoil_read. */
int is_broken_off(const struct dump *dump)
{
    enum stop stop = stop_of(dump);

    return stop == STOP_TORN || stop == STOP_REFUSED || dump->tally.accepted == 0;
}

/* A dump is no verdict: it shows what was selected, and the stop tells how much that was. */
int stop_status(const struct dump *dump)
{
    return is_broken_off(dump) || dump->tally.passed > 0 ? EXIT_REFUSED : EXIT_DONE;
}

static void count_accepted(struct dump *dump)
{
    const struct selection *selection = &dump->options->selection;

    dump->selected = selects(selection, dump);
    dump->tally.accepted++;
    dump->tally.asked += asks_about(selection, dump) ? 1 : 0;
    dump->tally.selected += dump->selected ? 1 : 0;
}

/* Says all of a refused frame that can be said, and passes it if that was asked for and can be. */
static int look_at_refused(struct capture *capture, struct dump *dump)
{
    struct frame *frame = &dump->frame;
    size_t length = dump->options->skip_refused ? pass_refused(capture, frame) : 0;
    int status = 0;

    clear_progress();
    dump->passed = length > 0;
    if (dump->passed) {
        dump->tally.passed++;
        frame->length = length;
        frame->more = 0;
    } else {
        status = see_rest(capture, frame);
    }
    dump->refusal = explain(frame->bytes, frame->length, &dump->split, &dump->fault);
    return status;
}

/* In place of the frame behind the last that --frames names: it is not looked at. */
static void end_range(const struct capture *capture, struct dump *dump)
{
    clear_progress();
    dump->range_ended = 1;
    dump->frame.start += dump->frame.length;
    dump->frame.length = 0;
    dump->frame.whole = 0;
    dump->frame.number = capture->given;
    dump->refusal = LAMPREYCOIL_INPUT_SHORT;
}

int look_at_next(struct capture *capture, struct dump *dump)
{
    const struct frame *frame = &dump->frame;
    int status;

    dump->selected = dump->passed = 0;
    if (capture->given > dump->options->selection.last) {
        end_range(capture, dump);
        return 0;
    }
    if ((status = next_frame(capture, &dump->frame)) != 0)
        return status;
    tell_progress(frame->start);
    dump->refusal =
        lampreycoil_read(frame->bytes, frame->length, dump->record, sizeof dump->record);
    if (dump->refusal != LAMPREYCOIL_OK)
        return look_at_refused(capture, dump);
    count_accepted(dump);
    return 0;
}

/* A frame's bytes, written to the files that the options name. Nothing is shown beside them. */
#include <stdio.h>
#include <string.h>

#include "dump.h"
#include "files.h"
#include "progress.h"

/* Room for a frame's number and place, with their words. */
enum { NUMBER_ROOM = 80 };

void tell_refused(const struct dump *dump)
{
    char place[NUMBER_ROOM] = "";

    if (dump->placed)
        snprintf(place, sizeof place, "frame %llu, from byte %llu, is ", dump->frame.number,
                 dump->frame.start);
    trouble("%srefused, %lu: %s (%s)", place, (unsigned long)dump->refusal,
            lampreycoil_refusal_words(dump->refusal), dump->fault.told);
}

/* Where a payload is asked for and there is none, nothing is written. */
int write_one(const struct dump *dump)
{
    const struct dump_options *options = dump->options;
    struct output outputs[OUTPUTS_MOST];
    size_t count = 0;
    int status;

    clear_progress();
    if (dump->refusal != LAMPREYCOIL_OK) {
        tell_refused(dump);
        return EXIT_REFUSED;
    }
    if (options->payload_out != NULL && !has_payload(dump))
        return trouble("the frame has no payload to write to %s",
                       output_name(options->payload_out));
    if (options->payload_out != NULL)
        outputs[count++] =
            (struct output){options->payload_out, payload_bytes(dump), payload_length(dump)};
    if (options->frame_out != NULL)
        outputs[count++] =
            (struct output){options->frame_out, dump->frame.bytes, dump->frame.length};
    status = write_outputs(outputs, count);
    if (status != 0)
        return status;
    return dump->tally.passed > 0 ? EXIT_REFUSED : EXIT_DONE;
}

/* Goes through the capture and keeps the first frame that is selected, with its bytes. */
static int keep_selected(struct capture *capture, struct dump *dump, struct dump *kept)
{
    static uint8_t bytes[LAMPREYCOIL_FRAME_MAX];
    int status;

    while ((status = look_at_next(capture, dump)) == 0 && !at_stop(dump)) {
        if (dump->passed)
            tell_refused(dump);
        if (!dump->selected || dump->tally.selected > 1)
            continue;
        *kept = *dump;
        memcpy(bytes, dump->frame.bytes, dump->frame.length);
        kept->frame.bytes = bytes;
    }
    return status;
}

/* Where the capture is cut or goes wrong, nobody knows how many there would have been. */
int write_selected(struct capture *capture, struct dump *dump)
{
    static struct dump kept;
    char text[STOP_ROOM];
    int status;

    dump->placed = 1;
    status = keep_selected(capture, dump, &kept);
    if (status != 0)
        return status;
    if (is_broken_off(dump)) {
        tell_stop(dump, text);
        trouble("nothing is written: %s", text);
        return EXIT_REFUSED;
    }
    if (dump->tally.selected != 1)
        return trouble("%s is for one frame, and %llu of %llu %s selected: nothing is written",
                       writes_bytes(dump->options), dump->tally.selected, dump->tally.accepted,
                       dump->tally.selected == 0 ? "is" : "are");
    status = write_one(&kept);
    return status == EXIT_TROUBLE ? status : stop_status(dump);
}

#include <stdio.h>

#include "commands.h"
#include "dump.h"
#include "dump_command.h"
#include "files.h"
#include "places.h"
#include "progress.h"
#include "put.h"

static void show_form(const struct dump *dump)
{
    if (dump->options->json)
        show_json(dump);
    else if (!dump->options->summary)
        show_text(dump);
    else if (dump->frame.whole)
        show_summary(dump);
    else if (dump->passed)
        show_passed(dump);
    else
        show_stop(dump);
}

/* Shows what was looked at. Returns 0, or has said what is wrong. */
static int show(struct dump *dump)
{
    int status = 0;

    if (dump->refusal == LAMPREYCOIL_OK && has_payload(dump) &&
        (dump->asked == NULL || dump->asked->judged))
        status = judge_payload(payload_bytes(dump), payload_length(dump), &dump->verdict);
    clear_progress();
    if (status == 0)
        show_form(dump);
    return status;
}

/* Shows one of several: as text, with an empty line behind it. */
static int show_one_of(struct dump *dump)
{
    int status = show(dump);

    if (status == 0 && !dump->options->json && !dump->options->summary)
        putchar('\n');
    return status;
}

/* Shows the one frame that was looked at, or writes it. */
static int dump_one(struct dump *dump)
{
    int status;

    if (writes_bytes(dump->options) != NULL)
        return write_one(dump);
    status = show(dump);
    if (status == 0)
        status = flush_output();
    if (status != 0)
        return status;
    return dump->refusal == LAMPREYCOIL_OK && dump->tally.passed == 0 ? EXIT_DONE : EXIT_REFUSED;
}

/* Says why there is no such frame. */
static int not_there(const struct dump *dump)
{
    unsigned long number = dump->options->frame;
    char text[STOP_ROOM];

    if (dump->frame.number == 0 && stop_of(dump) == STOP_END)
        return trouble("there is no frame %lu: the capture is empty", number);
    tell_stop(dump, text);
    return trouble("there is no frame %lu (the first is frame 0): %s", number, text);
}

/* Tells of a frame in front of the one that --frame names: only one that is passed is shown. */
static int tell_before(struct dump *dump)
{
    if (!dump->passed)
        return 0;
    if (writes_bytes(dump->options) == NULL)
        return show_one_of(dump);
    tell_refused(dump);
    return 0;
}

/* Shows the frame that --frame names, which may be the one that is refused. */
static int dump_named(struct capture *capture, struct dump *dump)
{
    uint32_t named = dump->options->frame;
    int status;

    dump->placed = 1;
    while ((status = look_at_next(capture, dump)) == 0 && !at_stop(dump) &&
           dump->frame.number < named) {
        if ((status = tell_before(dump)) != 0)
            return status;
    }
    if (status != 0)
        return status;
    if (at_stop(dump) && (dump->frame.number < named || stop_of(dump) == STOP_END ||
                          stop_of(dump) == STOP_INTERRUPTED))
        return not_there(dump);
    return dump_one(dump);
}

/* Shows what no whole frame is, if anything, and why no more are shown. */
static int show_rest(struct dump *dump)
{
    enum stop stop = stop_of(dump);
    int status = 0;

    if ((stop == STOP_TORN || stop == STOP_REFUSED) && !dump->options->summary)
        status = show_one_of(dump);
    if (dump->options->json)
        show_json_stop(dump);
    else
        show_stop(dump);
    return status == 0 ? flush_output() : status;
}

/* Shows all frames that are selected or refused, and then the stop. */
static int dump_all(struct capture *capture, struct dump *dump)
{
    int status;

    dump->placed = 1;
    /* Where nobody reads on, nothing more is shown. */
    while ((status = look_at_next(capture, dump)) == 0 && !at_stop(dump) && !ferror(stdout)) {
        if (dump->selected || dump->passed)
            status = show_one_of(dump);
        /* Before anything is waited for, all is shown that there is. */
        if (status == 0 && dump->options->follow && !in_sight(capture))
            status = flush_output();
        if (status != 0)
            return status;
    }
    if (status == 0)
        status = ferror(stdout) ? flush_output() : show_rest(dump);
    return status == 0 ? stop_status(dump) : status;
}

/* A single frame is shown as such: it needs neither number nor place. */
static int dump_asked(struct capture *capture, struct dump *dump)
{
    const struct dump_options *options = dump->options;
    const char *writes = writes_bytes(options);
    int status;

    if (options->frame_text != NULL)
        return dump_named(capture, dump);
    if (is_selective(&options->selection) || options->skip_refused)
        return writes != NULL ? write_selected(capture, dump) : dump_all(capture, dump);
    if (options->summary || options->follow || !is_single(capture)) {
        if (writes != NULL)
            return trouble("%s is for one frame, and more follows the first: name one by --frame",
                           writes);
        return dump_all(capture, dump);
    }
    status = look_at_next(capture, dump);
    return status == 0 ? dump_one(dump) : status;
}

/* A file that is written is neither the capture nor, by another name, standard output. */
static int check_out(const struct dump_options *options, const char *output)
{
    int status = output == NULL ? 0 : check_apart(output, options->file, "capture");

    return status == 0 && !is_standard(output) ? check_beside_text(output) : status;
}

static int open_asked(struct capture *capture, const struct dump_options *options)
{
    int status = check_out(options, options->payload_out);

    if (status == 0)
        status = check_out(options, options->frame_out);
    if (status != 0)
        return status;
    return (options->follow ? follow_capture : open_capture)(capture, options->file);
}

int command_dump(int count, char **words)
{
    static struct capture capture;
    static struct dump dump;
    static struct dump_options options;

    int status = read_dump_options(&options, count, words);
    if (status == 0 && options.mdp)
        return dump_command(&options);
    if (status == 0)
        status = open_asked(&capture, &options);
    if (status != 0)
        return status;
    dump.options = &options;
    dump.all = options.all;
    dump.asked = options.fields == NULL ? NULL : &options.asked;
    put_in_blocks();
    if (!options.follow)
        start_progress(capture.input.stream);
    status = dump_asked(&capture, &dump);
    close_capture(&capture);
    return status;
}

/* flux_floor audit: the buyer's question, asked of a whole capture in one pass. */
#include "floor_audit.h"

#include <stdlib.h>
#include <string.h>

#include "explain.h"
#include "floor_commands.h"
#include "floor_form.h"
#include "floor_json.h"
#include "program.h"
#include "progress.h"
#include "split.h"
#include "write_options.h"

/* What an audit was asked for. */
struct audit_words {
    const char *floor;
    const char *capture;
    const char *enter;
    struct form form;
};

static int take_plain(struct audit_words *asked, const char *word)
{
    if (asked->floor == NULL)
        asked->floor = word;
    else if (asked->capture == NULL)
        asked->capture = word;
    else
        return trouble("audit takes a floor and a capture, and '%s' is one more", word);
    return 0;
}

static int take_words(struct audit_words *asked, struct words *words)
{
    enum word_kind kind;
    int status = 0;

    while (status == 0 && (kind = next_word(words)) != WORD_NONE) {
        if (kind == WORD_PLAIN)
            status = take_plain(asked, words->word);
        else if (word_is(words, "--enter"))
            status = word_once(words, &asked->enter);
        else
            status = take_form(&asked->form, words);
        if (status == NO_SUCH_OPTION)
            status = other_option(words, "audit");
    }
    return status;
}

static int check_words(const struct audit_words *asked, uint32_t *enter)
{
    *enter = LAMPREYCOIL_NO_PARENT;
    if (asked->floor == NULL || asked->capture == NULL)
        return trouble("audit needs the file of a floor and that of a capture (see %s --help)",
                       program);
    if (strcmp(asked->floor, "-") == 0 && strcmp(asked->capture, "-") == 0)
        return trouble("only one file can be standard input");
    if (asked->enter != NULL && parse_number(asked->enter, 10, UINT32_MAX, enter) != 0)
        return trouble("--enter takes a rank, a number, not '%s'", asked->enter);
    return check_form(&asked->form);
}

/* The floor, which has to be valid; with --json its mistakes are the object that is printed. */
static int load_audited(struct floor *floor, const struct audit_words *asked)
{
    int status = load_floor(floor, asked->floor);

    if (status == EXIT_TROUBLE)
        return status;
    if (status != 0 && asked->form.json) {
        json_floor("audit", floor, status, 0);
        return flush_output() == 0 ? status : EXIT_TROUBLE;
    }
    if (!asked->form.quiet || status == EXIT_DIFFERS)
        tell_found(floor, status);
    return status;
}

/* What stands where the next frame should: a refused frame, or one that is torn. */
static void judge_refused(struct audit *audit, const struct frame *frame)
{
    static struct split split;
    struct fault fault;
    struct told told = {.number = frame->number, .start = frame->start, .fault = &fault};

    told.refusal = explain(frame->bytes, frame->length, &split, &fault);
    find(audit, REFUSED_FRAME, &told);
}

/* Goes through the capture. Returns 0, or has said what is wrong. */
static int judge_capture(struct audit *audit, struct capture *capture)
{
    struct frame frame;
    int status;

    while ((status = next_frame(capture, &frame)) == 0 && !ferror(stdout)) {
        if (!frame.whole && frame.length == 0)
            break;
        tell_progress(frame.start);
        audit->counts.frames++;
        if (frame.whole) {
            if ((status = judge_frame(audit, &frame)) != 0)
                break;
        } else {
            judge_refused(audit, &frame);
            /* Nothing tells where the next one begins. */
            if (pass_refused(capture, &frame) == 0)
                break;
        }
    }
    return status;
}

/*
 * The counts, and the status. A capture without a frame is refused, as the reader refuses it. One
 * without a request shows nothing that was judged, and so it is no yes.
 */
static int end_audit(struct audit *audit)
{
    int status = EXIT_NO;

    judge_open(audit);
    if (audit->counts.frames == 0)
        status = EXIT_REFUSED;
    else if (audit->counts.requests > 0 && all_findings(&audit->counts) == 0)
        status = EXIT_DONE;
    tell_counts(audit, status);
    return flush_output() == 0 ? status : EXIT_TROUBLE;
}

static void close_audit(struct audit *audit)
{
    close_book(&audit->book);
    for (struct unregistered *at = audit->unregistered, *next; at != NULL; at = next) {
        next = at->next;
        free(at);
    }
}

static int audit_asked(struct audit *audit, const char *name)
{
    static struct capture capture;
    int status = open_capture(&capture, name);

    if (status != 0)
        return status;
    start_progress(capture.input.stream);
    status = judge_capture(audit, &capture);
    clear_progress();
    close_capture(&capture);
    if (status == 0)
        status = end_audit(audit);
    close_audit(audit);
    return status;
}

int command_audit(int count, char **words)
{
    static struct floor floor;
    static struct audit audit;
    struct words reading = {.words = words, .count = count};
    struct audit_words asked = {0};
    int status = take_words(&asked, &reading);

    memset(&audit, 0, sizeof audit);
    if (status == 0)
        status = check_words(&asked, &audit.enter);
    if (status == 0)
        status = load_audited(&floor, &asked);
    if (status == 0 && asked.enter != NULL && audit.enter >= floor.ranks)
        status = trouble("--enter takes a rank of the floor, and %s has no rank %s", floor.file,
                         asked.enter);
    if (status != 0)
        return status;
    audit.floor = &floor;
    audit.json = asked.form.json;
    audit.quiet = asked.form.quiet;
    return audit_asked(&audit, asked.capture);
}

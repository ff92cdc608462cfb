#include "dump_options.h"

#include <string.h>

#include "files.h"
#include "program.h"

static int take_file(struct dump_options *options, const char *word)
{
    if (options->file != NULL)
        return trouble("dump takes one file, not '%s' too", word);
    options->file = word;
    return 0;
}

static int take_words(struct dump_options *options, struct words *words)
{
    enum word_kind kind;
    int status = 0;

    while (status == 0 && (kind = next_word(words)) != WORD_NONE) {
        if (kind == WORD_PLAIN)
            status = take_file(options, words->word);
        else if (word_is(words, "--all"))
            status = word_flag(words, &options->all);
        else if (word_is(words, "--mdp"))
            status = word_flag(words, &options->mdp);
        else if (word_is(words, "--json"))
            status = word_flag(words, &options->json);
        else if (word_is(words, "--summary"))
            status = word_flag(words, &options->summary);
        else if (word_is(words, "--fields"))
            status = word_once(words, &options->fields);
        else if (word_is(words, "--frame"))
            status = word_once(words, &options->frame_text);
        else if (word_is(words, "--payload-out"))
            status = word_once(words, &options->payload_out);
        else if (word_is(words, "--frame-out"))
            status = word_once(words, &options->frame_out);
        else if (word_is(words, "--follow"))
            status = word_flag(words, &options->follow);
        else if (word_is(words, "--skip-refused"))
            status = word_flag(words, &options->skip_refused);
        else if ((status = take_selection(&options->selection, words)) == NO_SUCH_OPTION)
            status = other_option(words, "dump");
    }
    return status;
}

static int is_dash(const char *name)
{
    return name != NULL && strcmp(name, "-") == 0;
}

const char *writes_bytes(const struct dump_options *options)
{
    if (options->payload_out != NULL)
        return "--payload-out";
    return options->frame_out != NULL ? "--frame-out" : NULL;
}

/* Each of the ways to show frames has its own form, and bytes that are written leave none. */
static int check_forms(const struct dump_options *options)
{
    const char *form = options->json      ? "--json"
                       : options->summary ? "--summary"
                       : options->all     ? "--all"
                                          : NULL;

    if (writes_bytes(options) != NULL && form != NULL)
        return trouble("%s writes a file and shows nothing: leave out %s", writes_bytes(options),
                       form);
    if (options->json && options->summary)
        return trouble("--json is an object a frame, and --summary a line: give one of them");
    if (options->json && options->all)
        return trouble("--json has all bytes of the payload: leave out --all");
    if (options->summary && options->all)
        return trouble("--summary shows no payload: leave out --all");
    return 0;
}

static int check_outputs(const struct dump_options *options)
{
    if (options->follow && writes_bytes(options) != NULL && options->frame_text == NULL)
        return trouble("%s is for one frame, and --follow waits for more: name one by --frame",
                       writes_bytes(options));
    if (options->payload_out == NULL || options->frame_out == NULL)
        return 0;
    if (is_dash(options->payload_out) && is_dash(options->frame_out))
        return trouble("--payload-out and --frame-out both go to standard output: name a file for "
                       "one of them");
    if (same_output(options->payload_out, options->frame_out))
        return trouble("--payload-out and --frame-out name one file, %s", options->frame_out);
    return 0;
}

/* Beside other options --frame is one more of those that select. */
static int check_frame(struct dump_options *options)
{
    struct selection *selection = &options->selection;

    if (options->frame_text == NULL)
        return 0;
    if (selection->frames != NULL)
        return trouble("give --frame or --frames, not both");
    if (parse_number(options->frame_text, 10, UINT32_MAX, &options->frame) != 0)
        return trouble("--frame takes a frame's number, from 0 and at most %lu, not '%s'",
                       (unsigned long)UINT32_MAX, options->frame_text);
    if (is_selective(selection)) {
        selection->first = selection->last = options->frame;
        options->frame_text = NULL;
    }
    return 0;
}

/* An option that is about frames; NULL where none is given. */
static const char *about_frames(const struct dump_options *options)
{
    if (options->summary)
        return "--summary";
    if (options->fields != NULL)
        return "--fields";
    if (options->frame_text != NULL)
        return "--frame";
    if (options->follow)
        return "--follow";
    if (options->skip_refused)
        return "--skip-refused";
    if (is_selective(&options->selection))
        return "what selects frames";
    return writes_bytes(options);
}

static int check_mdp(const struct dump_options *options)
{
    const char *needless = options->mdp ? about_frames(options) : NULL;

    return needless == NULL ? 0
                            : trouble("--mdp shows one command, which is all of its input: leave "
                                      "out %s",
                                      needless);
}

static int check_options(struct dump_options *options)
{
    int status = check_mdp(options);

    if (status == 0)
        status = check_forms(options);
    if (status == 0)
        status = check_outputs(options);
    if (status == 0)
        status = check_selection(&options->selection);
    if (status == 0)
        status = check_frame(options);
    if (status != 0 || options->fields == NULL)
        return status;
    return options->json ? read_asked_fields(options->fields, &options->asked)
                         : trouble("--fields goes with --json alone");
}

int read_dump_options(struct dump_options *options, int count, char **words)
{
    struct words reading = {.words = words, .count = count};
    int status = take_words(options, &reading);

    return status == 0 ? check_options(options) : status;
}

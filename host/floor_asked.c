#include "floor_asked.h"

#include <string.h>

#include "files.h"
#include "floor_json.h"
#include "make_frame.h"
#include "names.h"
#include "program.h"
#include "quoted.h"

static int take_plain(struct asked *asked, const char *word)
{
    if (asked->floor == NULL)
        asked->floor = word;
    else if (asked->frame == NULL)
        asked->frame = word;
    else
        return trouble("%s takes a floor and a frame, and '%s' is one more", asked->command, word);
    return 0;
}

static int take_option(struct asked *asked, struct words *words)
{
    int status;

    if (word_is(words, asked->entry))
        return word_once(words, &asked->rank);
    if (word_is(words, "-o"))
        return word_once(words, &asked->output);
    status = take_form(&asked->form, words);
    if (status == NO_SUCH_OPTION && asked->answers)
        status = take_answer(&asked->answer, words);
    if (status == NO_SUCH_OPTION)
        status = take_write_option(&asked->message, words);
    return status == NO_SUCH_OPTION ? other_option(words, asked->command) : status;
}

static int take_words(struct asked *asked, int count, char **words)
{
    struct words reading = {.words = words, .count = count};
    enum word_kind kind;
    int status = 0;

    start_write_options(&asked->message);
    while (status == 0 && (kind = next_word(&reading)) != WORD_NONE)
        status =
            kind == WORD_PLAIN ? take_plain(asked, reading.word) : take_option(asked, &reading);
    return status;
}

/* The files that are read, and what they are called; NULL is one that is not read. */
enum { INPUTS = 5 };

struct named_input {
    const char *file;
    const char *what;
};

static void list_inputs(const struct asked *asked, struct named_input inputs[INPUTS])
{
    inputs[0] = (struct named_input){asked->floor, "floor"};
    inputs[1] = (struct named_input){asked->frame, "frame"};
    inputs[2] = (struct named_input){asked->message.payload_file, "payload"};
    inputs[3] = (struct named_input){asked->answer.file, "answer"};
    inputs[4] = (struct named_input){asked->answer.payload_file, "answer's payload"};
}

/* What is left of a walk takes the place of nothing that the walk is made of. */
static int check_files(const struct asked *asked)
{
    struct named_input inputs[INPUTS];
    int standard = 0, status = 0;

    list_inputs(asked, inputs);
    for (size_t i = 0; status == 0 && i < INPUTS; i++) {
        if (inputs[i].file == NULL)
            continue;
        standard += strcmp(inputs[i].file, "-") == 0;
        if (asked->output != NULL)
            status = check_apart(asked->output, inputs[i].file, inputs[i].what);
    }
    if (status == 0 && standard > 1)
        status = trouble("only one file can be standard input");
    return status == 0 && asked->output != NULL ? check_beside_text(asked->output) : status;
}

static int check_words(struct asked *asked, uint32_t *rank)
{
    int status = check_form(&asked->form);

    if (status != 0)
        return status;
    if (asked->floor == NULL)
        return trouble("%s needs the file of a floor (see %s --help)", asked->command, program);
    if (asked->rank == NULL)
        return trouble("%s needs %s RANK", asked->command, asked->entry);
    if (parse_number(asked->rank, 10, UINT32_MAX, rank) != 0)
        return trouble("%s takes a rank, a number, not '%s'", asked->entry, asked->rank);
    if (asked->frame != NULL && asked->message.given != 0)
        return trouble("give a frame or the options of a message, not both");
    if (asked->frame == NULL && asked->message.given == 0)
        return trouble("%s needs a frame, or the options of a message", asked->command);
    if (asked->output != NULL && strcmp(asked->output, "-") == 0)
        return trouble("-o takes a file: the walk is shown on standard output");
    if ((status = check_answer(&asked->answer)) != 0 || (status = check_files(asked)) != 0)
        return status;
    if (asked->frame != NULL)
        return 0;
    default_type(&asked->message, asked->type);
    return check_write_options(&asked->message);
}

int tell_unplayed(const struct asked *asked, const struct play *play, const char *file,
                  const struct write_refusal *why)
{
    if (asked->form.json)
        json_refused(asked, play, why->number, EXIT_REFUSED);
    else if (!asked->form.quiet && file == NULL)
        tell_frame_refused(why);
    else if (!asked->form.quiet)
        trouble("%s: refused, %lu: %s", input_name(file), (unsigned long)why->number,
                lampreycoil_refusal_words(why->number));
    return flush_output() == 0 ? EXIT_REFUSED : EXIT_TROUBLE;
}

/* The floor; in JSON its mistakes are told there, and its warnings on standard error. */
static int read_asked_floor(const struct asked *asked, const struct play *play, struct floor *floor)
{
    int status = load_floor(floor, asked->floor);

    if (status == EXIT_TROUBLE)
        return status;
    if (status != 0 && asked->form.json) {
        json_refused(asked, play, LAMPREYCOIL_OK, status);
        status = flush_output() == 0 ? status : EXIT_TROUBLE;
    } else if (!asked->form.quiet || status == EXIT_DIFFERS) {
        tell_found(floor, status);
    }
    return status;
}

/* The message, to the front of the play's buffer. */
static int read_message(const struct asked *asked, struct play *play)
{
    struct seen *seen = &play->steps[0].seen;
    struct write_refusal why = {.number = LAMPREYCOIL_OK};
    size_t length;
    int status;

    if (asked->frame == NULL) {
        status = try_frame(&asked->message, play->buffer, &length, &why);
        if (status == 0)
            see(seen, play->floor, play->buffer, length);
    } else {
        status = read_one_frame(asked->frame, play->floor, play->buffer, seen, &why.number);
    }
    if (status == EXIT_REFUSED)
        return tell_unplayed(asked, play, asked->frame, &why);
    /* What the library does not play it refuses. */
    if (status == 0 && !asked->any_type && seen->type != asked->type)
        return trouble("%s takes a %s, and this message is of type %s", asked->command,
                       type_by_number(asked->type)->name, type_by_number(seen->type)->name);
    return status;
}

int read_asked(struct asked *asked, int count, char **words, struct play *play)
{
    static struct floor floor;
    struct write_refusal why = {.number = LAMPREYCOIL_OK};
    int status = take_words(asked, count, words);

    play->floor = &floor;
    if (status == 0)
        status = check_words(asked, &play->enter);
    if (status == 0)
        status = read_asked_floor(asked, play, &floor);
    if (status == 0)
        status = read_message(asked, play);
    if (status != 0 || !asked->answers)
        return status;
    status = read_answer(&asked->answer, &floor, &why.number);
    if (status == EXIT_REFUSED)
        return tell_unplayed(asked, play, asked->answer.file, &why);
    return status;
}

int write_rest(const struct asked *asked, const struct play *play)
{
    if (asked->output == NULL)
        return 0;
    return write_all(asked->output, play->buffer, last_number(play, LAMPREYCOIL_STEP_LENGTH));
}

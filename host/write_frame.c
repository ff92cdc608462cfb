#include "commands.h"
#include "files.h"
#include "lampreycoil.h"
#include "make_frame.h"
#include "program.h"
#include "write_options.h"

static int take_words(struct words *words, struct write_options *options, const char **output)
{
    enum word_kind kind;

    while ((kind = next_word(words)) != WORD_NONE) {
        int status;

        if (kind == WORD_PLAIN)
            return trouble("write takes options alone, not '%s'", words->word);
        if (word_is(words, "-o"))
            status = word_once(words, output);
        else
            status = take_write_option(options, words);
        if (status == NO_SUCH_OPTION)
            status = other_option(words, "write");
        if (status != 0)
            return status;
    }
    return check_write_options(options);
}

int command_write(int count, char **words)
{
    static struct write_options options;
    static uint8_t frame[LAMPREYCOIL_FRAME_MAX];
    struct words reading = {.words = words, .count = count};
    const char *output = NULL;
    size_t length;

    start_write_options(&options);
    int status = take_words(&reading, &options, &output);
    if (status == 0 && options.payload_file != NULL)
        status = check_apart(output, options.payload_file, "payload");
    if (status == 0)
        status = make_frame(&options, frame, &length);
    return status == 0 ? write_all(output, frame, length) : status;
}

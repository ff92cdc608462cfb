/* fnmatch is POSIX. */
#define _POSIX_C_SOURCE 200112L

#include "dump_select.h"

#include <fnmatch.h>
#include <limits.h>
#include <string.h>

#include "dump.h"
#include "files.h"
#include "names.h"
#include "words.h"

enum {
    HAS_MATCHTAG = LAMPREYCOIL_REQUEST | LAMPREYCOIL_RESPONSE,
    HAS_TOPIC = HAS_MATCHTAG | LAMPREYCOIL_EVENT,
    EVERY_TYPE = HAS_TOPIC | LAMPREYCOIL_CONTROL
};

int take_selection(struct selection *selection, struct words *words)
{
    const struct {
        const char *name;
        const char **value;
    } known[] = {{"--type", &selection->type},
                 {"--topic", &selection->topic},
                 {"--service", &selection->service},
                 {"--matchtag", &selection->matchtag},
                 {"--frames", &selection->frames}};

    for (size_t i = 0; i < sizeof known / sizeof known[0]; i++) {
        if (word_is(words, known[i].name))
            return word_once(words, known[i].value);
    }
    return word_is(words, "--errors") ? word_flag(words, &selection->errors) : NO_SUCH_OPTION;
}

int is_selective(const struct selection *selection)
{
    return selection->type != NULL || selection->topic != NULL || selection->service != NULL ||
           selection->matchtag != NULL || selection->frames != NULL || selection->errors;
}

/* One side of A-B: the number in so many bytes of a text; where there are none it stays. */
static int take_bound(const char *text, size_t length, unsigned long long *bound)
{
    char digits[24];
    uint32_t number;

    if (length == 0)
        return 0;
    if (length >= sizeof digits)
        return -1;
    memcpy(digits, text, length);
    digits[length] = '\0';
    if (parse_number(digits, 10, UINT32_MAX, &number) != 0)
        return -1;
    *bound = number;
    return 0;
}

static int check_frames(struct selection *selection)
{
    const char *text = selection->frames, *hyphen;

    selection->first = 0;
    selection->last = ULLONG_MAX;
    if (text == NULL)
        return 0;
    hyphen = strchr(text, '-');
    if (hyphen == NULL || strlen(text) == 1 ||
        take_bound(text, (size_t)(hyphen - text), &selection->first) != 0 ||
        take_bound(hyphen + 1, strlen(hyphen + 1), &selection->last) != 0)
        return trouble("--frames takes A-B, A- or -B, the first and the last frame's number, each "
                       "at most %lu, not '%s'%s",
                       (unsigned long)UINT32_MAX, text,
                       hyphen == NULL ? "; --frame takes one" : "");
    if (selection->first > selection->last)
        return trouble("--frames %s begins behind its end", text);
    return 0;
}

/*
 * Leaves those types of which the option can select a frame. Where that is none, nobody should
 * read the empty answer as one about the capture.
 */
static int narrow(struct selection *selection, int given, const char *option, uint8_t types)
{
    if (!given)
        return 0;
    if ((selection->types & types) == 0)
        return trouble("%s selects no frame of type %s", option, selection->type);
    selection->types &= types;
    return 0;
}

static int check_types(struct selection *selection)
{
    const struct type_names *type;
    int status;

    selection->types = EVERY_TYPE;
    if (selection->type != NULL) {
        if ((type = type_by_name(selection->type)) == NULL)
            return trouble("--type is request, response, event or control, not '%s'",
                           selection->type);
        selection->types = type->number;
    }
    if ((status = narrow(selection, selection->topic != NULL, "--topic", HAS_TOPIC)) != 0)
        return status;
    if ((status = narrow(selection, selection->service != NULL, "--service", HAS_TOPIC)) != 0)
        return status;
    if ((status = narrow(selection, selection->matchtag != NULL, "--matchtag", HAS_MATCHTAG)) != 0)
        return status;
    return narrow(selection, selection->errors, "--errors", LAMPREYCOIL_RESPONSE);
}

int check_selection(struct selection *selection)
{
    int status = check_types(selection);

    if (status != 0)
        return status;
    if (selection->service != NULL && strchr(selection->service, '.') != NULL)
        return trouble("--service takes what stands before a topic's first period, not '%s': "
                       "--topic takes a whole topic",
                       selection->service);
    if (selection->matchtag != NULL &&
        parse_number(selection->matchtag, 10, UINT32_MAX, &selection->tag) != 0)
        return trouble("--matchtag takes a number from 0 to %lu, not '%s'",
                       (unsigned long)UINT32_MAX, selection->matchtag);
    return check_frames(selection);
}

/* In a frame a zero byte follows the topic, which has none in it. */
static int topic_fits(const struct selection *selection, const struct dump *dump)
{
    const char *topic =
        (const char *)dump->frame.bytes + dumped(dump, LAMPREYCOIL_READ_TOPIC_START);

    if (selection->topic != NULL && fnmatch(selection->topic, topic, 0) != 0)
        return 0;
    if (selection->service == NULL)
        return 1;
    size_t length = strcspn(topic, ".");
    return strlen(selection->service) == length && memcmp(selection->service, topic, length) == 0;
}

int asks_about(const struct selection *selection, const struct dump *dump)
{
    if ((dumped(dump, LAMPREYCOIL_READ_TYPE) & selection->types) == 0 ||
        dump->frame.number < selection->first || dump->frame.number > selection->last)
        return 0;
    if (selection->matchtag != NULL && dumped(dump, LAMPREYCOIL_READ_SECOND) != selection->tag)
        return 0;
    return (selection->topic == NULL && selection->service == NULL) || topic_fits(selection, dump);
}

int selects(const struct selection *selection, const struct dump *dump)
{
    return asks_about(selection, dump) &&
           (!selection->errors || dumped(dump, LAMPREYCOIL_READ_FIRST) != 0);
}

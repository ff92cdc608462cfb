#include "write_options.h"

#include <string.h>

#include "files.h"
#include "lampreycoil.h"
#include "names.h"
#include "payload_json.h"
#include "words.h"

enum {
    REQUEST = LAMPREYCOIL_REQUEST,
    RESPONSE = LAMPREYCOIL_RESPONSE,
    EVENT = LAMPREYCOIL_EVENT,
    CONTROL = LAMPREYCOIL_CONTROL,
    EVERY_TYPE = REQUEST | RESPONSE | EVENT | CONTROL
};

struct option {
    const char *name;
    /* Takes the option's value; returns 0, or has said what is wrong. */
    int (*take)(struct write_options *options, const struct option *option, const char *value);
    int has_value;
    uint8_t bits; /* the flag that it sets, or the types to which a field belongs */
};

static int take_number(const struct option *option, const char *value, uint32_t max,
                       uint32_t *number)
{
    if (parse_number(value, 10, max, number) != 0)
        return trouble("%s takes a number from 0 to %lu, not '%s'", option->name,
                       (unsigned long)max, value);
    return 0;
}

static int take_type(struct write_options *options, const struct option *option, const char *value)
{
    const struct type_names *type = type_by_name(value);

    if (type == NULL)
        return trouble("%s is request, response, event or control, not '%s'", option->name, value);
    if (options->type_given)
        return trouble("the type is given twice");
    options->type_given = 1;
    options->type_name = type->name;
    options->type = type->number;
    return 0;
}

static int take_type_number(struct write_options *options, const struct option *option,
                            const char *value)
{
    uint32_t number;
    int status = take_number(option, value, UINT8_MAX, &number);

    if (status != 0)
        return status;
    if (options->type_given)
        return trouble("the type is given twice");
    options->type_given = 1;
    options->type = (uint8_t)number;
    return 0;
}

static int take_flags(struct write_options *options, const struct option *option, const char *value)
{
    uint32_t number;

    if (parse_number(value, 16, UINT8_MAX, &number) != 0)
        return trouble("%s takes one byte in hexadecimal, not '%s'", option->name, value);
    options->flags_given = 1;
    options->flags = (uint8_t)number;
    return 0;
}

static int take_mark(struct write_options *options, const struct option *option, const char *value)
{
    (void)value;
    options->marks |= option->bits;
    return 0;
}

static int take_userid(struct write_options *options, const struct option *option,
                       const char *value)
{
    if (strcmp(value, "unknown") == 0) {
        options->userid = LAMPREYCOIL_USERID_UNKNOWN;
        return 0;
    }
    return take_number(option, value, UINT32_MAX, &options->userid);
}

static int take_rolemask(struct write_options *options, const struct option *option,
                         const char *value)
{
    return take_number(option, value, UINT32_MAX, &options->rolemask);
}

static int take_field(struct field_value *field, const struct option *option, const char *value)
{
    if (field->option != NULL)
        return trouble("%s: %s has already given this field", option->name, field->option);
    field->option = option->name;
    field->types = option->bits;
    return take_number(option, value, UINT32_MAX, &field->value);
}

static int take_first(struct write_options *options, const struct option *option, const char *value)
{
    return take_field(&options->first, option, value);
}

static int take_nodeid(struct write_options *options, const struct option *option,
                       const char *value)
{
    return take_first(options, option, strcmp(value, "any") == 0 ? "4294967295" : value);
}

static int take_second(struct write_options *options, const struct option *option,
                       const char *value)
{
    return take_field(&options->second, option, value);
}

/* The route goes to the library as it was given: whether it is one is for the library to say. */
static int take_route(struct write_options *options, const struct option *option, const char *value)
{
    size_t size = strlen(value) + 1;

    if (size > ROUTES_ROOM - options->routes_length)
        return trouble("%s: more than %d bytes of routes", option->name, ROUTES_ROOM);
    memcpy(options->routes + options->routes_length, value, size);
    options->routes_length += size;
    return 0;
}

static int take_topic(struct write_options *options, const struct option *option, const char *value)
{
    (void)option;
    options->topic = value;
    return 0;
}

static int take_payload_file(struct write_options *options, const struct option *option,
                             const char *value)
{
    (void)option;
    options->payload_file = value;
    return 0;
}

static int take_payload_text(struct write_options *options, const struct option *option,
                             const char *value)
{
    (void)option;
    options->payload_text = value;
    return 0;
}

static int take_payload_json(struct write_options *options, const struct option *option,
                             const char *value)
{
    (void)option;
    options->payload_json = value;
    return 0;
}

static const struct option known[] = {
    {"--type", take_type, 1, 0},
    {"--type-number", take_type_number, 1, 0},
    {"--flags", take_flags, 1, 0},
    {"--noresponse", take_mark, 0, LAMPREYCOIL_NORESPONSE},
    {"--upstream", take_mark, 0, LAMPREYCOIL_UPSTREAM},
    {"--private", take_mark, 0, LAMPREYCOIL_PRIVATE},
    {"--streaming", take_mark, 0, LAMPREYCOIL_STREAMING},
    {"--userid", take_userid, 1, 0},
    {"--rolemask", take_rolemask, 1, 0},
    {"--nodeid", take_nodeid, 1, REQUEST},
    {"--errnum", take_first, 1, RESPONSE},
    {"--seq", take_first, 1, EVENT},
    {"--control-type", take_first, 1, CONTROL},
    {"--first", take_first, 1, EVERY_TYPE},
    {"--matchtag", take_second, 1, REQUEST | RESPONSE},
    {"--status", take_second, 1, CONTROL},
    {"--second", take_second, 1, EVERY_TYPE},
    {"--route", take_route, 1, 0},
    {"--topic", take_topic, 1, 0},
    {"--payload", take_payload_file, 1, 0},
    {"--payload-text", take_payload_text, 1, 0},
    {"--payload-json", take_payload_json, 1, 0},
};

/* A type given as a number is meant as it stands, so any field's option goes with it. */
static int check_field(const struct write_options *options, const struct field_value *field)
{
    if (field->option == NULL || options->type_name == NULL || (field->types & options->type) != 0)
        return 0;
    return trouble("%s does not belong to a message of type %s", field->option, options->type_name);
}

/* A message whose type is given by its name has to have a topic, unless it is a control message. */
static int check_topic(const struct write_options *options)
{
    if (options->type_name == NULL || options->flags_given || options->type == CONTROL ||
        options->topic != NULL)
        return 0;
    return trouble("%s %s needs --topic", options->type == EVENT ? "an" : "a", options->type_name);
}

/* There is one payload at the most. */
static int check_payload(const struct write_options *options)
{
    int payloads = (options->payload_file != NULL) + (options->payload_text != NULL) +
                   (options->payload_json != NULL);

    if (payloads > 1)
        return trouble("give one of --payload, --payload-text and --payload-json");
    return options->payload_json == NULL ? 0 : check_payload_json(options->payload_json);
}

int check_write_options(struct write_options *options)
{
    int status;

    if (!options->type_given)
        return trouble("write needs --type or --type-number");
    if ((status = check_field(options, &options->first)) != 0)
        return status;
    if ((status = check_field(options, &options->second)) != 0)
        return status;
    if ((status = check_topic(options)) != 0)
        return status;
    if (options->first.option == NULL && options->type == REQUEST)
        options->first.value = LAMPREYCOIL_NODEID_ANY;
    return check_payload(options);
}

void start_write_options(struct write_options *options)
{
    memset(options, 0, sizeof *options);
    options->userid = LAMPREYCOIL_USERID_UNKNOWN;
}

void default_type(struct write_options *options, uint8_t type)
{
    if (options->type_given)
        return;
    options->type_given = 1;
    options->type = type;
    options->type_name = type_by_number(type)->name;
}

/* A route is the only option that may come again: every other says one thing of the message. */
static int take_known(struct write_options *options, struct words *words, size_t index)
{
    const struct option *option = &known[index];
    const uint32_t bit = (uint32_t)1 << index;
    const char *value = NULL;
    int status;

    if ((options->given & bit) != 0 && option->take != take_route)
        return trouble("%s is given twice", option->name);
    options->given |= bit;
    if (option->has_value) {
        if ((value = word_value(words)) == NULL)
            return EXIT_TROUBLE;
    } else if ((status = word_alone(words)) != 0) {
        return status;
    }
    return option->take(options, option, value);
}

int take_write_option(struct write_options *options, struct words *words)
{
    for (size_t i = 0; i < sizeof known / sizeof known[0]; i++) {
        if (word_is(words, known[i].name))
            return take_known(options, words, i);
    }
    return NO_SUCH_OPTION;
}

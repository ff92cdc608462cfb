#include "make_frame.h"

#include <string.h>

#include "files.h"
#include "lampreycoil.h"
#include "write_reason.h"

/* A slice to lend. */
struct stretch {
    const uint8_t *bytes;
    size_t length;
};

/* A text that was not given is the empty slice, whose pointer may be NULL. */
static struct stretch text_stretch(const char *text)
{
    struct stretch stretch = {(const uint8_t *)text, text == NULL ? 0 : strlen(text)};

    return stretch;
}

/* The payload, which may be a file's; of JSON with the zero byte that ends the text. */
static int payload_stretch(const struct write_options *options, struct stretch *payload)
{
    static uint8_t bytes[INPUT_MAX + 1];

    *payload =
        text_stretch(options->payload_json != NULL ? options->payload_json : options->payload_text);
    if (options->payload_json != NULL)
        payload->length++;
    if (options->payload_file == NULL)
        return 0;
    payload->bytes = bytes;
    return read_all(options->payload_file, bytes, &payload->length);
}

/* The flags for the parts that were given: an empty payload or topic counts as given. */
static uint8_t flags_for(const struct write_options *options)
{
    uint8_t flags = options->marks;

    if (options->flags_given)
        return options->flags;
    if (options->topic != NULL)
        flags |= LAMPREYCOIL_TOPIC;
    if (options->payload_text != NULL || options->payload_json != NULL ||
        options->payload_file != NULL)
        flags |= LAMPREYCOIL_PAYLOAD;
    if (options->routes_length != 0 || options->type == LAMPREYCOIL_REQUEST ||
        options->type == LAMPREYCOIL_RESPONSE)
        flags |= LAMPREYCOIL_ROUTE;
    return flags;
}

int try_frame(const struct write_options *options, uint8_t *frame, size_t *length,
              struct write_refusal *why)
{
    uint8_t record[LAMPREYCOIL_WRITE_RECORD];
    struct stretch topic = text_stretch(options->topic);
    struct stretch payload;
    uint8_t flags = flags_for(options);
    int status = payload_stretch(options, &payload);

    if (status != 0)
        return status;
    why->number = lampreycoil_write(
        options->type, flags, options->userid, options->rolemask, options->first.value,
        options->second.value, options->routes, options->routes_length, topic.bytes, topic.length,
        payload.bytes, payload.length, frame, LAMPREYCOIL_FRAME_MAX, record, sizeof record);
    if (why->number != LAMPREYCOIL_OK) {
        explain_write(why->number, options, flags, payload.length, why->reason);
        return EXIT_REFUSED;
    }
    *length = lampreycoil_number(record, LAMPREYCOIL_WRITE_LENGTH);
    return 0;
}

void tell_frame_refused(const struct write_refusal *why)
{
    trouble("refused, %lu: %s (%s)", (unsigned long)why->number,
            lampreycoil_refusal_words(why->number), why->reason);
}

int make_frame(const struct write_options *options, uint8_t *frame, size_t *length)
{
    struct write_refusal why;
    int status = try_frame(options, frame, length, &why);

    if (status == EXIT_REFUSED)
        tell_frame_refused(&why);
    return status;
}

#include "floor_answer.h"

#include <string.h>

#include "names.h"
#include "words.h"
#include "write_options.h"

int take_answer(struct answer *answer, struct words *words)
{
    if (word_is(words, "--answer"))
        return word_once(words, &answer->file);
    if (word_is(words, "--answer-errnum"))
        return word_once(words, &answer->errnum);
    if (word_is(words, "--answer-payload"))
        return word_once(words, &answer->payload_file);
    if (word_is(words, "--answer-text"))
        return word_once(words, &answer->payload_text);
    return NO_SUCH_OPTION;
}

/* Whether the answer is described by options. */
static int described(const struct answer *answer)
{
    return answer->errnum != NULL || answer->payload_file != NULL || answer->payload_text != NULL;
}

int answer_given(const struct answer *answer)
{
    return answer->file != NULL || described(answer);
}

int check_answer(struct answer *answer)
{
    if (answer->file != NULL && described(answer))
        return trouble("give --answer FILE, or options that describe the answer, not both");
    if (answer->payload_file != NULL && answer->payload_text != NULL)
        return trouble("give --answer-payload or --answer-text, not both");
    if (answer->errnum != NULL &&
        parse_number(answer->errnum, 10, UINT32_MAX, &answer->number) != 0)
        return trouble("--answer-errnum takes a number from 0 to %lu, not '%s'",
                       (unsigned long)UINT32_MAX, answer->errnum);
    return 0;
}

int read_one_frame(const char *name, const struct floor *floor, uint8_t *buffer, struct seen *seen,
                   uint32_t *refusal)
{
    static uint8_t bytes[INPUT_MAX + 1];
    size_t length;
    int status = read_all(name, bytes, &length);

    if (status != 0)
        return status;
    memcpy(buffer, bytes, length < LAMPREYCOIL_WALK_ROOM ? length : LAMPREYCOIL_WALK_ROOM);
    *refusal = see(seen, floor, bytes, length);
    if (*refusal != LAMPREYCOIL_OK)
        return EXIT_REFUSED;
    /* Of a capture nobody has said which frame is meant. */
    if (length > seen->length)
        return trouble(
            "%s has %zu byte%s behind its first frame: a walk takes one frame (cut it out by "
            "flux_frame dump --frame N --frame-out FILE)",
            input_name(name), length - seen->length, plural(length - seen->length));
    return 0;
}

int read_answer(struct answer *answer, const struct floor *floor, uint32_t *refusal)
{
    struct seen seen;
    int status = 0;

    if (answer->payload_file != NULL)
        return read_all(answer->payload_file, answer->payload, &answer->payload_length);
    if (answer->file != NULL)
        status = read_one_frame(answer->file, floor, answer->frame, &seen, refusal);
    if (status == 0 && answer->file != NULL && seen.type != LAMPREYCOIL_RESPONSE)
        return trouble("an answer is a response, and the message of %s is of type %s",
                       input_name(answer->file), type_by_number(seen.type)->name);
    return status;
}

/* Streaming goes over to the answer, as it does to an error reply; no other mark does. */
uint32_t make_answer(const struct answer *answer, const uint8_t *request, uint8_t *out)
{
    struct lampreycoil_message message;
    size_t length;
    uint32_t refusal;

    if (answer->file != NULL) {
        memcpy(out, answer->frame, LAMPREYCOIL_WALK_ROOM);
        return LAMPREYCOIL_OK;
    }
    refusal = lampreycoil_read_message(request, LAMPREYCOIL_WALK_ROOM, &message, &length);
    if (refusal != LAMPREYCOIL_OK)
        return refusal;
    message.type = LAMPREYCOIL_RESPONSE;
    message.flags = LAMPREYCOIL_TOPIC | LAMPREYCOIL_ROUTE | (message.flags & LAMPREYCOIL_STREAMING);
    message.first = answer->number;
    message.payload_length = 0;
    if (answer->payload_file != NULL) {
        message.flags |= LAMPREYCOIL_PAYLOAD;
        message.payload = answer->payload;
        message.payload_length = answer->payload_length;
    } else if (answer->payload_text != NULL) {
        message.flags |= LAMPREYCOIL_PAYLOAD;
        message.payload = (const uint8_t *)answer->payload_text;
        message.payload_length = strlen(answer->payload_text);
    }
    memset(out, 0, LAMPREYCOIL_WALK_ROOM);
    return lampreycoil_write_message(&message, out, LAMPREYCOIL_WALK_ROOM, &length);
}

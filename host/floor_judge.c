/* What was due to each request of a capture, and whether the responses say so. */
#include <stdlib.h>
#include <string.h>

#include "files.h"
#include "floor_audit.h"

/* A message of the capture. */
struct heard {
    struct told told;
    struct lampreycoil_message message; /* with the routes on entry alone */
    uint32_t entry;                     /* LAMPREYCOIL_NO_PARENT where no broker's route shows it */
    struct key key;
};

/*
 * The brokers that a message came by stand on top of its routes, the one that it entered at below
 * the others. What is below them it had on entry.
 */
static void take_off_brokers(struct heard *heard, const struct floor *floor)
{
    struct lampreycoil_message *message = &heard->message;
    uint32_t rank;

    heard->entry = LAMPREYCOIL_NO_PARENT;
    while (message->routes_count > 0 &&
           (rank = find_identity(floor, message->routes)) != LAMPREYCOIL_NO_PARENT) {
        heard->entry = rank;
        message->routes += message->routes_step;
        message->routes_count--;
    }
}

/* ---- requests */

/* Plays the request from its entry, and sets *error to what is due: 0 where it is delivered. */
static uint32_t play_request(const struct floor *floor, const struct heard *heard, uint32_t entry,
                             uint32_t *answer, uint32_t *error)
{
    static uint8_t buffer[LAMPREYCOIL_WALK_ROOM];
    uint8_t record[LAMPREYCOIL_WALK_RECORD];
    size_t length;
    /* It is a frame that was read, without some routes, so there is room. */
    uint32_t refusal = lampreycoil_write_message(&heard->message, buffer, sizeof buffer, &length);

    if (refusal == LAMPREYCOIL_OK)
        refusal =
            lampreycoil_walk(floor->tree_table, floor->tree_length, floor->service_table,
                             floor->service_length, floor->identity_table, floor->identity_length,
                             entry, buffer, sizeof buffer, record, sizeof record);
    if (refusal != LAMPREYCOIL_OK)
        return refusal;
    *answer = lampreycoil_number(record, LAMPREYCOIL_WALK_ANSWER);
    *error = lampreycoil_number(record, LAMPREYCOIL_WALK_ERROR);
    return LAMPREYCOIL_OK;
}

static int is_registered(const struct floor *floor, const uint8_t *name, size_t length)
{
    for (size_t i = 0; i < floor->services; i++) {
        const uint8_t *record = floor->service_table + i * LAMPREYCOIL_SERVICE_SIZE;

        if (record[4] == length && memcmp(record + 5, name, length) == 0)
            return 1;
    }
    return 0;
}

/* Counts a request for a service that nobody registers. Returns 0, or has said what is wrong. */
static int note_service(struct audit *audit, const struct lampreycoil_message *message)
{
    const uint8_t *period = memchr(message->topic, '.', message->topic_length);
    size_t length = period == NULL ? message->topic_length : (size_t)(period - message->topic);
    struct unregistered *at = audit->unregistered;

    if (is_registered(audit->floor, message->topic, length))
        return 0;
    while (at != NULL && (at->length != length || memcmp(at->name, message->topic, length) != 0))
        at = at->next;
    if (at == NULL && audit->unregistered_count == UNREGISTERED_MAX) {
        audit->counts.other_unregistered++;
        return 0;
    }
    if (at == NULL) {
        if ((at = calloc(1, sizeof *at)) == NULL)
            return trouble("no memory for the name of a service");
        at->length = length;
        memcpy(at->name, message->topic, length);
        *(audit->unregistered == NULL ? &audit->unregistered : &audit->unregistered_last->next) =
            at;
        audit->unregistered_last = at;
        audit->unregistered_count++;
    }
    at->requests++;
    return 0;
}

/* Counts what the walk ended with. Returns 0, or has said that it is no answer to a request. */
static int count_answer(struct counts *counts, uint32_t answer, uint32_t error)
{
    if (answer == LAMPREYCOIL_DELIVERED && error == 0)
        counts->delivered++;
    else if (answer == LAMPREYCOIL_SILENCED)
        counts->silenced++;
    else if (answer == LAMPREYCOIL_REPLIED && error == LAMPREYCOIL_NO_SERVICE)
        counts->no_service++;
    else if (answer == LAMPREYCOIL_REPLIED && error == LAMPREYCOIL_NO_RANK)
        counts->no_rank++;
    else {
        trouble("THE WALK CALL DIFFERS from its promise: answer %lu with error %lu of a request",
                (unsigned long)answer, (unsigned long)error);
        return EXIT_DIFFERS;
    }
    return 0;
}

/* A request that nobody may reply to is settled at once: a reply to it is one too many. */
static int keep_request(struct audit *audit, const struct heard *heard, uint32_t error)
{
    uint8_t flags = heard->message.flags;
    struct booked request = {.number = heard->told.number,
                             .start = heard->told.start,
                             .error = error,
                             .noresponse = (flags & LAMPREYCOIL_NORESPONSE) != 0,
                             .streaming = (flags & LAMPREYCOIL_STREAMING) != 0};
    int kept = request.noresponse ? keep_settled(&audit->book, &heard->key, &request)
                                  : keep_open(&audit->book, &heard->key, &request);

    return kept == 0 ? 0 : trouble("no memory for the requests that are open");
}

static int judge_request(struct audit *audit, struct heard *heard)
{
    uint32_t entry = heard->entry == LAMPREYCOIL_NO_PARENT ? audit->enter : heard->entry;
    uint32_t answer, error;
    int status;

    audit->counts.requests++;
    if (entry == LAMPREYCOIL_NO_PARENT)
        return trouble("frame %llu, from byte %llu, is a request with no broker's route on top, so "
                       "nothing tells where it entered: give --enter RANK",
                       heard->told.number, heard->told.start);
    if ((status = note_service(audit, &heard->message)) != 0)
        return status;
    heard->told.refusal = play_request(audit->floor, heard, entry, &answer, &error);
    if (heard->told.refusal != LAMPREYCOIL_OK) {
        find(audit, REFUSED_WALK, &heard->told);
        return 0;
    }
    status = count_answer(&audit->counts, answer, error);
    return status == 0 ? keep_request(audit, heard, error) : status;
}

/* ---- responses */

/* A response that no open request waits for. */
static void judge_late(struct audit *audit, struct heard *heard)
{
    const struct booked *request = last_settled(&audit->book, &heard->key);

    heard->told.request = request;
    if (request == NULL || (request->streaming && !request->noresponse))
        find(audit, RESPONSE_TO_NOBODY, &heard->told);
    else
        find(audit, request->noresponse ? REPLY_TO_NORESPONSE : SECOND_REPLY, &heard->told);
}

static void judge_response(struct audit *audit, struct heard *heard)
{
    struct booked *request = oldest_open(&audit->book, &heard->key);
    uint32_t errnum = heard->message.first;

    audit->counts.responses++;
    if (request == NULL) {
        judge_late(audit, heard);
        return;
    }
    heard->told.request = request;
    heard->told.due = request->error;
    request->replies++;
    if (request->error != 0 && errnum != request->error)
        find(audit, errnum == 0 ? BLANK_REPLY : WRONG_ERROR, &heard->told);
    if (!request->streaming || errnum != 0)
        settle(&audit->book, request);
}

/* ---- the capture */

int judge_frame(struct audit *audit, const struct frame *frame)
{
    static struct heard heard;
    struct lampreycoil_message *message = &heard.message;
    size_t took;
    uint32_t refusal = lampreycoil_read_message(frame->bytes, frame->length, message, &took);

    memset(&heard.told, 0, sizeof heard.told);
    heard.told.number = frame->number;
    heard.told.start = frame->start;
    heard.told.message = message;
    if (refusal != LAMPREYCOIL_OK)
        return trouble("the library lists frame %llu, and refuses it with %lu", frame->number,
                       (unsigned long)refusal);
    if (message->type == LAMPREYCOIL_EVENT || message->type == LAMPREYCOIL_CONTROL) {
        *(message->type == LAMPREYCOIL_EVENT ? &audit->counts.events : &audit->counts.controls) +=
            1;
        return 0;
    }
    take_off_brokers(&heard, audit->floor);
    make_key(&heard.key, message);
    if (message->type == LAMPREYCOIL_REQUEST)
        return judge_request(audit, &heard);
    judge_response(audit, &heard);
    return 0;
}

void judge_open(struct audit *audit)
{
    for (const struct booked *at = audit->book.open.first; at != NULL; at = at->after) {
        struct lampreycoil_message message;
        struct told told = {.number = at->number,
                            .start = at->start,
                            .message = &message,
                            .request = at,
                            .due = at->error};

        recall(at, &message);
        if (at->replies > 0)
            audit->counts.streams++;
        else
            find(audit, at->error != 0 ? NO_ERROR_REPLY : NEVER_ANSWERED, &told);
    }
}

#include "floor_json.h"

#include "files.h"
#include "floor_put.h"
#include "floor_result.h"
#include "json.h"
#include "names.h"

static void put_rank(const struct floor *floor, uint32_t rank)
{
    json_open('{');
    put_named_number("rank", rank);
    put_number_or_null("parent", rank != 0, floor->rank[rank].parent);
    put_named_number("depth", floor->depth[rank]);
    put_text_or_null("identity", floor->rank[rank].identity);
    json_name("services");
    json_open('[');
    for (size_t i = 0; i < floor->services; i++) {
        if (floor->service[i].rank == rank)
            json_text(floor->service[i].name);
    }
    json_close(']');
    json_close('}');
}

static void put_tree(const struct floor *floor, int valid)
{
    json_name("tree");
    if (!valid) {
        json_null();
        return;
    }
    json_open('[');
    for (uint32_t rank = 0; rank < floor->ranks; rank++)
        put_rank(floor, rank);
    json_close(']');
}

void json_floor(const char *command, const struct floor *floor, int status, int with_tree)
{
    int valid = status == 0;

    open_object(command, status, floor->file);
    json_name("valid");
    if (status == EXIT_DIFFERS)
        json_null();
    else
        json_bool(valid);
    put_number_or_null("ranks", valid, floor->ranks);
    put_number_or_null("depth", valid, valid ? tree_depth(floor) : 0);
    put_number_or_null("names", valid, valid ? service_names(floor) : 0);
    put_number_or_null("registrations", valid, floor->services);
    put_remarks("mistakes", "mistakes_count", floor, &floor->mistakes);
    put_remarks("warnings", "warnings_count", floor, &floor->warnings);
    if (with_tree)
        put_tree(floor, valid);
    json_close('}');
    json_end();
}

/* What a way, or two, came to. */
struct outcome {
    const char *answer;
    uint32_t error;                  /* 0: none */
    const struct seen *home;         /* the response that is home; NULL: none is */
    const struct play *there, *back; /* NULL: not played */
    uint32_t refusal;                /* 0: none, or one that has no number */
    const char *refusal_words;       /* NULL: not refused */
};

static void put_brokers(const struct play *play, uint32_t from)
{
    for (uint32_t i = from; play != NULL && i < brokers_visited(play); i++)
        json_number(play->steps[i].rank);
}

static void put_outcome(const struct outcome *outcome)
{
    const struct play *there = outcome->there, *back = outcome->back;
    const struct play *last = back == NULL ? there : back;

    put_text_or_null("answer", outcome->answer);
    put_number_or_null("error", outcome->error != 0, outcome->error);
    put_text_or_null("error_name", outcome->error == 0 ? NULL : error_name(outcome->error));
    put_number_or_null("errnum", outcome->home != NULL,
                       outcome->home == NULL ? 0 : outcome->home->first);
    put_text_or_null("errnum_name",
                     outcome->home == NULL ? NULL : error_name(outcome->home->first));
    put_number_or_null("rank", last != NULL, last == NULL ? 0 : last_step(last)->rank);
    put_number_or_null("links", last != NULL,
                       (there == NULL ? 0 : there->links) + (back == NULL ? 0 : back->links));
    json_name("brokers");
    json_open('[');
    put_brokers(there, 0);
    put_brokers(back, 1);
    json_close(']');
    put_number_or_null("refusal", outcome->refusal != LAMPREYCOIL_OK, outcome->refusal);
    put_text_or_null("refusal_words", outcome->refusal_words);
}

static void put_steps(const struct play *play)
{
    json_name("steps");
    json_open('[');
    for (uint32_t i = 0; play != NULL && i <= play->links; i++) {
        const struct step *step = &play->steps[i];
        uint32_t answer = lampreycoil_number(step->record, LAMPREYCOIL_STEP_ANSWER);

        json_open('{');
        put_named_number("rank", step->rank);
        put_text_or_null("answer", step_answer(step));
        put_number_or_null("to", answer == LAMPREYCOIL_FORWARD,
                           lampreycoil_number(step->record, LAMPREYCOIL_STEP_NUMBER));
        json_close('}');
    }
    json_close(']');
}

static void put_routes(const struct play *play)
{
    uint8_t record[LAMPREYCOIL_READ_RECORD];
    const uint8_t *route = play->buffer;

    json_name("routes");
    json_open('[');
    if (lampreycoil_read(play->buffer, sizeof play->buffer, record, sizeof record) ==
        LAMPREYCOIL_OK)
        route += lampreycoil_number(record, LAMPREYCOIL_READ_ROUTE_START);
    for (uint32_t i = 0; i < play->rest.routes; i++, route += LAMPREYCOIL_ROUTE_STEP) {
        uint32_t rank = find_identity(play->floor, route);

        json_open('{');
        json_name("identity");
        json_bytes(route, LAMPREYCOIL_ROUTE_SIZE - 1);
        put_number_or_null("rank", rank != LAMPREYCOIL_NO_PARENT, rank);
        json_close('}');
    }
    json_close(']');
}

static void put_rest(const struct play *play)
{
    json_name("at_rest");
    if (play == NULL || !at_rest(play)) {
        json_null();
        return;
    }
    json_open('{');
    put_text_or_null("type", type_by_number(play->rest.type)->name);
    json_name("topic");
    json_bytes(play->rest.topic, play->rest.topic_length);
    json_name("topic_hex");
    json_hex(play->rest.topic, play->rest.topic_length);
    put_named_number("matchtag", play->rest.second);
    put_routes(play);
    json_close('}');
}

static struct outcome play_outcome(const struct play *play)
{
    struct outcome outcome = {.answer = play_answer(play), .there = play};
    uint32_t refusal = last_step(play)->refusal;

    if (at_rest(play))
        outcome.error = last_number(play, LAMPREYCOIL_STEP_ERROR);
    if (at_rest(play) && last_number(play, LAMPREYCOIL_STEP_ANSWER) == LAMPREYCOIL_HOME)
        outcome.home = &play->rest;
    if (play->status == EXIT_REFUSED) {
        outcome.refusal = refusal;
        outcome.refusal_words = lampreycoil_refusal_words(refusal);
    }
    return outcome;
}

static void open_played(const struct asked *asked, const struct play *play, int status)
{
    open_object(asked->command, status, play->floor->file);
    put_named_number("from", play->enter);
}

static void close_played(const struct play *play)
{
    put_remarks("mistakes", "mistakes_count", play->floor, &play->floor->mistakes);
    json_close('}');
    json_end();
}

void json_walk(const struct asked *asked, const struct play *play)
{
    struct outcome outcome = play_outcome(play);

    open_played(asked, play, play->status);
    put_outcome(&outcome);
    put_steps(play);
    put_rest(play);
    close_played(play);
}

static void put_way(const char *name, const struct play *play)
{
    json_name(name);
    if (play == NULL) {
        json_null();
        return;
    }
    struct outcome outcome = play_outcome(play);
    json_open('{');
    put_outcome(&outcome);
    put_steps(play);
    put_rest(play);
    json_close('}');
}

static void put_trip(const struct trip *trip)
{
    json_name("mismatches");
    json_open('[');
    for (size_t i = 0; trip != NULL && i < MISMATCHES; i++) {
        if (trip->mismatch[i])
            json_text(mismatch_names[i]);
    }
    json_close(']');
    put_way("there", trip == NULL ? NULL : &trip->there);
    put_way("back", trip != NULL && trip->returned ? &trip->back : NULL);
}

void json_trip(const struct asked *asked, const struct trip *trip)
{
    const struct play *last = trip->returned ? &trip->back : &trip->there;
    struct outcome outcome = play_outcome(last);

    outcome.answer = trip->answer;
    outcome.error = play_outcome(&trip->there).error;
    outcome.home = trip_home(trip);
    outcome.there = &trip->there;
    outcome.back = trip->returned ? &trip->back : NULL;
    if (trip->refusal != LAMPREYCOIL_OK) {
        outcome.refusal = trip->refusal;
        outcome.refusal_words = lampreycoil_refusal_words(trip->refusal);
    }
    open_played(asked, &trip->there, trip->status);
    put_outcome(&outcome);
    put_trip(trip);
    close_played(&trip->there);
}

void json_refused(const struct asked *asked, const struct play *play, uint32_t refusal, int status)
{
    struct outcome outcome = {.answer = status == EXIT_DIFFERS ? "differs" : "refused",
                              .refusal = refusal};

    if (status == EXIT_DIFFERS)
        outcome.refusal_words = NULL;
    else if (play->floor->mistakes.count > 0)
        outcome.refusal_words = "the floor is not valid";
    else
        outcome.refusal_words = lampreycoil_refusal_words(refusal);
    open_played(asked, play, status);
    put_outcome(&outcome);
    if (asked->answers) {
        put_trip(NULL);
    } else {
        put_steps(NULL);
        put_rest(NULL);
    }
    close_played(play);
}

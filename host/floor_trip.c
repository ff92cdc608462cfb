#include "floor_trip.h"

#include <string.h>

#include "files.h"
#include "floor_asked.h"
#include "floor_commands.h"
#include "floor_dot.h"
#include "floor_json.h"
#include "floor_result.h"
#include "floor_text.h"

const char *const mismatch_names[MISMATCHES] = {"rank", "routes", "topic", "matchtag"};

int mismatched(const struct trip *trip)
{
    for (size_t i = 0; i < MISMATCHES; i++) {
        if (trip->mismatch[i])
            return 1;
    }
    return 0;
}

const struct seen *trip_home(const struct trip *trip)
{
    return trip->returned && at_rest(&trip->back) && !mismatched(trip) ? &trip->back.rest : NULL;
}

/* Whether the two frames have the same routes, byte for byte. */
static int same_routes(const uint8_t *one, const uint8_t *other)
{
    struct lampreycoil_message first, second;
    size_t took;

    if (lampreycoil_read_message(one, LAMPREYCOIL_WALK_ROOM, &first, &took) != LAMPREYCOIL_OK ||
        lampreycoil_read_message(other, LAMPREYCOIL_WALK_ROOM, &second, &took) != LAMPREYCOIL_OK ||
        first.routes_count != second.routes_count)
        return 0;
    return memcmp(first.routes, second.routes, first.routes_count * LAMPREYCOIL_ROUTE_STEP) == 0;
}

/* Compares what is home with the request as it entered. */
static void compare_home(struct trip *trip, const uint8_t *entered)
{
    const struct seen *request = &trip->there.steps[0].seen, *home = &trip->back.rest;

    trip->mismatch[OTHER_RANK] = last_step(&trip->back)->rank != trip->there.enter;
    trip->mismatch[OTHER_ROUTES] = !same_routes(entered, trip->back.buffer);
    trip->mismatch[OTHER_TOPIC] = home->topic_length != request->topic_length ||
                                  memcmp(home->topic, request->topic, request->topic_length) != 0;
    trip->mismatch[OTHER_MATCHTAG] = home->second != request->second;
}

static void end_trip(struct trip *trip, int status, const char *answer)
{
    trip->status = status;
    trip->answer = answer;
}

/* The way back of the response in the buffer. */
static void play_back(struct trip *trip, const uint8_t *entered)
{
    int replied = trip->there.status == EXIT_NO;

    trip->returned = 1;
    trip->back.floor = trip->there.floor;
    trip->back.enter = last_step(&trip->there)->rank;
    play_message(&trip->back);
    end_trip(trip, trip->back.status, play_answer(&trip->back));
    if (!at_rest(&trip->back))
        return;
    compare_home(trip, entered);
    if (mismatched(trip))
        end_trip(trip, EXIT_NO, "mismatch");
    else if (replied)
        trip->answer = "error reply";
}

/* The walk there, and back where there is an error reply or an answer. */
static void play_trip(struct trip *trip, const struct answer *answer)
{
    static uint8_t entered[LAMPREYCOIL_WALK_ROOM];
    struct play *there = &trip->there;

    memcpy(entered, there->buffer, sizeof entered);
    play_message(there);
    end_trip(trip, there->status, play_answer(there));
    if (there->status == EXIT_NO) {
        memcpy(trip->back.buffer, there->buffer, sizeof trip->back.buffer);
        play_back(trip, entered);
    } else if (there->status == EXIT_DONE && (there->rest.flags & LAMPREYCOIL_NORESPONSE) == 0) {
        if (!answer_given(answer)) {
            end_trip(trip, EXIT_TROUBLE, "unanswered");
            return;
        }
        trip->refusal = make_answer(answer, there->buffer, trip->back.buffer);
        if (trip->refusal == LAMPREYCOIL_OK)
            play_back(trip, entered);
        else
            end_trip(trip, EXIT_REFUSED, "refused");
    }
}

/* How both ways together end, where, and the path. */
static void add_both(struct line *line, const struct trip *trip)
{
    const struct seen *home = trip_home(trip);
    int replied = trip->there.status == EXIT_NO;

    add_words(line, "%s", trip->answer);
    if (trip->status == EXIT_REFUSED)
        add_words(line, " %lu", (unsigned long)last_step(&trip->back)->refusal);
    if (home != NULL && replied) {
        add_words(line, " ");
        add_error(line, home->first);
        add_words(line, " home");
    }
    add_words(line, " at rank %lu", (unsigned long)last_step(&trip->back)->rank);
    if (home != NULL && !replied) {
        add_words(line, " with errnum ");
        add_error(line, home->first);
    }
    add_words(line, ", links %lu: ", (unsigned long)trip->there.links + trip->back.links);
    add_path(line, &trip->there, 0);
    add_path(line, &trip->back, 1);
}

/* What of a response that is home is not the request's. */
static void add_mismatches(struct line *line, const struct trip *trip)
{
    const char *between = ": not the request's ";

    for (size_t i = 0; i < MISMATCHES; i++) {
        if (!trip->mismatch[i])
            continue;
        add_words(line, "%s%s", between, mismatch_names[i]);
        between = ", ";
    }
}

/* The whole in one line. */
static void add_trip(struct line *line, const struct trip *trip)
{
    if (trip->returned) {
        add_both(line, trip);
        add_mismatches(line, trip);
        if (trip->status == EXIT_REFUSED)
            add_words(line, ": %s", lampreycoil_refusal_words(last_step(&trip->back)->refusal));
        return;
    }
    if (trip->refusal != LAMPREYCOIL_OK)
        add_words(line, "answer refused, %lu: %s; the request was ", (unsigned long)trip->refusal,
                  lampreycoil_refusal_words(trip->refusal));
    else if (trip->status == EXIT_TROUBLE)
        add_words(line, "no answer was given: the request was ");
    add_result(line, &trip->there);
    if (trip->status == EXIT_DONE)
        add_words(line, "; it asked for no response");
}

static void tell_way(const char *name, const struct play *play)
{
    struct line line = {.length = 0};

    add_result(&line, play);
    printf("%-9s %s\n", name, line.text);
    tell_play(play);
}

static void tell_trip(const struct asked *asked, const struct trip *trip)
{
    const struct play *back = trip->returned ? &trip->back : NULL;
    struct line line = {.length = 0};

    add_trip(&line, trip);
    if (asked->form.json) {
        json_trip(asked, trip);
    } else if (asked->form.graph) {
        draw_graph(&(struct graph){.floor = trip->there.floor,
                                   .there = &trip->there,
                                   .back = back,
                                   .status = trip->status,
                                   .answer = trip->answer,
                                   .title = line.text});
    } else if (!asked->form.quiet) {
        printf("%s\n\n", line.text);
        if (answer_given(&asked->answer) && trip->there.status == EXIT_NO)
            puts("The answer was not used: no broker delivered the request.\n");
        tell_way("there", &trip->there);
        if (back != NULL) {
            putchar('\n');
            tell_way("back", back);
        }
        tell_tree(&asked->form, &trip->there, back);
    }
}

int command_trip(int count, char **words)
{
    static struct asked asked = {.command = "trip",
                                 .entry = "--enter",
                                 .type = LAMPREYCOIL_REQUEST,
                                 .answers = 1,
                                 .form = {.has_graph = 1, .has_tree = 1}};
    static struct trip trip;
    int status = read_asked(&asked, count, words, &trip.there);

    if (status != 0)
        return status;
    if (answer_given(&asked.answer) &&
        (trip.there.steps[0].seen.flags & LAMPREYCOIL_NORESPONSE) != 0)
        return trouble("noresponse is set, so there is no answer: give none");
    play_trip(&trip, &asked.answer);
    if (trip.returned && at_rest(&trip.back) && (status = write_rest(&asked, &trip.back)) != 0)
        return status;
    tell_trip(&asked, &trip);
    if (flush_output() != 0)
        return EXIT_TROUBLE;
    return trip.status == EXIT_TROUBLE
               ? trouble("trip needs an answer to a request that is delivered: --answer FILE, "
                         "--answer-errnum N, --answer-payload FILE or --answer-text TEXT")
               : trip.status;
}

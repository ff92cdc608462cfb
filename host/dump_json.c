/* A frame as one JSON object on one line, for machines. A part that is not there is null. */
#include <string.h>

#include "dump.h"
#include "dump_members.h"
#include "files.h"
#include "json.h"

/* ---- what is true of a frame */

/* Of one with a header at these bytes. */
static unsigned read_header(struct object *object, const uint8_t *header)
{
    unsigned kinds = HEADED;

    object->fields = fields_at(header);
    object->type = type_by_number(object->fields.type);
    object->error = error_by_number(object->fields.first);
    if (object->type != NULL)
        kinds |= TYPED;
    if (object->fields.type == LAMPREYCOIL_RESPONSE && object->error != NULL)
        kinds |= NAMED_ERROR;
    return kinds;
}

static unsigned kinds_of_payload(const struct verdict *verdict)
{
    if (verdict->kind == VERDICT_JSON)
        return HAS_PAYLOAD | IS_JSON;
    return HAS_PAYLOAD | IS_NOT_JSON | (verdict->kind == VERDICT_DEEP ? IS_DEEP : 0u);
}

static unsigned kinds_of_accepted(struct object *object)
{
    const struct dump *dump = object->dump;
    unsigned kinds = ACCEPTED | read_header(object, dump->frame.bytes + header_start(dump));

    if (!dump->placed)
        kinds |= SINGLE;
    if ((object->fields.flags & LAMPREYCOIL_ROUTE) != 0)
        kinds |= HAS_DELIMITER;
    if ((object->fields.flags & LAMPREYCOIL_TOPIC) != 0)
        kinds |= HAS_TOPIC;
    if (has_payload(dump))
        kinds |= kinds_of_payload(&dump->verdict);
    return kinds;
}

static unsigned kinds_of_refused(struct object *object)
{
    const struct dump *dump = object->dump;
    unsigned kinds = REFUSED;

    if (dump->refusal == LAMPREYCOIL_INPUT_SHORT)
        kinds |= SHORT;
    if (dump->frame.length < FRONT || dump->refusal == LAMPREYCOIL_START_WRONG)
        return kinds;
    kinds |= SPLIT;
    if (dump->split.header != 0)
        kinds |= FOUND | read_header(object, dump->frame.bytes + dump->split.header);
    return kinds;
}

/*
 * A frame has its place in the capture, or else the input's length; both if it is not whole, as far
 * as that is known: its input begins with it. One that was passed is as long as its front says.
 */
static struct object object_of(const struct dump *dump)
{
    struct object object = {.dump = dump, .kinds = ANY};

    object.kinds |=
        dump->refusal == LAMPREYCOIL_OK ? kinds_of_accepted(&object) : kinds_of_refused(&object);
    if (dump->placed)
        object.kinds |= PLACED;
    if (dump->refusal == LAMPREYCOIL_OK || dump->passed)
        object.kinds |= SIZED;
    if (!dump->placed || (!dump->frame.whole && !dump->passed))
        object.kinds |= INPUT;
    if (dump->frame.more)
        object.kinds |= MORE;
    return object;
}

/* ---- the members that --fields asks for */

static const struct members *const all_members[] = {
    &frame_members, &delimiter_members, &topic_members, &payload_members, &header_members,
};

enum { GROUPS = sizeof all_members / sizeof all_members[0] };

/* NULL where no member has the name, of so many bytes. */
static const struct member *member_by_name(const char *name, size_t length)
{
    for (size_t i = 0; i < GROUPS; i++) {
        const struct member *first = all_members[i]->first;

        for (const struct member *at = first; at < first + all_members[i]->count; at++) {
            if (strlen(at->name) == length && memcmp(at->name, name, length) == 0)
                return at;
        }
    }
    return NULL;
}

/* Says that there is none, and which there are. */
static int no_member(const char *name, size_t length)
{
    char names[900];
    size_t used = 0;

    for (size_t i = 0; i < GROUPS; i++) {
        for (size_t j = 0; j < all_members[i]->count; j++)
            used += (size_t)snprintf(names + used, sizeof names - used, " %s",
                                     all_members[i]->first[j].name);
    }
    return trouble("--fields: no field is called '%.*s'; there are%s",
                   length < 40 ? (int)length : 40, name, names);
}

static int ask_for(struct asked_fields *asked, const char *name, size_t length)
{
    const struct member *member = member_by_name(name, length);

    if (member == NULL)
        return no_member(name, length);
    for (size_t i = 0; i < asked->count; i++) {
        if (asked->members[i] == member)
            return trouble("--fields has '%s' twice", member->name);
    }
    asked->members[asked->count++] = member;
    asked->judged |= (member->kind & JUDGED) != 0;
    return 0;
}

int read_asked_fields(const char *list, struct asked_fields *asked)
{
    int status;

    for (;;) {
        size_t length = strcspn(list, ",");

        if ((status = ask_for(asked, list, length)) != 0 || list[length] == '\0')
            return status;
        list += length + 1;
    }
}

/* ---- the objects */

static void put_all(const struct object *object)
{
    for (size_t i = 0; i < frame_members.count; i++)
        put_member(object, &frame_members.first[i], 0);
}

/* A frame that is refused says so, whatever was asked: its fields must not pass for a message's. */
static void put_asked(const struct object *object, const struct asked_fields *asked)
{
    const struct member *accepted = &frame_members.first[0];
    int said = (object->kinds & REFUSED) == 0;

    for (size_t i = 0; i < asked->count; i++)
        said |= asked->members[i] == accepted;
    if (!said)
        put_member(object, accepted, 0);
    for (size_t i = 0; i < asked->count; i++)
        put_member(object, asked->members[i], 0);
}

void show_json(const struct dump *dump)
{
    struct object object = object_of(dump);

    json_open('{');
    if (dump->asked == NULL)
        put_all(&object);
    else
        put_asked(&object, dump->asked);
    json_close('}');
    json_end();
}

/* The number that is told of a stop, or null. */
static void put_told(const char *name, int told, unsigned long long number)
{
    json_name(name);
    if (told)
        json_number(number);
    else
        json_null();
}

void show_json_stop(const struct dump *dump)
{
    static const char *const names[] = {"end", "torn", "refused", "range", "interrupted"};
    const struct tally *tally = &dump->tally;
    enum stop stop = stop_of(dump);
    unsigned long long next;
    int told = next_begins(dump, &next);

    json_open('{');
    json_name("stop");
    json_text(names[stop]);
    put_told("frames", 1, tally->accepted);
    put_told("bytes", 1, dump->frame.start);
    put_told("refusal", stop == STOP_TORN || stop == STOP_REFUSED, dump->refusal);
    put_told("shown", 1, tally->selected);
    put_told("refused", 1, tally->passed + (stop == STOP_REFUSED ? 1 : 0));
    put_told("next", told, next);
    if (dump->options->selection.errors)
        put_told("responses", 1, tally->asked);
    json_close('}');
    json_end();
}

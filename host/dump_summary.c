/* A frame in one line, and the line that tells why no more frames are shown. */
#include <stdio.h>

#include "dump.h"
#include "names.h"
#include "one_line.h"
#include "put.h"

static void put_payload_words(const struct dump *dump)
{
    size_t length = payload_length(dump);

    if (!has_payload(dump)) {
        put_text(", no payload");
        return;
    }
    put_text(", payload ");
    put_number(length);
    put_text(" byte");
    put_text(plural(length));
    put_text(", ");
    put_text(verdict_words(dump->verdict.kind));
}

/* Which frame it is, and where. */
static void put_frame_words(const struct dump *dump)
{
    put_text("frame ");
    put_number_left(dump->frame.number, 7);
    put_byte(' ');
    put_number_right(dump->frame.length, 5);
    put_text(" bytes, from byte ");
    put_number_left(dump->frame.start, 9);
    put_byte(' ');
}

void show_summary(const struct dump *dump)
{
    struct fields fields = fields_at(dump->frame.bytes + header_start(dump));
    const uint8_t *topic = dump->frame.bytes + dumped(dump, LAMPREYCOIL_READ_TOPIC_START);
    uint32_t routes = dumped(dump, LAMPREYCOIL_READ_ROUTES);

    put_frame_words(dump);
    put_text_left(type_by_number(fields.type)->name, 8);
    put_text("  ");
    put_topic_and_fields((fields.flags & LAMPREYCOIL_TOPIC) != 0 ? topic : NULL,
                         dumped(dump, LAMPREYCOIL_READ_TOPIC_LENGTH), fields.type, fields.first,
                         fields.second);
    /* A control message cannot have one. */
    if (fields.type != LAMPREYCOIL_CONTROL)
        put_payload_words(dump);
    if (routes > 0) {
        put_text(", ");
        put_number(routes);
        put_text(" route");
        put_text(plural(routes));
    }
    put_marks(fields.flags);
    put_byte('\n');
    put_out();
}

void show_passed(const struct dump *dump)
{
    printf("frame %-7llu %5zu bytes, from byte %-9llu %-8s  %lu: %s (%s)\n", dump->frame.number,
           dump->frame.length, dump->frame.start, "refused", (unsigned long)dump->refusal,
           lampreycoil_refusal_words(dump->refusal), dump->fault.told);
}

/* Room for the words of each of the two below, with the longest numbers. */
enum { NEXT_ROOM = 100, COUNT_PART = 80, COUNT_ROOM = 4 * COUNT_PART };

/* Where the frame behind a refused one would begin. */
static const char *tell_next(const struct dump *dump, char text[NEXT_ROOM])
{
    unsigned long long next;

    text[0] = '\0';
    if (next_begins(dump, &next))
        snprintf(text, NEXT_ROOM, "; by its front the next one would begin at byte %llu", next);
    return text;
}

/* How many frames there were, and how many of them were what. */
static const char *tell_counts(const struct dump *dump, char text[COUNT_ROOM])
{
    const struct selection *selection = &dump->options->selection;
    const struct tally *tally = &dump->tally;
    const char *selected = !is_selective(selection)              ? ""
                           : writes_bytes(dump->options) == NULL ? " shown"
                                                                 : " selected";
    char shown[COUNT_PART] = "", errors[COUNT_PART] = "", passed[COUNT_PART] = "";

    if (is_selective(selection))
        snprintf(shown, sizeof shown, "%llu of ", tally->selected);
    if (selection->errors && tally->asked == 0)
        snprintf(errors, sizeof errors, ", no response to look at");
    else if (selection->errors)
        snprintf(errors, sizeof errors, ", errors in %llu of %llu response%s", tally->selected,
                 tally->asked, plural(tally->asked));
    if (tally->passed > 0)
        snprintf(passed, sizeof passed, ", %llu refused and passed", tally->passed);
    snprintf(text, COUNT_ROOM, "%s%llu frame%s%s%s%s, %llu bytes", shown, tally->accepted,
             plural(tally->accepted), selected, errors, passed, dump->frame.start);
    return text;
}

void tell_stop(const struct dump *dump, char text[STOP_ROOM])
{
    unsigned long long number = dump->frame.number, start = dump->frame.start;
    enum stop stop = stop_of(dump);
    char counts[COUNT_ROOM], next[NEXT_ROOM];

    tell_counts(dump, counts);
    if (stop == STOP_END && number == 0)
        snprintf(text, STOP_ROOM, "no frame: the capture is empty");
    else if (stop == STOP_END)
        snprintf(text, STOP_ROOM, "%s, and nothing behind %s", counts, number == 1 ? "it" : "them");
    else if (stop == STOP_RANGE)
        snprintf(text, STOP_ROOM, "%s; no more was asked for: what is behind was not looked at",
                 counts);
    else if (stop == STOP_INTERRUPTED)
        snprintf(text, STOP_ROOM, "%s; interrupted: what is behind was not looked at", counts);
    else if (stop == STOP_TORN)
        snprintf(text, STOP_ROOM, "%s; frame %llu, from byte %llu, is torn: %s", counts, number,
                 start, dump->fault.told);
    else
        snprintf(text, STOP_ROOM, "%s; frame %llu, from byte %llu, is refused, %lu: %s (%s)%s",
                 counts, number, start, (unsigned long)dump->refusal,
                 lampreycoil_refusal_words(dump->refusal), dump->fault.told, tell_next(dump, next));
}

void show_stop(const struct dump *dump)
{
    char text[STOP_ROOM];

    tell_stop(dump, text);
    printf("%-14s%s\n", "stop", text);
}

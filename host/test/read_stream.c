/*
 * Tests lampreycoil_read_stream: what it lists, and with what and where it stops, is what
 * lampreycoil_read says of frame after frame; nothing else is written. Prints a line for each test,
 * "passed" or "FAILED".
 */
#include "floor.h"

enum {
    FRAMES = 5,
    STREAM = LAMPREYCOIL_STREAM_MAX + 100,
    MOST = LAMPREYCOIL_LIST_MAX / LAMPREYCOIL_ENTRY_SIZE,
    LIST = LAMPREYCOIL_LIST_MAX + 100
};

static uint8_t bytes[STREAM], list[LIST];
static size_t length;

/* What the call told, and some bytes behind it. */
static uint8_t record[LAMPREYCOIL_STREAM_RECORD + 4];

static uint32_t told(size_t index)
{
    return lampreycoil_number(record, index);
}

static uint32_t list_stream(size_t given, size_t room)
{
    memset(list, FILL, sizeof list);
    memset(record, FILL, sizeof record);
    return lampreycoil_read_stream(bytes, given, list, room, record, LAMPREYCOIL_STREAM_RECORD);
}

static int filled(const uint8_t *at, size_t count)
{
    for (size_t i = 0; i < count; i++) {
        if (at[i] != FILL)
            return 0;
    }
    return 1;
}

/* The call on the first `given` bytes with this room does what reads one after another do. */
static int lists(size_t given, size_t room)
{
    uint8_t row[LAMPREYCOIL_READ_RECORD];
    size_t seen = given < LAMPREYCOIL_STREAM_MAX ? given : LAMPREYCOIL_STREAM_MAX;
    size_t at = 0, entries = 0;
    uint32_t refusal;

    if (list_stream(given, room) != LAMPREYCOIL_OK)
        return 0;
    while ((refusal = lampreycoil_read(bytes + at, seen - at, row, sizeof row)) == LAMPREYCOIL_OK) {
        struct lampreycoil_place place = lampreycoil_entry(list, entries);

        if (room / LAMPREYCOIL_ENTRY_SIZE == entries) {
            refusal = LAMPREYCOIL_OUTPUT_SHORT;
            break;
        }
        if (place.start != at || place.length != lampreycoil_number(row, LAMPREYCOIL_READ_TOOK))
            return 0;
        at += place.length;
        entries++;
    }
    return told(LAMPREYCOIL_STREAM_ENTRIES) == entries &&
           told(LAMPREYCOIL_STREAM_REFUSAL) == refusal && told(LAMPREYCOIL_STREAM_STOP) == at &&
           filled(list + entries * LAMPREYCOIL_ENTRY_SIZE,
                  sizeof list - entries * LAMPREYCOIL_ENTRY_SIZE) &&
           filled(record + LAMPREYCOIL_STREAM_RECORD, 4);
}

/* A frame more; one that may have routes has one. */
static void add(uint8_t type, uint8_t flags, const char *topic, size_t payload)
{
    const int routes = (flags & LAMPREYCOIL_ROUTE) != 0;
    const struct message m = {type, flags, 3, topic, RANKS, routes, payload};
    static uint8_t frame[ROOM];
    size_t more = write_message(&m, frame);

    memcpy(bytes + length, frame, more);
    length += more;
}

/* A frame of each type, and one with a long payload among them. */
static void make_stream(void)
{
    const uint8_t flags = LAMPREYCOIL_TOPIC | LAMPREYCOIL_ROUTE;

    length = 0;
    add(LAMPREYCOIL_REQUEST, flags, "log", 0);
    add(LAMPREYCOIL_CONTROL, 0, "", 0);
    add(LAMPREYCOIL_RESPONSE, flags | LAMPREYCOIL_PAYLOAD, "kvs.get", 300);
    add(LAMPREYCOIL_EVENT, LAMPREYCOIL_TOPIC, "up", 0);
    add(LAMPREYCOIL_CONTROL, 0, "", 0);
}

static int stopped(uint32_t entries, uint32_t refusal, size_t stop)
{
    return told(LAMPREYCOIL_STREAM_ENTRIES) == entries &&
           told(LAMPREYCOIL_STREAM_REFUSAL) == refusal && told(LAMPREYCOIL_STREAM_STOP) == stop;
}

static void take_rooms(void)
{
    int good = 1;

    for (size_t given = 0; given <= length; given++)
        good = good && lists(given, sizeof list);
    report(good, "a stream that is torn at each of its bytes");
    report(lists(length, sizeof list) && stopped(FRAMES, LAMPREYCOIL_INPUT_SHORT, length),
           "its end is refusal 1 at its length");
    good = 1;
    for (size_t room = 0; room <= (FRAMES + 1) * LAMPREYCOIL_ENTRY_SIZE; room++)
        good = good && lists(length, room);
    report(good, "lists of each length");
    report(lists(length, LAMPREYCOIL_ENTRY_SIZE - 1) && stopped(0, LAMPREYCOIL_OUTPUT_SHORT, 0),
           "no room for an entry is refusal 11");
    report(lists(length, FRAMES * LAMPREYCOIL_ENTRY_SIZE) &&
               stopped(FRAMES, LAMPREYCOIL_INPUT_SHORT, length),
           "room for exactly the entries that there are");
}

/* Behind the frames comes one that is refused, and a good one behind that. */
static void take_refused(void)
{
    const size_t whole = length;
    int good;

    add(LAMPREYCOIL_CONTROL, 0, "", 0);
    add(LAMPREYCOIL_CONTROL, 0, "", 0);
    bytes[whole + LAMPREYCOIL_FRONT_SIZE + 1] = 0x8F;
    good = lists(length, sizeof list) && stopped(FRAMES, LAMPREYCOIL_MAGIC_WRONG, whole);
    report(good, "a refused frame stops it, with a good one behind");
    good = lists(length, FRAMES * LAMPREYCOIL_ENTRY_SIZE) &&
           stopped(FRAMES, LAMPREYCOIL_MAGIC_WRONG, whole);
    report(good, "it is told as what it is where there is no room either");
    good = 1;
    for (size_t given = whole; given <= length; given++)
        good = good && lists(given, sizeof list);
    report(good, "torn at each byte from there on");
    memset(bytes + whole, 'x', LAMPREYCOIL_FRONT_SIZE);
    report(lists(length, sizeof list) && stopped(FRAMES, LAMPREYCOIL_START_WRONG, whole),
           "no frame at all");
}

static void take_records(void)
{
    int good = 1;

    make_stream();
    for (size_t given = 0; given < LAMPREYCOIL_STREAM_RECORD; given++) {
        memset(list, FILL, sizeof list);
        memset(record, FILL, sizeof record);
        good = good &&
               lampreycoil_read_stream(bytes, length, list, sizeof list, record, given) ==
                   LAMPREYCOIL_OUTPUT_SHORT &&
               filled(list, sizeof list) && filled(record, sizeof record);
    }
    report(good, "a record that is too short is refusal 11, and nothing is written");
    good = lampreycoil_read_stream(bytes, length, list, sizeof list, record, sizeof record) ==
               LAMPREYCOIL_OK &&
           filled(record + LAMPREYCOIL_STREAM_RECORD, 4);
    report(good, "a longer record keeps its tail");
    memset(list, FILL, sizeof list);
    good = lampreycoil_read_stream(bytes, length, list + 1, sizeof list - 1, record + 1,
                                   LAMPREYCOIL_STREAM_RECORD) == LAMPREYCOIL_OK &&
           lampreycoil_number(record + 1, LAMPREYCOIL_STREAM_ENTRIES) == FRAMES &&
           lampreycoil_entry(list + 1, 1).start == lampreycoil_entry(list + 1, 0).length;
    report(good && list[0] == FILL, "slices that begin at an odd byte");
}

/* As many of the shortest frames as are looked at, and more behind them. */
static void take_longest(void)
{
    const size_t stop = (size_t)MOST * LAMPREYCOIL_FRAME_MIN;

    length = 0;
    add(LAMPREYCOIL_CONTROL, 0, "", 0);
    for (; length < LAMPREYCOIL_STREAM_MAX; length += LAMPREYCOIL_FRAME_MIN)
        memcpy(bytes + length, bytes, LAMPREYCOIL_FRAME_MIN);
    report(lists(length, LAMPREYCOIL_LIST_MAX) && stopped(MOST, LAMPREYCOIL_INPUT_SHORT, stop),
           "what is past the first 1,048,576 bytes counts as absent");
    report(lists(LAMPREYCOIL_STREAM_MAX, LAMPREYCOIL_LIST_MAX) &&
               stopped(MOST, LAMPREYCOIL_INPUT_SHORT, stop),
           "the same with nothing past them");
    report(lists(length, LAMPREYCOIL_LIST_MAX - 1) &&
               stopped(MOST - 1, LAMPREYCOIL_OUTPUT_SHORT, stop - LAMPREYCOIL_FRAME_MIN),
           "a byte less than the longest list is too short for them");
}

int main(void)
{
    make_floor();
    make_stream();
    take_rooms();
    take_refused();
    take_records();
    take_longest();
    return 0;
}

/*
 * Tests lampreycoil_read_fault: the number that a read returns, and the byte at fault, for each
 * refusal of the reader; and that it writes its record and no more. Prints a line for each test,
 * "passed" or "FAILED".
 */
#include "told.h"

enum { ROUTES = LAMPREYCOIL_ROUTES_MAX + 1, LONG_ROUTE = 300 };

/* A frame that is made part by part, and where its last part begins. */
static uint8_t frame[LAMPREYCOIL_FRAME_MAX];
static size_t length, last;

/* The call says this of so many bytes, and returns what a read returns. */
static int tells(const uint8_t *bytes, size_t given, uint32_t number, size_t byte)
{
    uint8_t record[LAMPREYCOIL_FAULT_RECORD + TAIL], row[LAMPREYCOIL_READ_RECORD];
    uint32_t returned;

    memset(record, FILL, sizeof record);
    returned = lampreycoil_read_fault(bytes, given, record, LAMPREYCOIL_FAULT_RECORD);
    return returned == number && returned == lampreycoil_read(bytes, given, row, sizeof row) &&
           lampreycoil_number(record, LAMPREYCOIL_FAULT_NUMBER) == number &&
           lampreycoil_number(record, LAMPREYCOIL_FAULT_BYTE) == byte &&
           filled(record + LAMPREYCOIL_FAULT_RECORD, TAIL);
}

/* The body's length, which is all that is behind the front. */
static void set_length(void)
{
    size_t body = length - LAMPREYCOIL_FRONT_SIZE;

    frame[4] = frame[5] = 0;
    frame[6] = (uint8_t)(body / 256);
    frame[7] = (uint8_t)(body % 256);
}

static void begin(void)
{
    static const uint8_t front[] = {0xFF, 0xEE, 0x00, 0x12};

    memcpy(frame, front, sizeof front);
    length = LAMPREYCOIL_FRONT_SIZE;
    set_length();
}

/* A part of so many bytes, the first of them as given and the others x. */
static void add(const void *data, size_t known, size_t size)
{
    last = length;
    if (size < 255) {
        frame[length++] = (uint8_t)size;
    } else {
        const uint8_t longer[] = {255, 0, 0, (uint8_t)(size / 256), (uint8_t)(size % 256)};

        memcpy(frame + length, longer, sizeof longer);
        length += sizeof longer;
    }
    memset(frame + length, 'x', size);
    if (known > 0)
        memcpy(frame + length, data, known);
    length += size;
    set_length();
}

static void add_header(uint8_t type, uint8_t flags, uint32_t first, uint32_t second)
{
    uint8_t header[20] = {0x8E, 0x01};

    header[2] = type;
    header[3] = flags;
    for (size_t i = 0; i < 4; i++) {
        header[12 + i] = (uint8_t)(first >> (24 - 8 * i));
        header[16 + i] = (uint8_t)(second >> (24 - 8 * i));
    }
    add(header, sizeof header, sizeof header);
}

/* A request with so many routes, of which those with the bits of `bad` are of another length. */
static void make_request(size_t routes, uint64_t bad, size_t bad_length)
{
    static const char route[] = "00000000-0123-4567-89ab-cdef01234567";

    begin();
    for (size_t i = 0; i < routes; i++) {
        if (i < 64 && (bad >> i & 1) != 0)
            add(NULL, 0, bad_length);
        else
            add(route, sizeof route, sizeof route);
    }
    add(NULL, 0, 0);
    add("log", 4, 4);
    add_header(LAMPREYCOIL_REQUEST, LAMPREYCOIL_TOPIC | LAMPREYCOIL_ROUTE, 4294967295u, 1);
}

/* With one byte changed; it is put back. */
static int changed(size_t at, uint8_t byte, uint32_t number, size_t where)
{
    uint8_t was = frame[at];
    int good;

    frame[at] = byte;
    good = tells(frame, length, number, where);
    frame[at] = was;
    return good;
}

static void take_front(void)
{
    make_request(2, 0, 0);
    report(tells(frame, length, 0, 0) && tells(frame, sizeof frame, 0, 0), "a good frame");
    report(tells(frame, length - 1, 1, 0) && tells(frame, 7, 1, 0) && tells(frame, 0, 1, 0),
           "1 has no byte");
    report(changed(3, 0x13, 2, 0), "2 has no byte");
    report(changed(5, 1, 3, 0), "3 has no byte");
}

static void take_parts(void)
{
    begin();
    report(tells(frame, length, 6, 8), "6 with no part is at 8");
    for (size_t i = 0; i < 69; i++)
        add(NULL, 0, 0);
    report(tells(frame, length, 5, 8 + 68), "5 is at the 69th part");
    begin();
    add(NULL, 0, 7);
    add(NULL, 0, LONG_ROUTE);
    report(changed(last + 3, 0, 4, last), "4 of a long size below 255 is at its first byte");
    report(changed(last + 1, 1, 4, last), "4 of data past the end is at the size byte");
    report(tells(frame, length, 6, last), "6 of a long last part is at its size byte");
    add(NULL, 0, 19);
    report(tells(frame, length, 6, last), "6 of 19 bytes is at the size byte");
}

static void take_header(void)
{
    make_request(1, 0, 0);
    report(changed(last + 1, 0x8F, 20, last + 1), "20 is at the magic");
    report(changed(last + 2, 2, 21, last + 2), "21 is at the version");
    report(changed(last + 3, 3, 22, last + 3), "22 is at the type");
    report(changed(last + 4, 0x89, 23, last + 4), "23 is at the flags");
    report(changed(last + 4, 0x0B, 7, last + 1), "7 is at the header's data");
    report(changed(last + 16, 0xFE, 10, last + 13), "10 is at the nodeid");
    frame[last + 2] = 2;
    report(changed(last + 1, 0x8F, 20, last + 1), "20 comes before 21");
    begin();
    add("up", 3, 3);
    add_header(LAMPREYCOIL_EVENT, LAMPREYCOIL_TOPIC, 5, 0x100);
    report(tells(frame, length, 10, last + 17), "10 is at an event's unused field");
}

static void take_routes(void)
{
    make_request(5, 1 << 2, 36);
    report(tells(frame, length, 8, 8 + 2 * 38 + 1), "8 is at the third route");
    make_request(5, 1 << 1 | 1 << 3, LONG_ROUTE);
    report(tells(frame, length, 8, 8 + 38 + 5), "8 is at the first of two, behind a long size");
    make_request(ROUTES, 0, 0);
    report(tells(frame, length, 8, 8 + 64 * 38 + 1), "8 is at the 65th route");
    make_request(ROUTES, 1 << 2, 36);
    report(tells(frame, length, 8, 8 + 2 * 38 + 1), "8 is at the third of 65");
}

static void take_topics(void)
{
    make_request(3, 0, 0);
    report(changed(last - 1, 'x', 9, 8 + 3 * 38 + 2), "9 is at the topic's data");
    begin();
    add("", 0, 0);
    add_header(LAMPREYCOIL_EVENT, LAMPREYCOIL_TOPIC, 0, 0);
    report(tells(frame, length, 9, 9), "9 of an empty topic is behind its size");
    begin();
    add(NULL, 0, LONG_ROUTE);
    add_header(LAMPREYCOIL_EVENT, LAMPREYCOIL_TOPIC, 0, 0);
    report(tells(frame, length, 9, 8 + 5), "9 of a long topic is behind its long size");
}

static void take_records(void)
{
    uint8_t record[LAMPREYCOIL_FAULT_RECORD];
    int good = 1;

    make_request(0, 0, 0);
    for (size_t room = 0; room < sizeof record; room++) {
        memset(record, FILL, sizeof record);
        good = good && lampreycoil_read_fault(frame, length, record, room) == 11 &&
               filled(record, sizeof record);
    }
    report(good, "a short record is 11, and nothing is written");
}

int main(void)
{
    take_front();
    take_parts();
    take_header();
    take_routes();
    take_topics();
    take_records();
    return 0;
}

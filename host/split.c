#include "split.h"

#include <string.h>

#include "lampreycoil.h"

uint32_t number_at(const uint8_t *bytes)
{
    return lampreycoil_number(bytes, 0);
}

const char *role_name(enum part_role role)
{
    static const char *const names[] = {"",        "route",     "delimiter", "topic",
                                        "payload", "left over", "header"};

    return names[role];
}

size_t split_part(const uint8_t *bytes, size_t limit, size_t at, struct part *part)
{
    size_t left = limit - at;
    size_t size;

    if (left == 0)
        return 0;
    size = bytes[at] == LONG_SIZE ? 5 : 1;
    if (left < size)
        return 0;
    part->start = at + size;
    part->length = size == 1 ? bytes[at] : number_at(bytes + at + 1);
    part->role = ROLE_UNKNOWN;
    if ((size == 5 && part->length < LONG_SIZE) || left - size < part->length)
        return 0;
    return part->start + part->length;
}

static void split_parts(const uint8_t *bytes, struct split *split)
{
    size_t end;

    split->end_at = FRONT;
    while (split->count < PARTS_MAX && (end = split_part(bytes, split->limit, split->end_at,
                                                         &split->parts[split->count])) > 0) {
        split->count++;
        split->end_at = end;
    }
    split->whole = split->end_at - FRONT == split->body;
}

/*
 * The header is the last part. Where the parts cannot be split to the end, a header that stands at
 * the body's end is known by its size, magic and version.
 */
static void find_header(const uint8_t *bytes, struct split *split)
{
    static const uint8_t begin[] = {HEADER, 0x8E, 0x01};
    size_t end = split->limit;

    if (end - FRONT != split->body)
        return;
    if (split->whole) {
        if (split->count > 0 && split->parts[split->count - 1].length == HEADER) {
            split->header = end - HEADER;
            split->header_last = 1;
        }
    } else if (split->body > HEADER && memcmp(bytes + end - HEADER - 1, begin, sizeof begin) == 0) {
        split->header = end - HEADER;
    }
}

/* Which part is what follows from the header's flags and the parts' places. */
static void give_roles(const uint8_t *bytes, struct split *split)
{
    uint8_t flags = bytes[split->header + 3];
    size_t at = 0, last = split->count - 1;

    split->parts[last].role = ROLE_HEADER;
    if ((flags & LAMPREYCOIL_ROUTE) != 0) {
        while (at < last && split->parts[at].length != 0)
            at++;
        if (at == last)
            return;
        split->parts[at].role = ROLE_DELIMITER;
        for (size_t i = 0; i < at; i++)
            split->parts[i].role = ROLE_ROUTE;
        at++;
    }
    if (at < last && (flags & LAMPREYCOIL_TOPIC) != 0)
        split->parts[at++].role = ROLE_TOPIC;
    if (at < last && (flags & LAMPREYCOIL_PAYLOAD) != 0)
        split->parts[at++].role = ROLE_PAYLOAD;
    while (at < last)
        split->parts[at++].role = ROLE_EXTRA;
}

void split_frame(const uint8_t *bytes, size_t length, struct split *split)
{
    memset(split, 0, sizeof *split);
    split->body = number_at(bytes + 4);
    split->limit = length - FRONT < split->body ? length : (size_t)split->body + FRONT;
    split_parts(bytes, split);
    find_header(bytes, split);
    if (split->header_last)
        give_roles(bytes, split);
}

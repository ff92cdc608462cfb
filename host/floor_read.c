#include <string.h>

#include "files.h"
#include "floor.h"
#include "words.h"

static const char blanks[] = " \t\r";

/* A mistake for which the library has no number: the line is not read as far as that. */
enum { UNREAD = LAMPREYCOIL_OK };

/* Cuts the next word from a line; NULL at its end, or where a comment begins. */
static char *cut_word(char **line)
{
    char *word = *line + strspn(*line, blanks);
    size_t length = strcspn(word, blanks);

    if (*word == '\0' || *word == '#')
        return NULL;
    *line = word + length;
    if (**line != '\0')
        *(*line)++ = '\0';
    return word;
}

/* What is past the room is left out: without it there are too many already. */
static void take_service(struct floor *floor, int line, uint32_t rank, const char *name)
{
    if (floor->services == SERVICES_ROOM)
        return;
    struct floor_service *service = &floor->service[floor->services++];
    service->line = line;
    service->rank = rank;
    service->name = name;
}

static int take_parent(const char *word, uint32_t *parent)
{
    if (strcmp(word, "none") != 0)
        return parse_number(word, 10, UINT32_MAX, parent);
    *parent = LAMPREYCOIL_NO_PARENT;
    return 0;
}

/* The rank that a line begins with, and no other line before it. NULL: it is a mistake. */
static struct floor_rank *take_rank(struct floor *floor, int line, const char *word)
{
    char told[WORD_ROOM];
    uint32_t number;

    if (parse_number(word, 10, UINT32_MAX, &number) != 0) {
        broken(floor, line, UNREAD, "a line begins with its rank, a number, and not with %s",
               told_word(word, told));
    } else if (number >= RANKS_ROOM) {
        broken(floor, line, UNREAD, "rank %lu is too high: ranks go from 0 to %d",
               (unsigned long)number, LAMPREYCOIL_RANKS_MAX - 1);
    } else if (floor->rank[number].line != 0) {
        broken(floor, line, UNREAD,
               "rank %lu is given twice, here and on line %d: remove one, or correct its number",
               (unsigned long)number, floor->rank[number].line);
    } else {
        floor->rank[number].line = line;
        if (number >= floor->ranks)
            floor->ranks = number + 1;
        return &floor->rank[number];
    }
    floor->unsure = 1;
    return NULL;
}

/* A line: rank, parent, identity, services. */
static void take_line(struct floor *floor, int line, char *text)
{
    char *rank_word = cut_word(&text), *parent, *identity, *name;
    struct floor_rank *rank = rank_word == NULL ? NULL : take_rank(floor, line, rank_word);
    char told[WORD_ROOM];

    if (rank == NULL)
        return;
    unsigned long number = (unsigned long)(rank - floor->rank);
    if ((parent = cut_word(&text)) == NULL) {
        broken(floor, line, UNREAD,
               "rank %lu has no parent: write one behind the rank, a rank or 'none'", number);
    } else if (take_parent(parent, &rank->parent) != 0) {
        broken(floor, line, UNREAD, "rank %lu's parent has to be a rank or 'none', and not %s",
               number, told_word(parent, told));
    } else if ((identity = cut_word(&text)) == NULL) {
        broken(floor, line, UNREAD, "rank %lu has no identity: write its UUID behind the parent",
               number);
    } else {
        rank->identity = identity;
        rank->read = 1;
        while ((name = cut_word(&text)) != NULL)
            take_service(floor, line, (uint32_t)number, name);
    }
}

/* The first byte that is a control character and no blank, or the length. */
static size_t first_control(const char *text, size_t length)
{
    size_t at = 0;

    while (at < length && (((uint8_t)text[at] >= 0x20 && text[at] != 0x7F) || text[at] == '\t' ||
                           text[at] == '\r'))
        at++;
    return at;
}

/* A terminal would obey other control bytes, and a zero would end the text early. */
static void take_text(struct floor *floor, char *text, size_t length)
{
    char *end = text + length;

    for (char *at = text, *next; at != NULL; at = next) {
        char *line_end = memchr(at, '\n', (size_t)(end - at));
        size_t line_length = (size_t)((line_end == NULL ? end : line_end) - at);
        size_t control = first_control(at, line_length);

        next = line_end == NULL ? NULL : line_end + 1;
        floor->lines++;
        if (control < line_length) {
            broken(floor, floor->lines, UNREAD,
                   "byte %zu of the line is the control character %02X: remove it, for a floor is "
                   "plain text",
                   control + 1, (uint8_t)at[control]);
            floor->unsure = 1;
            continue;
        }
        at[line_length] = '\0';
        take_line(floor, floor->lines, at);
    }
}

static void tell_gap(struct floor *floor, uint32_t first, uint32_t behind)
{
    int line = floor->rank[behind].line;

    if (behind - first == 1)
        broken(floor, line, UNREAD,
               "rank %lu is missing, and rank %lu is here: add a line for rank %lu",
               (unsigned long)first, (unsigned long)behind, (unsigned long)first);
    else
        broken(floor, line, UNREAD,
               "ranks %lu to %lu are missing, and rank %lu is here: add a line for each",
               (unsigned long)first, (unsigned long)behind - 1, (unsigned long)behind);
}

/*
 * Ranks are counted from 0 without a gap: the tables have a place for each. A gap may come from a
 * line of which the rank could not be read: then that line is told, and not the gap.
 */
static void check_gaps(struct floor *floor)
{
    uint32_t first = 0; /* of those that are missing */

    for (uint32_t rank = 0; rank < floor->ranks && !floor->unsure; rank++) {
        if (floor->rank[rank].line == 0)
            continue;
        if (first < rank)
            tell_gap(floor, first, rank);
        first = rank + 1;
    }
}

/* A name or an identity that is too long is cut, and its record still says that it is too long. */
static void make_tables(struct floor *floor)
{
    for (uint32_t rank = 0; rank < floor->ranks; rank++) {
        uint8_t *identity = floor->identity_table + (size_t)rank * LAMPREYCOIL_ROUTE_SIZE;
        size_t length = strlen(floor->rank[rank].identity);

        lampreycoil_put_number(floor->tree_table, rank, floor->rank[rank].parent);
        memcpy(identity, floor->rank[rank].identity,
               length < LAMPREYCOIL_ROUTE_SIZE ? length : LAMPREYCOIL_ROUTE_SIZE);
    }
    for (size_t i = 0; i < floor->services; i++) {
        uint8_t *record = floor->service_table + i * LAMPREYCOIL_SERVICE_SIZE;
        size_t length = strlen(floor->service[i].name);

        lampreycoil_put_number(record, 0, floor->service[i].rank);
        record[4] = (uint8_t)(length < UINT8_MAX ? length : UINT8_MAX);
        memcpy(record + 5, floor->service[i].name,
               length < LAMPREYCOIL_NAME_MAX ? length : LAMPREYCOIL_NAME_MAX);
    }
    floor->tree_length = (size_t)floor->ranks * LAMPREYCOIL_RANK_SIZE;
    floor->identity_length = (size_t)floor->ranks * LAMPREYCOIL_ROUTE_SIZE;
    floor->service_length = floor->services * LAMPREYCOIL_SERVICE_SIZE;
}

/* Whether the text is UTF-16: by its mark, or because every second byte of ASCII is zero there. */
static int is_utf_16(const uint8_t *text, size_t length)
{
    return length >= 2 &&
           ((text[0] == 0xFF && text[1] == 0xFE) || (text[0] == 0xFE && text[1] == 0xFF) ||
            (text[0] == 0) != (text[1] == 0));
}

int read_floor(struct floor *floor, const char *name)
{
    static uint8_t text[INPUT_MAX + 1];
    uint8_t *start = text;
    size_t length;

    memset(floor, 0, sizeof *floor);
    floor->file = input_name(name);
    int status = read_all(name, text, &length);
    if (status != 0)
        return status;
    if (is_utf_16(text, length)) {
        broken(floor, 1, UNREAD, "the file is text in UTF-16: save it as UTF-8 or ASCII");
        floor->unsure = 1;
        return 0;
    }
    if (length >= 3 && memcmp(text, "\xEF\xBB\xBF", 3) == 0) {
        warn(floor, 1, "the file begins with a byte order mark, which is skipped: save it without");
        start += 3;
        length -= 3;
    }
    take_text(floor, (char *)start, length);
    check_gaps(floor);
    if (floor->mistakes.count == 0)
        make_tables(floor);
    return 0;
}

#include "floor_show.h"

#include <stdarg.h>
#include <stdio.h>
#include <string.h>

#include "names.h"
#include "quoted.h"

/* The picture's columns for each link that a rank is below rank 0. */
enum { INDENT = 3, PREFIX_ROOM = INDENT * (LAMPREYCOIL_DEPTH_MAX + 1) + 2, COLUMNS = 100 };

struct drawing {
    const struct floor *floor;
    int width; /* of the column that holds the tree */
    rank_note note;
    const void *more;
    char prefix[PREFIX_ROOM]; /* the lines that go on to ranks further below */
    char below[PREFIX_ROOM];  /* the same in a line that goes on with a rank's note */
    int column;               /* how far the line goes */
};

int has_services(const struct floor *floor, uint32_t rank)
{
    for (size_t i = 0; i < floor->services; i++) {
        if (floor->service[i].rank == rank)
            return 1;
    }
    return 0;
}

size_t service_names(const struct floor *floor)
{
    size_t names = 0;

    for (size_t i = 0, before; i < floor->services; i++) {
        for (before = 0; before < i; before++) {
            if (strcmp(floor->service[before].name, floor->service[i].name) == 0)
                break;
        }
        names += before == i;
    }
    return names;
}

void print_size(const struct floor *floor)
{
    size_t names = service_names(floor);

    printf("%lu rank%s, depth %u, %zu service name%s, %zu registration%s",
           (unsigned long)floor->ranks, plural(floor->ranks), tree_depth(floor), names,
           plural(names), floor->services, plural(floor->services));
}

uint32_t find_identity(const struct floor *floor, const uint8_t *route)
{
    for (uint32_t rank = 0; rank < floor->ranks; rank++) {
        if (memcmp(floor->identity_table + (size_t)rank * LAMPREYCOIL_ROUTE_SIZE, route,
                   LAMPREYCOIL_ROUTE_SIZE) == 0)
            return rank;
    }
    return LAMPREYCOIL_NO_PARENT;
}

static int digits(uint32_t number)
{
    return number < 10 ? 1 : 1 + digits(number / 10);
}

static int tree_width(const struct floor *floor)
{
    int width = (int)strlen("rank");

    for (uint32_t rank = 0; rank < floor->ranks; rank++) {
        int needed = INDENT * floor->depth[rank] + digits(rank);
        width = needed > width ? needed : width;
    }
    return width;
}

/* The next child of a rank from `from` on; the number of ranks where there is none. */
static uint32_t next_child(const struct floor *floor, uint32_t rank, uint32_t from)
{
    while (from < floor->ranks && (from == 0 || floor->rank[from].parent != rank))
        from++;
    return from;
}

void draw_words(struct drawing *drawing, const char *format, ...)
{
    va_list values;

    va_start(values, format);
    drawing->column += vprintf(format, values);
    va_end(values);
}

/* The columns that a name takes, as print_plain shows it. */
static int shown_width(const char *name)
{
    int width = 0;

    for (; *name != '\0'; name++)
        width += printable((uint8_t)*name) ? 1 : (int)strlen("\\xNN");
    return width;
}

/* A name that would pass the last column goes to a line below, where the first one began. */
void draw_services(struct drawing *drawing, uint32_t rank)
{
    const struct floor *floor = drawing->floor;
    int start = drawing->column;

    for (size_t i = 0; i < floor->services; i++) {
        const char *name = floor->service[i].name;
        int width = shown_width(name);

        if (floor->service[i].rank != rank)
            continue;
        if (drawing->column > start && drawing->column + 1 + width > COLUMNS) {
            int used = printf("\n%s", drawing->below) - 1;
            drawing->column = used + printf("%*s", start - used, "");
        } else if (drawing->column > start) {
            draw_words(drawing, " ");
        }
        print_plain(stdout, name);
        drawing->column += width;
    }
}

static void draw_rank(struct drawing *drawing, uint32_t rank, const char *link)
{
    const struct floor *floor = drawing->floor;
    size_t length = strlen(drawing->prefix);
    uint32_t child = next_child(floor, rank, 0);

    drawing->column = 0;
    draw_words(drawing, "%s%s%lu", drawing->prefix, link, (unsigned long)rank);
    draw_words(drawing, "%*s", drawing->width - drawing->column + 2, "");
    if (rank != 0)
        strcat(drawing->prefix, *link == '`' ? "   " : "|  ");
    strcpy(drawing->below, drawing->prefix);
    strcat(drawing->below, child < floor->ranks ? "|" : "");
    drawing->note(drawing, floor, rank, drawing->more);
    putchar('\n');
    while (child < floor->ranks) {
        uint32_t after = next_child(floor, rank, child + 1);

        draw_rank(drawing, child, after < floor->ranks ? "+- " : "`- ");
        child = after;
    }
    drawing->prefix[length] = '\0';
}

void draw_tree(const struct floor *floor, const char *head, rank_note note, const void *more)
{
    struct drawing drawing = {
        .floor = floor, .width = tree_width(floor), .note = note, .more = more};

    printf("%-*s  %s\n", drawing.width, "rank", head);
    draw_rank(&drawing, 0, "");
}

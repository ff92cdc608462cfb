#include "floor_dot.h"

#include <stdio.h>
#include <string.h>

#include "files.h"
#include "quoted.h"

/* How wide the services are in a broker's box. */
enum { BOX_COLUMNS = 40 };

/*
 * Text within a string of Graphviz, in ASCII. A backslash would begin one of its escapes and an
 * ampersand one of its entities. Returns how many columns it takes.
 */
static int put_text(const char *text)
{
    int columns = 0;

    for (; *text != '\0'; text++, columns++) {
        uint8_t byte = (uint8_t)*text;

        if (!printable(byte))
            columns += printf("\\\\x%02X", byte) - 2;
        else if (byte == '"' || byte == '\\')
            printf("\\%c", byte);
        else if (byte == '&')
            fputs("&amp;", stdout);
        else
            putchar(byte);
    }
    return columns;
}

/* The names of a rank's services, on lines of their own. */
static void put_services(const struct floor *floor, uint32_t rank)
{
    int column = BOX_COLUMNS;

    for (size_t i = 0; i < floor->services; i++) {
        int width = (int)strlen(floor->service[i].name);

        if (floor->service[i].rank != rank)
            continue;
        if (column + 1 + width > BOX_COLUMNS) {
            fputs("\\n", stdout);
            column = 0;
        } else {
            putchar(' ');
        }
        column += 1 + put_text(floor->service[i].name);
    }
}

/* How an end looks: never by its colour alone. */
struct look {
    const char *shape;
    const char *fill;
};

static struct look end_look(int status)
{
    static const struct look looks[] = {[EXIT_DONE] = {"doubleoctagon", "palegreen"},
                                        [EXIT_REFUSED] = {"diamond", "tomato"},
                                        [EXIT_TROUBLE] = {"diamond", "khaki"},
                                        [EXIT_DIFFERS] = {"diamond", "tomato"},
                                        [EXIT_NO] = {"octagon", "tomato"},
                                        [EXIT_SILENCED] = {"note", "lightgrey"}};

    return looks[status];
}

/* The numbers of the steps that a broker made. Returns how many. */
static int put_visits(const struct play *play, const char *word, uint32_t rank)
{
    int here = 0;

    for (uint32_t i = 0; play != NULL && i < brokers_visited(play); i++) {
        if (play->steps[i].rank == rank)
            printf("%s%lu", here++ == 0 ? word : ", ", (unsigned long)i + 1);
    }
    return here;
}

static int ends_at(const struct play *play, uint32_t rank)
{
    return play != NULL && last_step(play)->rank == rank;
}

/* How the ways ended that ended here, and last how the whole did where that is more. */
static void put_ends(const struct graph *graph, const struct play *last, uint32_t rank)
{
    if (ends_at(graph->there, rank))
        printf("\\n%s", play_answer(graph->there));
    if (ends_at(graph->back, rank))
        printf("\\n%s", play_answer(graph->back));
    if (ends_at(last, rank) && strcmp(graph->answer, play_answer(last)) != 0)
        printf("\\n%s", graph->answer);
}

static void put_broker(const struct graph *graph, uint32_t rank)
{
    const struct play *last = graph->back == NULL ? graph->there : graph->back;
    int visits;

    printf("  %lu [label=\"rank %lu", (unsigned long)rank, (unsigned long)rank);
    put_services(graph->floor, rank);
    visits = put_visits(graph->there, "\\nstep ", rank) + put_visits(graph->back, "\\nback ", rank);
    put_ends(graph, last, rank);
    putchar('"');
    if (ends_at(last, rank) || ends_at(graph->there, rank)) {
        struct look look = end_look(ends_at(last, rank) ? graph->status : graph->there->status);

        printf(", shape=%s, style=filled, fillcolor=%s", look.shape, look.fill);
    } else if (visits > 0) {
        printf(", style=\"filled,bold\", fillcolor=lightblue");
    }
    puts("];");
}

static void put_way(const struct play *play, const char *word, const char *look)
{
    for (uint32_t i = 0; play != NULL && i + 1 < brokers_visited(play); i++)
        printf("  %lu -> %lu [label=\"%s%lu\", constraint=false, %s];\n",
               (unsigned long)play->steps[i].rank, (unsigned long)play->steps[i + 1].rank, word,
               (unsigned long)i + 1, look);
}

void draw_graph(const struct graph *graph)
{
    const struct floor *floor = graph->floor;

    printf("digraph floor {\n  graph [labelloc=t, label=\"");
    put_text(graph->title);
    printf("\"];\n  node [shape=box];\n");
    for (uint32_t rank = 0; rank < floor->ranks; rank++)
        put_broker(graph, rank);
    for (uint32_t rank = 1; rank < floor->ranks; rank++)
        printf("  %lu -> %lu [dir=none];\n", (unsigned long)floor->rank[rank].parent,
               (unsigned long)rank);
    put_way(graph->there, "", "color=blue, penwidth=2");
    put_way(graph->back, "back ", "color=purple, penwidth=2, style=dashed");
    puts("}");
}

#include <stdio.h>

#include "files.h"
#include "floor_asked.h"
#include "floor_commands.h"
#include "floor_dot.h"
#include "floor_json.h"
#include "floor_result.h"
#include "floor_text.h"

static void tell_walk(const struct asked *asked, const struct play *play)
{
    struct line line = {.length = 0};

    add_result(&line, play);
    if (asked->form.json) {
        json_walk(asked, play);
    } else if (asked->form.graph) {
        draw_graph(&(struct graph){.floor = play->floor,
                                   .there = play,
                                   .status = play->status,
                                   .answer = play_answer(play),
                                   .title = line.text});
    } else if (!asked->form.quiet) {
        printf("%s\n\n", line.text);
        tell_play(play);
        tell_tree(&asked->form, play, NULL);
    }
}

/* The file is written before anything is told: what is told of the status then holds. */
static int walk_asked(struct asked *asked, int count, char **words)
{
    static struct play play;
    int status = read_asked(asked, count, words, &play);

    if (status != 0)
        return status;
    play_message(&play);
    if (at_rest(&play) && (status = write_rest(asked, &play)) != 0)
        return status;
    tell_walk(asked, &play);
    return flush_output() == 0 ? play.status : EXIT_TROUBLE;
}

int command_walk(int count, char **words)
{
    static struct asked asked = {.command = "walk",
                                 .entry = "--enter",
                                 .type = LAMPREYCOIL_REQUEST,
                                 .any_type = 1,
                                 .form = {.has_graph = 1, .has_tree = 1}};

    return walk_asked(&asked, count, words);
}

int command_home(int count, char **words)
{
    static struct asked asked = {.command = "home",
                                 .entry = "--from",
                                 .type = LAMPREYCOIL_RESPONSE,
                                 .form = {.has_graph = 1, .has_tree = 1}};

    return walk_asked(&asked, count, words);
}

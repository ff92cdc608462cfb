#include "floor_commands.h"

#include <stdio.h>

#include "files.h"
#include "floor_dot.h"
#include "floor_form.h"
#include "floor_json.h"
#include "floor_show.h"
#include "names.h"
#include "program.h"
#include "quoted.h"
#include "write_options.h"

static struct floor floor_read_in;

/* The one file of a command, to *name, and the form. Returns 0, or as other_option. */
static int one_floor(const char *command, int count, char **words, struct form *form,
                     const char **name)
{
    struct words reading = {.words = words, .count = count};
    enum word_kind kind;
    int status = 0;

    *name = NULL;
    while (status == 0 && (kind = next_word(&reading)) != WORD_NONE) {
        if (kind == WORD_OPTION)
            status = take_form(form, &reading);
        else if (*name != NULL)
            return trouble("%s takes one floor, and '%s' is one more", command, reading.word);
        else
            *name = reading.word;
        if (status == NO_SUCH_OPTION)
            return other_option(&reading, command);
    }
    if (status == 0)
        status = check_form(form);
    if (status == 0 && *name == NULL)
        return trouble("%s needs the file of a floor (see %s --help)", command, program);
    return status;
}

/* The verdict, then the mistakes and the warnings. */
static void tell_check(const struct floor *floor, int status)
{
    if (status == 0) {
        print_plain(stdout, floor->file);
        printf(": a valid floor: ");
        print_size(floor);
        if (floor->warnings.count > 0)
            printf(", %zu warning%s", floor->warnings.count, plural(floor->warnings.count));
        putchar('\n');
    } else {
        tell_not_valid(stdout, floor, status);
        tell_remarks(stdout, floor, &floor->mistakes, "");
    }
    tell_remarks(stdout, floor, &floor->warnings, "warning: ");
}

int command_check(int count, char **words)
{
    struct floor *floor = &floor_read_in;
    struct form form = {.has_graph = 0};
    const char *name;
    int status = one_floor("check", count, words, &form, &name);

    if (status == 0)
        status = load_floor(floor, name);
    if (status == EXIT_TROUBLE || status == EXIT_SHOWN)
        return status;
    if (form.json)
        json_floor("check", floor, status, 0);
    else if (!form.quiet)
        tell_check(floor, status);
    else if (status == EXIT_DIFFERS)
        tell_found(floor, status);
    return flush_output() == 0 ? status : EXIT_TROUBLE;
}

static void note_all(struct drawing *drawing, const struct floor *floor, uint32_t rank,
                     const void *more)
{
    (void)more;
    draw_words(drawing, "%s", floor->rank[rank].identity);
    if (has_services(floor, rank))
        draw_words(drawing, "  ");
    draw_services(drawing, rank);
}

static void show_text(const struct floor *floor)
{
    print_plain(stdout, floor->file);
    printf(": ");
    print_size(floor);
    printf("\n\n");
    draw_tree(floor, "identity                              services", note_all, NULL);
}

int command_show(int count, char **words)
{
    struct floor *floor = &floor_read_in;
    struct form form = {.has_graph = 1};
    const char *name;
    int status = one_floor("show", count, words, &form, &name);

    if (status == 0)
        status = load_floor(floor, name);
    if (status == EXIT_TROUBLE || status == EXIT_SHOWN)
        return status;
    if (!form.json && (!form.quiet || status == EXIT_DIFFERS))
        tell_found(floor, status);
    if (form.json)
        json_floor("show", floor, status, 1);
    else if (form.graph && status == 0)
        draw_graph(&(struct graph){.floor = floor, .title = floor->file});
    else if (!form.quiet && status == 0)
        show_text(floor);
    return flush_output() == 0 ? status : EXIT_TROUBLE;
}

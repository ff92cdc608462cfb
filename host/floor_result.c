#include "floor_result.h"

#include <stdarg.h>

#include "files.h"
#include "names.h"

void add_words(struct line *line, const char *format, ...)
{
    va_list values;

    va_start(values, format);
    int added =
        vsnprintf(line->text + line->length, sizeof line->text - line->length, format, values);
    va_end(values);
    if (added > 0)
        line->length += (size_t)added;
    if (line->length >= sizeof line->text)
        line->length = sizeof line->text - 1;
}

const char *error_name(uint32_t error)
{
    const struct error_name *name = error_by_number(error);

    return name == NULL ? NULL : name->name;
}

void add_error(struct line *line, uint32_t error)
{
    const char *name = error_name(error);

    add_words(line, "%lu%s%s", (unsigned long)error, name == NULL ? "" : " ",
              name == NULL ? "" : name);
}

void add_path(struct line *line, const struct play *play, uint32_t from)
{
    for (uint32_t i = from; i < brokers_visited(play); i++)
        add_words(line, "%s%lu", i == 0 ? "" : " > ", (unsigned long)play->steps[i].rank);
}

void add_result(struct line *line, const struct play *play)
{
    uint32_t error = last_number(play, LAMPREYCOIL_STEP_ERROR);
    uint32_t refusal = last_step(play)->refusal;

    add_words(line, "%s", play_answer(play));
    if (play->status == EXIT_REFUSED)
        add_words(line, " %lu", (unsigned long)refusal);
    if (at_rest(play) && error != 0) {
        add_words(line, " ");
        add_error(line, error);
    }
    add_words(line, " at rank %lu", (unsigned long)last_step(play)->rank);
    if (at_rest(play) && last_number(play, LAMPREYCOIL_STEP_ANSWER) == LAMPREYCOIL_HOME) {
        add_words(line, " with errnum ");
        add_error(line, play->rest.first);
    }
    add_words(line, ", links %lu: ", (unsigned long)play->links);
    add_path(line, play, 0);
    if (play->status == EXIT_REFUSED)
        add_words(line, "%s%s", brokers_visited(play) == 0 ? "" : ": ",
                  lampreycoil_refusal_words(refusal));
    if (play->status == EXIT_DIFFERS)
        add_words(line, ": the steps and the walk call are not the same; please report it");
}

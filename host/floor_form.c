#include "floor_form.h"

#include <stddef.h>

#include "files.h"
#include "words.h"
#include "write_options.h"

int take_form(struct form *form, const struct words *words)
{
    if (word_is(words, "--json"))
        return word_flag(words, &form->json);
    if (word_is(words, "--quiet"))
        return word_flag(words, &form->quiet);
    if (form->has_graph && word_is(words, "--dot"))
        return word_flag(words, &form->graph);
    if (form->has_tree && word_is(words, "--tree"))
        return word_flag(words, &form->tree);
    return NO_SUCH_OPTION;
}

int check_form(const struct form *form)
{
    const struct {
        const char *name;
        int given;
    } forms[] = {{"--json", form->json},
                 {"--quiet", form->quiet},
                 {"--dot", form->graph},
                 {"--tree", form->tree}};
    const char *first = NULL;

    for (size_t i = 0; i < sizeof forms / sizeof forms[0]; i++) {
        if (forms[i].given && first != NULL)
            return trouble("%s and %s are two forms of the result: give one", first, forms[i].name);
        if (forms[i].given)
            first = forms[i].name;
    }
    return 0;
}

/* In which form a command of flux_floor tells what it found. */
#ifndef HOST_FLOOR_FORM_H
#define HOST_FLOOR_FORM_H

struct words;

struct form {
    int has_graph;                /* whether the command has --dot */
    int has_tree;                 /* whether it has --tree */
    int json, quiet, graph, tree; /* --json, --quiet, --dot, --tree */
};

/* Takes the option that `words` has come to. Returns 0, NO_SUCH_OPTION, or has said what is wrong.
 */
int take_form(struct form *form, const struct words *words);

/* Looks at all of them, once they are taken. Returns 0, or has said what is wrong. */
int check_form(const struct form *form);

#endif

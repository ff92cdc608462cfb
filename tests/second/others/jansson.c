/* jansson's parse for the measurement: a whole tree, built and freed again. */
#include <jansson.h>

/* Whether so many bytes are one JSON value and nothing behind it. */
int others_jansson_parse(const char *bytes, size_t len) {
    json_error_t fault;
    json_t *value = json_loadb(bytes, len, 0, &fault);
    if (value == NULL)
        return 0;
    json_decref(value);
    return 1;
}

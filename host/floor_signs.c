/* Names of services that look like two: services are parted by spaces, and by nothing else. */
#include <string.h>

#include "floor.h"

/* What parts names, or stands around lists of them, in other files; and what looks like a space. */
static const struct sign {
    const char *bytes;
    const char *name;
} signs[] = {
    {",", "a comma"},
    {";", "a semicolon"},
    {":", "a colon"},
    {"|", "a bar"},
    {"/", "a slash"},
    {"\\", "a backslash"},
    {"&", "an ampersand"},
    {"+", "a plus sign"},
    {"=", "an equals sign"},
    {"#", "a # that begins no comment"},
    {"\"", "a quote"},
    {"'", "a quote"},
    {"`", "a quote"},
    {"(", "a bracket"},
    {")", "a bracket"},
    {"[", "a bracket"},
    {"]", "a bracket"},
    {"{", "a bracket"},
    {"}", "a bracket"},
    {"<", "a bracket"},
    {">", "a bracket"},
    {"\xC2\xA0", "a no-break space"},
    {"\xE2\x80\x8B", "a space of no width"},
    {"\xE2\x80\xAF", "a narrow no-break space"},
    {"\xE3\x80\x80", "a wide space"},
    {"\xE3\x80\x81", "a wide comma"},
    {"\xEF\xBC\x8C", "a wide comma"},
    {"\xEF\xBC\x9B", "a wide semicolon"},
};

/* The sign that comes first in the name, or NULL. */
static const struct sign *first_sign(const char *name)
{
    const struct sign *first = NULL;
    const char *place = NULL;

    for (size_t i = 0; i < sizeof signs / sizeof signs[0]; i++) {
        const char *at = strstr(name, signs[i].bytes);

        if (at == NULL || (place != NULL && at > place))
            continue;
        first = &signs[i];
        place = at;
    }
    return first;
}

void warn_of_signs(struct floor *floor)
{
    char word[WORD_ROOM];

    for (size_t i = 0; i < floor->services; i++) {
        const struct floor_service *service = &floor->service[i];
        const struct sign *sign = first_sign(service->name);

        if (sign != NULL)
            warn(floor, service->line,
                 "the service %s is one name, with %s in it: only spaces part services",
                 told_word(service->name, word), sign->name);
    }
}

#include "one_line.h"

#include "lampreycoil.h"
#include "names.h"
#include "put.h"
#include "quoted.h"

/* The flags that no part stands for. */
enum {
    MARKS =
        LAMPREYCOIL_NORESPONSE | LAMPREYCOIL_UPSTREAM | LAMPREYCOIL_PRIVATE | LAMPREYCOIL_STREAMING
};

static void put_field(const char *name, uint32_t number)
{
    put_text(name);
    put_byte(' ');
    put_number(number);
}

void put_topic_and_fields(const uint8_t *topic, size_t topic_length, uint32_t type, uint32_t first,
                          uint32_t second)
{
    const struct type_names *names = type_by_number(type);
    const struct error_name *error = error_by_number(first);

    if (topic != NULL) {
        put_quoted(topic, topic_length);
        put_text(", ");
    }
    if (type == LAMPREYCOIL_REQUEST && first == LAMPREYCOIL_NODEID_ANY) {
        put_text(names->first);
        put_text(" any");
    } else {
        put_field(names->first, first);
    }
    if (type == LAMPREYCOIL_RESPONSE && error != NULL) {
        put_byte(' ');
        put_text(error->name);
    }
    /* An event's second field is always zero. */
    if (type != LAMPREYCOIL_EVENT) {
        put_text(", ");
        put_field(names->second, second);
    }
}

void put_marks(uint32_t flags)
{
    for (size_t i = 0; i < FLAG_NAMES; i++) {
        if ((flags & MARKS & flag_names[i].bit) != 0) {
            put_text(", ");
            put_text(flag_names[i].name);
        }
    }
}

void print_topic_and_fields(const uint8_t *topic, size_t topic_length, uint32_t type,
                            uint32_t first, uint32_t second)
{
    put_topic_and_fields(topic, topic_length, type, first, second);
    put_out();
}

void print_marks(uint32_t flags)
{
    put_marks(flags);
    put_out();
}

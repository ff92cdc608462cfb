#include "floor_put.h"

#include "json.h"

void put_named_number(const char *name, unsigned long long number)
{
    json_name(name);
    json_number(number);
}

void put_number_or_null(const char *name, int there, unsigned long long number)
{
    json_name(name);
    if (there)
        json_number(number);
    else
        json_null();
}

void put_text_or_null(const char *name, const char *text)
{
    json_name(name);
    if (text == NULL)
        json_null();
    else
        json_text(text);
}

void put_remarks(const char *name, const char *count_name, const struct floor *floor,
                 const struct remarks *remarks)
{
    put_named_number(count_name, remarks->count);
    json_name(name);
    json_open('[');
    for (size_t i = 0; i < remarks->count && i < REMARKS_TOLD; i++) {
        const struct remark *remark = &remarks->kept[i];

        json_open('{');
        json_name("file");
        json_text(floor->file);
        put_number_or_null("line", remark->line != 0, (unsigned)remark->line);
        put_number_or_null("refusal", remark->refusal != LAMPREYCOIL_OK, remark->refusal);
        json_name("words");
        json_words(remark->words);
        json_close('}');
    }
    json_close(']');
}

void open_object(const char *command, int status, const char *file)
{
    json_open('{');
    json_name("command");
    json_text(command);
    put_named_number("status", (unsigned)status);
    json_name("floor");
    json_text(file);
}

/* What is said of a floor's lines: kept until all are known, then told with file and line. */
#include <stdarg.h>
#include <string.h>

#include "files.h"
#include "floor.h"
#include "names.h"
#include "program.h"
#include "quoted.h"

/* The longest word that is told as it is; of a longer one its front. */
enum { WORD_TOLD = 60 };

const char *told_word(const char *word, char *room)
{
    size_t length = strlen(word), told = length <= WORD_TOLD ? length : WORD_TOLD;
    char *at = room;

    *at++ = '\'';
    for (size_t i = 0; i < told; i++) {
        uint8_t byte = (uint8_t)word[i];

        if (printable(byte))
            *at++ = (char)byte;
        else
            at += sprintf(at, "\\x%02X", byte);
    }
    if (told == length)
        strcpy(at, "'");
    else
        sprintf(at, "...' (%zu bytes)", length);
    return room;
}

/* The place of a new remark in the order of the lines, behind those of its own line. */
static struct remark *place_for(struct remarks *remarks, int line)
{
    size_t kept = remarks->count < REMARKS_TOLD ? remarks->count : REMARKS_TOLD, at = kept;

    remarks->count++;
    while (at > 0 && remarks->kept[at - 1].line > line)
        at--;
    if (at == REMARKS_TOLD)
        return NULL;
    if (kept == REMARKS_TOLD)
        kept--;
    memmove(&remarks->kept[at + 1], &remarks->kept[at], (kept - at) * sizeof remarks->kept[0]);
    return &remarks->kept[at];
}

static void add_remark(struct remarks *remarks, int line, uint32_t refusal, const char *format,
                       va_list values)
{
    struct remark *remark = place_for(remarks, line);

    if (remark == NULL)
        return;
    remark->line = line;
    remark->refusal = refusal;
    vsnprintf(remark->words, sizeof remark->words, format, values);
}

void broken(struct floor *floor, int line, uint32_t refusal, const char *format, ...)
{
    va_list values;

    va_start(values, format);
    add_remark(&floor->mistakes, line, refusal, format, values);
    va_end(values);
}

void warn(struct floor *floor, int line, const char *format, ...)
{
    va_list values;

    va_start(values, format);
    add_remark(&floor->warnings, line, LAMPREYCOIL_OK, format, values);
    va_end(values);
}

void tell_remarks(FILE *stream, const struct floor *floor, const struct remarks *remarks,
                  const char *mark)
{
    for (size_t i = 0; i < remarks->count && i < REMARKS_TOLD; i++) {
        const struct remark *remark = &remarks->kept[i];

        print_plain(stream, floor->file);
        if (remark->line != 0)
            fprintf(stream, ":%d", remark->line);
        fprintf(stream, ": %s", mark);
        if (remark->refusal != LAMPREYCOIL_OK)
            fprintf(stream, "refused, %lu: ", (unsigned long)remark->refusal);
        print_plain(stream, remark->words);
        putc('\n', stream);
    }
    if (remarks->count > REMARKS_TOLD)
        fprintf(stream, "and %zu more%s\n", remarks->count - REMARKS_TOLD,
                *mark == '\0' ? "" : " warnings");
}

void tell_not_valid(FILE *stream, const struct floor *floor, int status)
{
    print_plain(stream, floor->file);
    if (status == EXIT_DIFFERS)
        fprintf(stream, ": nobody can say whether the floor is valid: please report it\n");
    else
        fprintf(stream, ": not a valid floor: %zu mistake%s\n", floor->mistakes.count,
                plural(floor->mistakes.count));
}

void tell_found(const struct floor *floor, int status)
{
    if (status != 0) {
        fprintf(stderr, "%s: ", program);
        tell_not_valid(stderr, floor, status);
        tell_remarks(stderr, floor, &floor->mistakes, "");
    }
    tell_remarks(stderr, floor, &floor->warnings, "warning: ");
}

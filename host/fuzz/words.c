/* Arguments: the bytes up to each zero are a word for the program that this is linked with. */
#include <string.h>

#include "../program.h"
#include "run.h"

enum { BYTES_MOST = 4096, WORDS_MOST = 100 };

/* What it reads, where the words name standard input: a frame, or a floor. */
static const uint8_t frame[] =
    "\xFF\xEE\x00\x12\x00\x00\x00\x1D\x00\x04log\x00\x01x\x14\x8E\x01\x01\x0B\xFF\xFF\xFF\xFF\x00"
    "\x00\x00\x00\xFF\xFF\xFF\xFF\x00\x00\x00\x01";
static const uint8_t floor_text[] = "0 none 00000000-0123-4567-89ab-cdef01234567 log\n"
                                    "1 0 00000001-0123-4567-89ab-cdef01234567 bench\n"
                                    "2 0 00000002-0123-4567-89ab-cdef01234567\n";

/* A program that follows a file waits for it to grow: the input here does not. */
static int waits(const char *const *words)
{
    for (; *words != NULL; words++) {
        if (strcmp(*words, "--follow") == 0)
            return 1;
    }
    return 0;
}

/* A word without a slash names no file outside the folder that the program is in. */
int LLVMFuzzerTestOneInput(const uint8_t *bytes, size_t length)
{
    static char text[BYTES_MOST + 1];
    const char *words[WORDS_MOST + 1];
    size_t count = 0;

    if (length > BYTES_MOST)
        return 0;
    for (size_t i = 0; i < length; i++)
        text[i] = bytes[i] == '/' ? '_' : (char)bytes[i];
    text[length] = '\0';
    for (size_t at = 0; at < length && count < WORDS_MOST; at += strlen(text + at) + 1)
        words[count++] = text + at;
    words[count] = NULL;
    if (waits(words))
        return 0;
    if (strcmp(program, "flux_frame") == 0)
        run_program(words, frame, sizeof frame - 1);
    else
        run_program(words, floor_text, sizeof floor_text - 1);
    return 0;
}

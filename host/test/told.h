/*
 * What the tests of a call share that writes a record: the bytes behind it, which have to stay, and
 * the line that a test writes.
 */
#include <stdio.h>
#include <string.h>

#include "lampreycoil.h"

enum { FILL = 0xA5, TAIL = 4 };

static void report(int good, const char *label)
{
    printf("%s: %s\n", good ? "passed" : "FAILED", label);
}

static int filled(const uint8_t *at, size_t count)
{
    for (size_t i = 0; i < count; i++) {
        if (at[i] != FILL)
            return 0;
    }
    return 1;
}

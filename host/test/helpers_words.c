/*
 * Tests the inline functions of the header for numbers, the answers of the JSON check, words and
 * the version; helpers.c has those for messages. It is C and C++ alike, and compiled as both.
 * Prints a line for each test, "passed" or "FAILED".
 */
#include <stdio.h>
#include <string.h>

#include "lampreycoil.h"

enum { FILL = 0xA5 };

static void report(int good, const char *label)
{
    printf("%s: %s\n", good ? "passed" : "FAILED", label);
}

/* ---- numbers */

static void take_numbers(void)
{
    static const uint8_t want[] = {FILL, FILL, FILL, FILL, 0x01, 0x80, 0xFE, 0xFF, FILL};
    uint8_t row[sizeof want];

    memset(row, FILL, sizeof row);
    lampreycoil_put_number(row, 1, 0x0180FEFF);
    report(memcmp(row, want, sizeof want) == 0, "a number is put, big endian");
    report(lampreycoil_number(row, 1) == 0x0180FEFF, "a number that was put is read");
    lampreycoil_put_number(row, 0, LAMPREYCOIL_NO_PARENT);
    report(lampreycoil_number(row, 0) == 4294967295u, "the largest number");
}

/* ---- JSON: a yes, and all that could be taken for one */

static int told(uint32_t returned, uint32_t answer, uint32_t byte)
{
    uint8_t row[1 + LAMPREYCOIL_JSON_RECORD];

    memset(row, FILL, sizeof row);
    lampreycoil_put_number(row + 1, LAMPREYCOIL_JSON_ANSWER, answer);
    lampreycoil_put_number(row + 1, LAMPREYCOIL_JSON_BYTE, byte);
    return lampreycoil_json_byte(row + 1) == byte ? lampreycoil_is_json(returned, row + 1) : -1;
}

static void take_json(void)
{
    static const uint8_t none[1] = {0};
    const uint32_t ok = LAMPREYCOIL_OK, yes = LAMPREYCOIL_JSON_YES;
    uint32_t i;
    int good = 1;

    report(told(ok, yes, 0) == 1, "a yes");
    report(told(ok, 0, 0) == 0, "a record of zeros is no yes");
    report(told(ok, LAMPREYCOIL_JSON_NO, 0) == 0 && told(ok, LAMPREYCOIL_JSON_NO, 7) == 0,
           "a no is no yes");
    report(told(LAMPREYCOIL_JSON_DEEP, 0, 36) == 0, "too deep is no yes");
    for (i = 1; i < 300; i++)
        good = good && told(i, yes, 0) == 0;
    report(good && told(0xFFFFFFFF, yes, 0) == 0 && told(0x100, yes, 0) == 0,
           "no refusal is a yes, whatever is in the record");
    for (i = 2; i < 300; i++)
        good = good && told(ok, i, 0) == 0 && told(ok, yes, i) == 0;
    report(good && told(ok, 0x01000000, 0) == 0 && told(ok, 0x00000101, 0) == 0 &&
               told(ok, yes, 0x01000000) == 0,
           "no other numbers are a yes");
    report(lampreycoil_is_json(LAMPREYCOIL_OUTPUT_SHORT, none + sizeof none) == 0,
           "after a refusal the record is not looked at");
}

/* ---- words */

static int in_words(const char *(*words)(uint32_t), uint32_t first, uint32_t last)
{
    const char *none = words(4294967295u);
    uint32_t i, j;

    for (i = first; i <= last; i++) {
        if (i == 13 || i == 24 || i == 25) /* no refusal has these numbers */
            continue;
        for (j = first; j < i; j++) {
            if (strcmp(words(i), words(j)) == 0)
                return 0;
        }
        if (strcmp(words(i), none) == 0 || strlen(words(i)) == 0)
            return 0;
    }
    return 1;
}

static void take_words(void)
{
    const char *none = lampreycoil_refusal_words(24);

    report(in_words(lampreycoil_refusal_words, 0, 26), "each refusal has words of its own");
    report(strcmp(lampreycoil_refusal_words(13), none) == 0, "13 is no refusal");
    report(in_words(lampreycoil_refusal_words, 30, 37), "each refusal of a command too");
    report(strcmp(lampreycoil_refusal_words(38), none) == 0, "38 is no refusal");
    report(strcmp(lampreycoil_refusal_words(2), "first four bytes wrong") == 0, "refusal 2");
    report(in_words(lampreycoil_answer_words, 1, 5), "each answer has words of its own");
    report(strcmp(lampreycoil_answer_words(5), "home") == 0, "answer 5");
    report(in_words(lampreycoil_error_words, 0, 0) && in_words(lampreycoil_error_words, 38, 38) &&
               in_words(lampreycoil_error_words, 113, 113),
           "each error has words");
    report(strcmp(lampreycoil_error_words(38), lampreycoil_error_words(113)) != 0,
           "and words of its own");
}

/* The version is said as text and as a number, which must not drift apart. */
static void take_version(void)
{
    unsigned major = 0, minor = 0, patch = 0;

    report(strcmp(lampreycoil_version(), LAMPREYCOIL_VERSION) == 0, "the version");
    report(sscanf(LAMPREYCOIL_VERSION, "%u.%u.%u", &major, &minor, &patch) == 3 &&
               10000 * major + 100 * minor + patch == LAMPREYCOIL_VERSION_NUMBER,
           "the version as a number");
}

int main(void)
{
    take_numbers();
    take_json();
    take_words();
    take_version();
    return 0;
}

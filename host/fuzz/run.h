/*
 * Runs a host program for a fuzzer, again and again in one process. A program counts on being
 * fresh: before each run all that it keeps is set back to what it is at the start. It can write no
 * file.
 */
#ifndef FUZZ_RUN_H
#define FUZZ_RUN_H

#include <stddef.h>
#include <stdint.h>

/* What each harness is: libFuzzer calls it with one input after another, and driver.c does too. */
int LLVMFuzzerTestOneInput(const uint8_t *bytes, size_t length);

/* The words of a command, with which its input is standard input; the last one is NULL. */
enum { MODE_WORDS = 8 };
typedef const char *mode[MODE_WORDS];

/*
 * Runs main of the program that is linked, with these words behind its name and these bytes on
 * standard input. Aborts where it ends with a status that is not in its table.
 */
void run_program(const char *const *words, const uint8_t *input, size_t length);

/* The same with the words of the mode that the first byte picks; the others are the input. */
void run_mode(const mode *modes, size_t count, const uint8_t *bytes, size_t length);

#endif

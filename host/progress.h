/* How far a long input has been read, in one line on standard error, where that is a terminal. */
#ifndef HOST_PROGRESS_H
#define HOST_PROGRESS_H

#include <stdio.h>

/* Readies it for this input. It is told only of a regular file above PROGRESS_MIN bytes. */
enum { PROGRESS_MIN = 67108864 };
void start_progress(FILE *stream);

/* So many bytes have been read. The line is written again twice a second. */
void tell_progress(unsigned long long bytes);

/* Takes the line away, so that something else can be said; it comes again. */
void clear_progress(void);

#endif

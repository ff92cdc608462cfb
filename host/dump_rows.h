/* Bytes in rows, for a person: sixteen in each, and a mark below the one that is meant. */
#ifndef HOST_DUMP_ROWS_H
#define HOST_DUMP_ROWS_H

#include <stddef.h>
#include <stdint.h>

/* Bytes in a row, and columns in front of them. */
enum { ROW = 16, MARGIN = 14 };

/*
 * Puts the row of these bytes that begins at a multiple of ROW, and the mark below it if the place
 * is in it; that may be just behind the last byte. Returns how many bytes were put.
 */
size_t put_row(const uint8_t *bytes, size_t length, size_t at, size_t place);

#endif

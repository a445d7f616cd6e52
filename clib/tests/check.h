/* What the tests of the library share. */
#ifndef CHECK_H
#define CHECK_H

#include <nc_classic.h>

/* Counts a test, and prints it where it fails. */
#define CHECK(holds) count_check((holds), #holds, __FILE__, __LINE__)

void count_check(bool holds, const char *text, const char *file, int line);

/* A file of CDF-1 with two records, written by hand from the format specification:
 *   dimensions: time = UNLIMITED (2 now), x = 4
 *   int v(x)         16 bytes from 132
 *   short r(time, x) 8 bytes a record from 148
 * The header has 132 bytes. */
#define SMALL_LENGTH 132
extern const uint8_t small_header[SMALL_LENGTH];

void check_headers(void);
void check_parts_of_header(void);
void check_making(void);
void check_extents(void);
void check_overlaps(void);
void check_windows(void);
void check_values(void);
void check_memory(void);

#endif

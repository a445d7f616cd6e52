/* Tests of the library by its header file: what no contract says, which is that C and the library agree on how things are passed. */
#include "check.h"

#include <stdio.h>
#include <string.h>

static unsigned passed, failed;

void count_check(bool holds, const char *text, const char *file, int line)
{
    if (holds) {
        passed++;
    } else {
        failed++;
        printf("%s:%d: failed: %s\n", file, line, text);
    }
}

const uint8_t small_header[SMALL_LENGTH] = {
    'C', 'D', 'F', 1, 0, 0, 0, 2, /* two records */
    0, 0, 0, 10, 0, 0, 0, 2, /* two dimensions */
    0, 0, 0, 4, 't', 'i', 'm', 'e', 0, 0, 0, 0,
    0, 0, 0, 1, 'x', 0, 0, 0, 0, 0, 0, 4,
    0, 0, 0, 0, 0, 0, 0, 0, /* no attribute */
    0, 0, 0, 11, 0, 0, 0, 2, /* two variables */
    0, 0, 0, 1, 'v', 0, 0, 0, 0, 0, 0, 1, 0, 0, 0, 1, /* v(x) */
    0, 0, 0, 0, 0, 0, 0, 0, 0, 0, 0, 4, 0, 0, 0, 16, 0, 0, 0, 132,
    0, 0, 0, 1, 'r', 0, 0, 0, 0, 0, 0, 2, 0, 0, 0, 0, 0, 0, 0, 1, /* r(time, x) */
    0, 0, 0, 0, 0, 0, 0, 0, 0, 0, 0, 3, 0, 0, 0, 8, 0, 0, 0, 148,
};

int main(void)
{
    CHECK(strncmp(ncv_version(), "nc_classic ", 11) == 0);
    check_headers();
    check_parts_of_header();
    check_making();
    check_extents();
    check_overlaps();
    check_windows();
    check_values();
    check_memory();
    printf("C tests: %u passed, %u failed\n", passed, failed);
    return failed != 0;
}

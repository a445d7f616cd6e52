/* Rows of the library for C, by the library and by plain loops.

     library header library|plain N FILE      opens a dataset of n variables, and reads its header
     library extents library|plain N FILE     says where a column of n single elements lies

   It prints the nanoseconds that this takes; of extents, of a header and an array that are in memory. */
#include "nc_classic.h"
#include <fcntl.h>
#include <stdio.h>
#include <stdlib.h>
#include <string.h>
#include <time.h>
#include <unistd.h>

enum { MOST = 1 << 20 };                                  /* bytes of a header */
enum { COLUMNS = 8, COLUMN = 3 };                         /* the grid of the column */

static uint8_t head[MOST];
static size_t head_len;

static void need(bool holds, const char *what)
{
    if (!holds) {
        fprintf(stderr, "library: %s\n", what);
        exit(1);
    }
}

static long nanoseconds(void)
{
    struct timespec at;
    clock_gettime(CLOCK_MONOTONIC, &at);
    return at.tv_sec * 1000000000L + at.tv_nsec;
}

static void read_head(const char *path)
{
    int file = open(path, O_RDONLY);
    ssize_t len = file < 0 ? -1 : pread(file, head, sizeof head, 0);
    need(len > 0, "cannot read the dataset");
    head_len = len;
    close(file);
}

static uint32_t word(size_t at)
{
    return (uint32_t)head[at] << 24 | head[at + 1] << 16 | head[at + 2] << 8 | head[at + 3];
}

/* ---- a header */

static uint64_t variables_by_library(void)
{
    ncv_counts counts;
    ncv_fault fault;
    need(ncv_header_check(head, head_len, &counts, &fault) == NCV_OK, "the header is not sound");
    return counts.vars;
}

/* Passes over the variables, of which each has no attribute; the header has one dimension, of a name of one letter. */
static uint64_t variables_by_plain(void)
{
    uint64_t count = word(40), sum = 0;
    size_t at = 44;
    for (uint64_t k = 0; k < count; k++) {
        at += 4 + ((word(at) + 3) & ~3u);
        at += 4 + 4 * word(at);
        sum += word(at + 16);
        at += 20;
    }
    need(sum > 0, "another header");
    return count;
}

static long header(bool by_library, uint64_t n, const char *path)
{
    long start = nanoseconds();
    read_head(path);
    uint64_t variables = by_library ? variables_by_library() : variables_by_plain();
    long took = nanoseconds() - start;
    need(variables == n, "another number of variables");
    return took;
}

/* ---- extents */

static void extents_by_library(ncv_extent *into, uint64_t n)
{
    const uint64_t start[] = {0, COLUMN}, count[] = {n, 1}, stride[] = {1, 1};
    const ncv_region region = {.var = 0, .start = start, .starts = 2, .count = count, .counts = 2, .stride = stride, .strides = 2, .imap = start};
    uint64_t total;
    need(ncv_extents(head, head_len, &region, 0, false, 0, into, n, &total) == NCV_OK && total == n, "the region is refused");
}

static void extents_by_plain(ncv_extent *into, uint64_t n, uint64_t begin)
{
    for (uint64_t k = 0; k < n; k++)
        into[k] = (ncv_extent){.at = begin + 4 * (COLUMNS * k + COLUMN), .len = 4};
}

static long extents(bool by_library, uint64_t n, const char *path)
{
    ncv_var var;
    uint8_t name;
    uint32_t id;
    ncv_extent *into = malloc(n * sizeof *into), *wanted = malloc(n * sizeof *wanted);
    need(into != NULL && wanted != NULL, "no memory");
    read_head(path);
    need(ncv_inq_var(head, head_len, 0, &name, 0, &id, 0, &var) == NCV_OK, "no variable");
    extents_by_plain(wanted, n, var.begin);
    memset(into, 0, n * sizeof *into);
    long start = nanoseconds();
    if (by_library)
        extents_by_library(into, n);
    else
        extents_by_plain(into, n, var.begin);
    long took = nanoseconds() - start;
    need(memcmp(into, wanted, n * sizeof *into) == 0, "other extents");
    free(into);
    free(wanted);
    return took;
}

int main(int count, char **words)
{
    need(count == 5, "library ROW library|plain N FILE");
    bool by_library = strcmp(words[2], "library") == 0;
    long took = (strcmp(words[1], "header") == 0 ? header : extents)(by_library, strtoull(words[3], NULL, 10), words[4]);
    printf("%ld\n", took);
    return 0;
}

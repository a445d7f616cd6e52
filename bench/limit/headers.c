/* The limit of rows whose work is a header: one that grows, and one that is read; and of values that a script or the format gives. */
#include "limit.h"
#include <unistd.h>

enum { MIB = 1 << 18, FILL = -2147483647 };               /* ints of a MiB, and the fill value of an int */

/* ---- a header that grows */

static off_t four_ints(uint32_t count)
{
    new_dataset();
    dimension("x", 4);
    variable("v", -1, INT, 1);
    attributes_of_last(count);
    lay_out(0);
    return begin_of(0);
}

int before_attributes(int file, uint32_t n)
{
    (void)n;
    uint32_t values[4] = {htobe32(1), htobe32(2), htobe32(3), htobe32(4)};
    off_t begin = four_ints(0);
    write_header(file);
    write_at(file, values, sizeof values, begin);
    return 0;
}

/* n attributes, given to the variable of a dataset that is there; its values move behind the longer header. */
int attributes(int file, uint32_t n)
{
    uint32_t values[4];
    off_t old = four_ints(0);
    read_header(file);
    read_at(file, values, sizeof values, old);
    off_t begin = four_ints(n);
    if (header_length() > 1 << 20) {
        say("ncrun: header is too large\n");
        say_all();
        return 4;
    }
    write_at(file, values, sizeof values, begin);
    write_header(file);
    say_alike(0, "");
    return 0;
}

/* ---- a header that is read */

static void define_ints(uint32_t n)
{
    dimension("x", 4);
    for (uint32_t k = 0; k < n; k++)
        variable("v", k, INT, 1);
    lay_out(0);
}

int before_header(int file, uint32_t n)
{
    static const uint32_t values[4];
    define_ints(n);
    write_header(file);
    for (uint32_t k = 0; k < n; k++)
        write_at(file, values, sizeof values, begin_of(k));
    return 0;
}

/* The sum of where the variables begin. */
static uint64_t walk(uint32_t n)
{
    uint64_t sum = 0;
    size_t at = 44;                                       /* behind the dimension, and the tag and count of the variables */
    for (uint32_t k = 0; k < n; k++) {
        at += 4 + ((header_word(at) + 3) & ~3u);          /* a name */
        at += 4 + 4 * header_word(at);                    /* dimensions */
        at += 8 + 8;                                      /* no attributes; type and size */
        sum += header_word(at);
        at += 4;
    }
    return sum;
}

/* A header of n variables, and an element of the first. */
int header(int file, uint32_t n)
{
    uint64_t sum = 0;
    uint32_t first;
    define_ints(n);
    read_header(file);
    for (uint32_t k = 0; k < n; k++)
        sum += begin_of(k);
    need(walk(n) == sum, "another header");
    read_at(file, &first, sizeof first, begin_of(0));
    say_start(1);
    say_rank(0);
    say_call(0, "get_var1_all");
    say(" ");
    say_number(be32toh(first));
    say("\n");
    say_end_of_rank();
    say_dataset();
    return 0;
}

/* ---- fill values */

int fill(int file, uint32_t n)
{
    uint32_t *block = room(MIB, sizeof *block);
    dimension("x", n * MIB);
    variable("v", -1, INT, 1);
    lay_out(0);
    write_header(file);
    for (uint32_t k = 0; k < MIB; k++)
        block[k] = htobe32((uint32_t)FILL);
    for (uint32_t k = 0; k < n; k++)
        write_at(file, block, 4 * MIB, begin_of(0) + 4 * (off_t)k * MIB);
    say_alike(0, "");
    free(block);
    return 0;
}

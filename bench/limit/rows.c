/* The limit of rows of one variable of doubles or floats in rows, of which the ranks write or read rows, columns or single pieces. */
#include "limit.h"

enum { NARROW = 32, WIDE = 1024, DOUBLES = 1 << 17 };     /* doubles of a row: 256 bytes, 8 KiB, 1 MiB */
enum { STEP = 512 };                                      /* of so many doubles of a row of 1 MiB one is read */
enum { PARTS = 1000, PART = 8 };                          /* regions of a call, and floats of one */
enum { COLUMNS = 8, COLUMN = 3 };                         /* the grid of which a column is read */

static void define(const char *name, uint32_t height, uint32_t width, uint32_t type)
{
    dimension("y", height);
    dimension("x", width);
    variable(name, -1, type, 2);
    lay_out(0);
}

/* Writes rows of doubles, each made by the function, in whole windows. */
static void write_rows(int file, uint32_t height, uint32_t width, void (*make)(uint64_t *row, uint32_t y))
{
    uint32_t most = (1 << 20) / (8 * width);
    uint64_t *window = room((size_t)most * width, sizeof *window);
    write_header(file);
    for (uint32_t y = 0; y < height; y += most) {
        uint32_t count = height - y < most ? height - y : most;
        for (uint32_t k = 0; k < count; k++)
            make(window + (size_t)k * width, y + k);
        write_at(file, window, 8 * (size_t)count * width, begin_of(0) + 8 * (off_t)y * width);
    }
    free(window);
}

/* ---- rows that are dealt to the ranks */

static void deal(uint64_t *row, uint32_t y, uint32_t width)
{
    uint64_t first = ((uint64_t)(y % ranks) << 32) + (uint64_t)(y / ranks) * width;
    for (uint32_t x = 0; x < width; x++)
        row[x] = htobe64(first + x);
}

static void deal_narrow(uint64_t *row, uint32_t y)
{
    deal(row, y, NARROW);
}

static void deal_doubles(uint64_t *row, uint32_t y)
{
    deal(row, y, DOUBLES);
}

int cyclic_rows(int file, uint32_t n)
{
    define("v", n, NARROW, DOUBLE);
    write_rows(file, n, NARROW, deal_narrow);
    say_alike(1, "put_vars_all");
    return 0;
}

int before_reads(int file, uint32_t n)
{
    define("field", n, DOUBLES, DOUBLE);
    write_rows(file, n, DOUBLES, deal_doubles);
    return 0;
}

/* An element of each 4 KiB, of rows that are read in whole windows of so many. */
static uint64_t *read_steps(int file, uint32_t n, uint32_t most)
{
    uint64_t *window = room(most, 8 * DOUBLES), *read = room((size_t)n * (DOUBLES / STEP), sizeof *read), *next = read;
    for (uint32_t y = 0; y < n; y += most) {
        uint32_t count = n - y < most ? n - y : most;
        read_at(file, window, 8 * ((size_t)count * DOUBLES - STEP + 1), begin_of(0) + (off_t)y * 8 * DOUBLES);
        for (uint32_t k = 0; k < count * (DOUBLES / STEP); k++)
            *next++ = be64toh(window[(size_t)k * STEP]);
    }
    free(window);
    return read;
}

/* The elements of one rank, and one more. */
static void say_steps(const uint64_t *read, uint32_t n, int rank, uint32_t call, uint64_t first)
{
    say_call(call, "get_vars_all");
    for (uint32_t y = rank; y < n; y += ranks)
        for (uint32_t k = 0; k < DOUBLES / STEP; k++)
            say_bits(read[y * (DOUBLES / STEP) + k], 16);
    say("\n");
    say_call(call + 1, "get_var1_all");
    say_bits(first, 16);
    say("\n");
    say_end_of_rank();
}

static void read_dealt(int file, uint32_t n, uint32_t most, uint32_t puts)
{
    uint64_t *read = read_steps(file, n, most), first;
    read_at(file, &first, sizeof first, begin_of(0));
    say_start(puts + 2);
    for (int rank = 0; rank < ranks; rank++) {
        say_rank(rank);
        say_calls(0, puts, "put_vars_all");
        say_steps(read, n, rank, puts, be64toh(first));
    }
    say_dataset();
    free(read);
}

int aggregators(int file, uint32_t n)
{
    before_reads(file, n);
    read_dealt(file, n, WINDOW / (8 * DOUBLES), 1);
    return 0;
}

static int reads_of(int file, uint32_t n, uint32_t most)
{
    define("field", n, DOUBLES, DOUBLE);
    read_header(file);
    read_dealt(file, n, most, 0);
    return 0;
}

int reads(int file, uint32_t n)
{
    return reads_of(file, n, WINDOW / (8 * DOUBLES));
}

/* The same by windows of 1 MiB. */
int reads_by_mib(int file, uint32_t n)
{
    return reads_of(file, n, 1);
}

/* ---- columns that are dealt */

static void deal_columns(uint64_t *row, uint32_t y)
{
    for (uint32_t x = 0; x < WIDE; x++) {
        uint64_t rank = x % ranks, own = (WIDE - rank + ranks - 1) / ranks;
        row[x] = htobe64((rank << 32) + y * own + x / ranks);
    }
}

/* n elements, neighbours of which are of different ranks. */
int cyclic_columns(int file, uint32_t n)
{
    define("v", n / WIDE, WIDE, DOUBLE);
    write_rows(file, n / WIDE, WIDE, deal_columns);
    say_alike(1, "put_vars_all");
    return 0;
}

/* ---- single pieces */

/* The regions of one call that lie in the rows of a window. */
static void lay_parts(uint32_t *window, uint32_t first, uint32_t count, uint32_t call)
{
    for (uint32_t y = 0; y < count; y++) {
        uint32_t k = (first + y) / ranks, *part = window + (size_t)y * WIDE + (k * 13 + call * 7) % (WIDE / PART) * PART;
        for (uint32_t x = 0; x < PART; x++)
            part[x] = htobe32(0x3F000000 + PARTS * PART * call + PART * k + x);
    }
}

/* n calls, each of which puts a piece of each row. What lies between stays, so each window is read and written. */
int varn(int file, uint32_t n)
{
    const uint32_t height = PARTS * ranks, most = WINDOW / (4 * WIDE);
    uint32_t *window = room(WINDOW, 1);
    define("v", height, WIDE, FLOAT);
    write_header(file);
    lengthen(file, begin_of(0) + 4 * (off_t)height * WIDE);
    for (uint32_t call = 0; call < n; call++)
        for (uint32_t y = 0; y < height; y += most) {
            uint32_t count = height - y < most ? height - y : most;
            off_t at = begin_of(0) + 4 * (off_t)y * WIDE;
            read_at(file, window, 4 * (size_t)count * WIDE, at);
            lay_parts(window, y, count, call);
            write_at(file, window, 4 * (size_t)count * WIDE, at);
        }
    say_alike(n, "put_varn_all");
    free(window);
    return 0;
}

/* ---- a column of single elements */

int before_column(int file, uint32_t n)
{
    uint32_t row[COLUMNS];
    define("v", n, COLUMNS, INT);
    write_header(file);
    for (uint32_t y = 0; y < n; y++) {
        for (uint32_t x = 0; x < COLUMNS; x++)
            row[x] = htobe32(COLUMNS * y + x);
        write_at(file, row, sizeof row, begin_of(0) + (off_t)y * sizeof row);
    }
    return 0;
}

static void read_column(int file, uint32_t n, uint32_t *into)
{
    const uint32_t most = WINDOW / (4 * COLUMNS), some = n < most ? n : most;
    uint32_t *window = room(some, 4 * COLUMNS);
    for (uint32_t from = 0; from < n; from += some) {
        uint32_t count = n - from < some ? n - from : some;
        read_at(file, window, 4 * ((size_t)(count - 1) * COLUMNS + 1), begin_of(0) + 4 * ((off_t)from * COLUMNS + COLUMN));
        for (uint32_t y = 0; y < count; y++)
            *into++ = be32toh(window[(size_t)y * COLUMNS]);
    }
    free(window);
}

int column(int file, uint32_t n)
{
    uint32_t *values = room(n, sizeof *values), first;
    define("v", n, COLUMNS, INT);
    read_header(file);
    read_column(file, n, values);
    read_at(file, &first, sizeof first, begin_of(0));
    say_start(2);
    say_rank(0);
    say_call(0, "get_vara_all");
    for (uint32_t y = 0; y < n; y++) {
        say(" ");
        say_number(values[y]);
    }
    say("\n");
    say_call(1, "get_var1_all");
    say(" ");
    say_number(be32toh(first));
    say("\n");
    say_end_of_rank();
    say_dataset();
    free(values);
    return 0;
}

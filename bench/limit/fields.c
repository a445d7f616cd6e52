/* The limit of rows of two fields over records, which eight ranks of the made run write as bands and read columns of. */
#include "limit.h"

enum { ROWS = 180, COLUMNS = 360, PLACES = ROWS * COLUMNS, MADE_RANKS = 8, COLUMN_STEP = 45 };

static uint32_t temp[PLACES];
static uint16_t precip[PLACES];

static void define(uint32_t records)
{
    dimension("t", 0);
    dimension("y", ROWS);
    dimension("x", COLUMNS);
    variable("temp", -1, FLOAT, 3);
    variable("precip", -1, SHORT, 3);
    lay_out(records);
}

static off_t record_at(uint32_t t)
{
    return begin_of(0) + (off_t)t * (sizeof temp + sizeof precip);
}

static void write_record(int file, uint32_t t)
{
    write_at(file, temp, sizeof temp, record_at(t));
    write_at(file, precip, sizeof precip, record_at(t) + sizeof temp);
}

/* From the first to the last of the columns that are read. */
static void read_record(int file, uint32_t t)
{
    const size_t hull = (ROWS - 1) * COLUMNS + (ranks - 1) * COLUMN_STEP + 1;
    read_at(file, temp, hull * sizeof *temp, record_at(t));
    read_at(file, precip, hull * sizeof *precip, record_at(t) + sizeof temp);
}

/* ---- the made run: record after record, and eight columns of each read back */

static void make_by_seed(uint64_t seed, uint32_t t)
{
    for (uint32_t y = 0; y < ROWS; y++)
        for (uint32_t x = 0; x < COLUMNS; x++) {
            uint64_t warm = seed % (1 << 23) + 64800 * t + 360 * y + x;
            uint64_t wet = seed % 20001 + 101 * t + 3 * y + x;
            temp[y * COLUMNS + x] = htobe32(0x3F800000 + warm % (1 << 23));
            precip[y * COLUMNS + x] = htobe16((int)(wet % 20001) - 10000);
        }
}

static int64_t sum_of_columns(void)
{
    int64_t sum = 0;
    for (uint32_t y = 0; y < ROWS; y++)
        for (uint32_t rank = 0; rank < MADE_RANKS; rank++) {
            uint32_t place = y * COLUMNS + rank * COLUMN_STEP;
            sum += be32toh(temp[place]);
            sum += (int16_t)be16toh(precip[place]);
        }
    return sum;
}

static void say_of(const char *what, int64_t number)
{
    say(what);
    say_number(number);
}

int generate(int file, uint64_t seed, uint32_t n)
{
    int64_t sum = 0;
    define(n);
    write_header(file);
    for (uint32_t t = 0; t < n; t++) {
        make_by_seed(seed, t);
        write_record(file, t);
    }
    for (uint32_t t = 0; t < n; t++) {
        read_record(file, t);
        sum += sum_of_columns();
    }
    say_of("generated ", seed);
    say_of(" ", n);
    say_of("\nranks ", MADE_RANKS);
    say_of("\ncalls ", MADE_RANKS * (3 * n + 4));
    say_of("\ncollectives ", n + 2);
    say_of("\nput ", 2 * PLACES * n);
    say_of("\ngot ", 2 * MADE_RANKS * ROWS * n);
    say_of("\nrefused 0\nsum ", sum);
    say_of("\nrecords ", n);
    say_of("\nfile ", record_at(n));
    say("\n");
    say_all();
    return 0;
}

/* ---- the same calls by a script */

/* The two fields of one record, as the ranks put their bands. */
static void make_record(uint32_t t)
{
    for (int rank = 0; rank < ranks; rank++) {
        uint32_t first = ROWS * rank / ranks * COLUMNS, end = ROWS * (rank + 1) / ranks * COLUMNS;
        for (uint32_t k = first; k < end; k++) {
            temp[k] = htobe32(0x3F800000 + PLACES * t + k);
            precip[k] = htobe16((int)(t + k - first) - 4140);
        }
    }
}

static void write_records(int file, uint32_t n)
{
    write_header(file);
    for (uint32_t t = 0; t < n; t++) {
        make_record(t);
        write_record(file, t);
    }
}

/* The columns of all records, those of one place beside each other. */
static void read_columns(int file, uint32_t n, uint32_t *warm, int16_t *wet)
{
    for (uint32_t t = 0; t < n; t++) {
        read_record(file, t);
        for (uint32_t y = 0; y < ROWS; y++)
            for (int rank = 0; rank < ranks; rank++) {
                *warm++ = be32toh(temp[y * COLUMNS + rank * COLUMN_STEP]);
                *wet++ = (int16_t)be16toh(precip[y * COLUMNS + rank * COLUMN_STEP]);
            }
    }
}

static void say_records(uint32_t n)
{
    say_calls(0, 1, "buffer_attach");
    for (uint32_t t = 0; t < n; t++) {
        say_calls(3 * t + 1, 2, "bput_vara");
        say_calls(3 * t + 3, 1, "wait_all");
        say_of("  ", 2 * t);
        say_of(" ok\n  ", 2 * t + 1);
        say(" ok\n");
    }
}

static void say_columns(uint32_t n, int rank, const uint32_t *warm, const int16_t *wet, uint32_t first)
{
    say_call(3 * n + 1, "get_vara_all");
    for (uint32_t k = 0; k < n * ROWS; k++)
        say_bits(warm[k * ranks + rank], 8);
    say("\n");
    say_call(3 * n + 2, "get_vara_all");
    for (uint32_t k = 0; k < n * ROWS; k++)
        say_of(" ", wet[k * ranks + rank]);
    say("\n");
    say_calls(3 * n + 3, 1, "buffer_detach");
    say_call(3 * n + 4, "get_var1_all");
    say_bits(first, 8);
    say("\n");
}

/* n records of two fields, a column of all of them read back for each rank, and an element. */
int fields(int file, uint32_t n)
{
    uint32_t *warm = room((size_t)n * ROWS * ranks, sizeof *warm), first;
    int16_t *wet = room((size_t)n * ROWS * ranks, sizeof *wet);
    define(n);
    write_records(file, n);
    read_columns(file, n, warm, wet);
    read_at(file, &first, sizeof first, begin_of(0));
    say_start(n + 3);
    for (int rank = 0; rank < ranks; rank++) {
        say_rank(rank);
        say_records(n);
        say_columns(n, rank, warm, wet, be32toh(first));
        say_end_of_rank();
    }
    say_dataset();
    free(warm);
    free(wet);
    return 0;
}

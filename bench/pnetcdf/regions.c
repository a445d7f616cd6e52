/* Rows of one variable in rows, of which the ranks write or read rows, columns or single pieces. */
#include "rows.h"

enum { NARROW = 32, WIDE = 1024, DOUBLES = 1 << 17, STEP = 512 };     /* doubles of a row; of so many of 1 MiB one is read */
enum { PARTS = 1000, PART = 8 };                           /* regions of a call, and floats of one */
enum { COLUMN = 3 };                                       /* the column that is read */

static uint64_t *doubles;
static int *ints;

static int define(int dataset, const char *name, MPI_Offset height, MPI_Offset width, nc_type type)
{
    int dims[] = {dimension(dataset, "y", height), dimension(dataset, "x", width)}, id = variable(dataset, name, -1, type, 2, dims);
    check(ncmpi_enddef(dataset));
    return id;
}

/* ---- rows and columns that are dealt */

static void make_rows(int n, int width)
{
    doubles = run_of_doubles((size_t)dealt(n) * width, (uint64_t)rank << 32);
}

static void put_rows(int dataset, int v, int n, int width)
{
    MPI_Offset start[] = {dealt(n) > 0 ? rank : 0, 0}, count[] = {dealt(n), width}, stride[] = {ranks, 1};
    check(ncmpi_put_vars_double_all(dataset, v, start, count, stride, (const double *)doubles));
}

static void make_cyclic_rows(int n)
{
    make_rows(n, NARROW);
}

static void cyclic_rows(int n)
{
    int dataset = created();
    put_rows(dataset, define(dataset, "v", n, NARROW, NC_DOUBLE), n, NARROW);
    check(ncmpi_close(dataset));
}

static void make_cyclic_columns(int n)
{
    doubles = run_of_doubles((size_t)n / WIDE * dealt(WIDE), (uint64_t)rank << 32);
}

static void cyclic_columns(int n)
{
    int dataset = created(), v = define(dataset, "v", n / WIDE, WIDE, NC_DOUBLE);
    MPI_Offset start[] = {0, rank}, count[] = {n / WIDE, dealt(WIDE)}, stride[] = {1, ranks};
    check(ncmpi_put_vars_double_all(dataset, v, start, count, stride, (const double *)doubles));
    check(ncmpi_close(dataset));
}

static void make_aggregators(int n)
{
    make_rows(n, DOUBLES);
}

/* An element of each 4 KiB, and one more. */
static void get_steps(int dataset, int field, int n)
{
    MPI_Offset start[] = {dealt(n) > 0 ? rank : 0, 0}, count[] = {dealt(n), DOUBLES / STEP}, stride[] = {ranks, STEP}, place[] = {0, 0};
    double value;
    check(ncmpi_get_vars_double_all(dataset, field, start, count, stride, (double *)doubles));
    check(ncmpi_get_var1_double_all(dataset, field, place, &value));
}

static void aggregators(int n)
{
    int dataset = created(), field = define(dataset, "field", n, DOUBLES, NC_DOUBLE);
    put_rows(dataset, field, n, DOUBLES);
    get_steps(dataset, field, n);
    check(ncmpi_close(dataset));
}

static void make_reads(int n)
{
    make_rows(n, DOUBLES / STEP);
}

static void reads(int n)
{
    int dataset = opened();
    get_steps(dataset, found(dataset, "field", -1), n);
    check(ncmpi_close(dataset));
}

static void reads_by_mib(int n)
{
    buffer_size = "1048576";
    reads(n);
}

/* ---- single pieces */

static uint32_t *pieces;
static MPI_Offset (*places)[2], **starts, **counts;

static void make_varn(int n)
{
    static MPI_Offset one[] = {1, PART};
    pieces = run_of_words((size_t)n * PARTS * PART, 0x3F000000);
    places = room((size_t)n * PARTS, sizeof *places);
    starts = room((size_t)n * PARTS, sizeof *starts);
    counts = room(PARTS, sizeof *counts);
    for (int k = 0; k < PARTS; k++)
        counts[k] = one;
    for (int call = 0; call < n; call++)
        for (int k = 0; k < PARTS; k++) {
            MPI_Offset *place = places[call * PARTS + k];
            place[0] = k * ranks + rank;
            place[1] = (k * 13 + call * 7) % (WIDE / PART) * PART;
            starts[call * PARTS + k] = place;
        }
}

static void varn(int n)
{
    int dataset = created(), v = define(dataset, "v", (MPI_Offset)PARTS * ranks, WIDE, NC_FLOAT);
    for (int call = 0; call < n; call++)
        check(ncmpi_put_varn_float_all(dataset, v, PARTS, starts + call * PARTS, counts, (const float *)pieces + (size_t)call * PARTS * PART));
    check(ncmpi_close(dataset));
}

static void make_column(int n)
{
    ints = room(n, sizeof *ints);
}

static void column(int n)
{
    int dataset = opened(), v = found(dataset, "v", -1), value;
    MPI_Offset start[] = {0, COLUMN}, count[] = {n, 1}, place[] = {0, 0};
    check(ncmpi_get_vara_int_all(dataset, v, start, count, ints));
    check(ncmpi_get_var1_int_all(dataset, v, place, &value));
    check(ncmpi_close(dataset));
}

const struct row region_rows[] = {
    {"cyclic_rows", make_cyclic_rows, cyclic_rows},
    {"cyclic_columns", make_cyclic_columns, cyclic_columns},
    {"aggregators", make_aggregators, aggregators},
    {"reads", make_reads, reads},
    {"reads_by_mib", make_reads, reads_by_mib},
    {"varn", make_varn, varn},
    {"column", make_column, column},
    {NULL, NULL, NULL},
};

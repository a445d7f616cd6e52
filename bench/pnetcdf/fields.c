/* Rows of fields: of bands over records, and of blocks of three dimensions. */
#include "rows.h"

enum { BAND_ROWS = 180, COLUMNS = 360, COLUMN_STEP = 45, ATTACHED = 1 << 19 };     /* a record of a field, and the bytes that all ranks attach */

static const MPI_Offset sizes[3] = {128, 128, 64};         /* of a field of 4 MiB */

/* ---- bands over records */

static float *warm, *warm_column;
static short *wet, *wet_column;
static MPI_Offset first_row, own_rows;

static MPI_Offset band(void)
{
    return own_rows * COLUMNS;
}

static void make_fields(int n)
{
    first_row = BAND_ROWS * rank / ranks;
    own_rows = BAND_ROWS * (rank + 1) / ranks - first_row;
    warm = room((size_t)n * band(), sizeof *warm);
    wet = room((size_t)n * band(), sizeof *wet);
    warm_column = room((size_t)n * BAND_ROWS, sizeof *warm_column);
    wet_column = room((size_t)n * BAND_ROWS, sizeof *wet_column);
    for (int t = 0; t < n; t++)
        for (int k = 0; k < band(); k++) {
            uint32_t bits = 0x3F800000 + BAND_ROWS * COLUMNS * (uint32_t)t + COLUMNS * (uint32_t)first_row + (uint32_t)k;
            memcpy(&warm[t * band() + k], &bits, sizeof bits);
            wet[t * band() + k] = (short)(t - 4140 + k);
        }
}

/* Posts a rank's band of one record of both fields, and waits for both. */
static void put_record(int dataset, int temp, int precip, int t)
{
    int id[2], status[2];
    MPI_Offset start[] = {t, first_row, 0}, count[] = {1, own_rows, COLUMNS};
    check(ncmpi_bput_vara_float(dataset, temp, start, count, warm + t * band(), &id[0]));
    check(ncmpi_bput_vara_short(dataset, precip, start, count, wet + t * band(), &id[1]));
    check(ncmpi_wait_all(dataset, 2, id, status));
    check(status[0]);
    check(status[1]);
}

static void get_columns(int dataset, int temp, int precip, int n)
{
    float value;
    MPI_Offset start[] = {0, 0, COLUMN_STEP * rank}, count[] = {n, BAND_ROWS, 1}, place[] = {0, 0, 0};
    check(ncmpi_get_vara_float_all(dataset, temp, start, count, warm_column));
    check(ncmpi_get_vara_short_all(dataset, precip, start, count, wet_column));
    check(ncmpi_buffer_detach(dataset));
    check(ncmpi_get_var1_float_all(dataset, temp, place, &value));
}

static void fields(int n)
{
    int dataset = created(), dims[3];
    dims[0] = dimension(dataset, "t", NC_UNLIMITED);
    dims[1] = dimension(dataset, "y", BAND_ROWS);
    dims[2] = dimension(dataset, "x", COLUMNS);
    int temp = variable(dataset, "temp", -1, NC_FLOAT, 3, dims), precip = variable(dataset, "precip", -1, NC_SHORT, 3, dims);
    check(ncmpi_enddef(dataset));
    check(ncmpi_buffer_attach(dataset, ATTACHED / ranks));
    for (int t = 0; t < n; t++)
        put_record(dataset, temp, precip, t);
    get_columns(dataset, temp, precip, n);
    check(ncmpi_close(dataset));
}

/* ---- blocks */

static MPI_Offset start[3], count[3];
static int *fields_of_row;
static uint32_t *block;

/* The first two dimensions are halved where the ranks can be, and the third is divided among what is left. */
static void find_box(void)
{
    int left = ranks, parts[3], place = rank;
    for (int k = 0; k < 3; k++) {
        parts[k] = k == 2 ? left : left % 2 == 0 ? 2 : 1;
        left /= parts[k];
    }
    for (int k = 2; k >= 0; k--) {
        int part = place % parts[k];
        place /= parts[k];
        start[k] = sizes[k] * part / parts[k];
        count[k] = sizes[k] * (part + 1) / parts[k] - start[k];
    }
}

static void make_blocks(int n)
{
    find_box();
    fields_of_row = room(n, sizeof *fields_of_row);
    block = run_of_words(count[0] * count[1] * count[2], 0x3F000000 + ((uint32_t)rank << 20));
}

static void blocks(int n)
{
    int dataset = created(), dims[3];
    for (int k = 0; k < 3; k++)
        dims[k] = dimension(dataset, (const char *[]){"z", "y", "x"}[k], sizes[k]);
    for (int k = 0; k < n; k++)
        fields_of_row[k] = variable(dataset, "v", k, NC_FLOAT, 3, dims);
    check(ncmpi_enddef(dataset));
    for (int k = 0; k < n; k++)
        check(ncmpi_put_vara_float_all(dataset, fields_of_row[k], start, count, (const float *)block));
    check(ncmpi_close(dataset));
}

static void block_reads(int n)
{
    int dataset = opened();
    float value;
    MPI_Offset place[] = {0, 0, 0};
    for (int k = 0; k < n; k++)
        check(ncmpi_get_vara_float_all(dataset, found(dataset, "v", k), start, count, (float *)block));
    check(ncmpi_get_var1_float_all(dataset, found(dataset, "v", 0), place, &value));
    check(ncmpi_close(dataset));
}

const struct row field_rows[] = {
    {"fields", make_fields, fields},
    {"blocks", make_blocks, blocks},
    {"block_reads", make_blocks, block_reads},
    {NULL, NULL, NULL},
};

/* Rows of many calls, of headers, and of values of the script and of the format. */
#include "rows.h"

enum { RECORD = 1024, POSTS = 100, SHARE = 256 };          /* floats of a record, posts of a step, and floats of a rank's post */
enum { MIB = 1 << 18, LINE = 1 << 20 };                    /* ints of a MiB, and numbers of a call */

static void *values;
static int *variables_of_row;
static MPI_Offset first, count;

/* ---- one rank */

static void calls(int n)
{
    int dataset = created(), x = dimension(dataset, "x", n), v = variable(dataset, "v", -1, NC_INT, 1, &x);
    check(ncmpi_enddef(dataset));
    for (int k = 0; k < n; k++) {
        MPI_Offset place = k;
        check(ncmpi_put_var1_int_all(dataset, v, &place, &k));
    }
    check(ncmpi_close(dataset));
}

static void attributes(int n)
{
    int dataset = opened(), v = found(dataset, "v", -1);
    check(ncmpi_redef(dataset));
    for (int k = 0; k < n; k++) {
        char name[16];
        sprintf(name, "a%d", k);
        check(ncmpi_put_att_int(dataset, v, name, NC_INT, 1, &k));
    }
    check(ncmpi_enddef(dataset));
    check(ncmpi_close(dataset));
}

static void header(int n)
{
    (void)n;
    int dataset = opened(), value;
    MPI_Offset place = 0;
    check(ncmpi_get_var1_int_all(dataset, found(dataset, "v", 0), &place, &value));
    check(ncmpi_close(dataset));
}

static void make_numbers(int n)
{
    (void)n;
    int *row = values = room(LINE, sizeof *row);
    for (long k = 0; k < LINE; k++)
        row[k] = 1000 + (int)(k * 7919 % 9000);
}

static void numbers(int n)
{
    int dataset = created(), dims[] = {dimension(dataset, "y", n), dimension(dataset, "x", LINE)};
    int v = variable(dataset, "v", -1, NC_INT, 2, dims);
    check(ncmpi_enddef(dataset));
    for (int k = 0; k < n; k++) {
        MPI_Offset start[] = {k, 0}, size[] = {1, LINE};
        check(ncmpi_put_vara_int_all(dataset, v, start, size, values));
    }
    check(ncmpi_close(dataset));
}

/* ---- all ranks, a few bytes a call */

static void make_variables(int n)
{
    variables_of_row = room(n, sizeof *variables_of_row);
}

/* An element of each of n variables over so many dimensions. */
static void put_elements(int dataset, int n, int rank_of_variable, const int *dims)
{
    for (int k = 0; k < n; k++)
        variables_of_row[k] = variable(dataset, "v", k, NC_INT, rank_of_variable, dims);
    check(ncmpi_enddef(dataset));
    for (int k = 0; k < n; k++) {
        int value = ranks * k + rank;
        MPI_Offset start[] = {0, rank}, size[] = {1, 1};
        check(ncmpi_put_vara_int_all(dataset, variables_of_row[k], start + 2 - rank_of_variable, size, &value));
    }
    check(ncmpi_close(dataset));
}

static void small(int n)
{
    int dataset = created(), x = dimension(dataset, "x", ranks);
    put_elements(dataset, n, 1, &x);
}

static void variables(int n)
{
    int dataset = created(), dims[] = {dimension(dataset, "t", NC_UNLIMITED), dimension(dataset, "x", ranks)};
    put_elements(dataset, n, 2, dims);
}

static void make_steps(int n)
{
    first = (MPI_Offset)RECORD * rank / ranks;
    count = (MPI_Offset)RECORD * (rank + 1) / ranks - first;
    values = room(n, sizeof(uint32_t) * count);
    for (int t = 0; t < n; t++)
        for (int x = 0; x < count; x++)
            ((uint32_t *)values)[t * count + x] = 0x3F000000 + RECORD * (uint32_t)t + (uint32_t)first + (uint32_t)x;
}

static void steps(int n)
{
    int dataset = created(), dims[] = {dimension(dataset, "t", NC_UNLIMITED), dimension(dataset, "x", RECORD)};
    int v = variable(dataset, "v", -1, NC_FLOAT, 2, dims);
    check(ncmpi_enddef(dataset));
    for (int t = 0; t < n; t++) {
        MPI_Offset start[] = {t, first}, size[] = {1, count};
        check(ncmpi_put_vara_float_all(dataset, v, start, size, (float *)values + t * count));
    }
    check(ncmpi_close(dataset));
}

static void make_posts(int n)
{
    (void)n;
    make_variables(POSTS);
    uint32_t *post = values = room(POSTS * SHARE, sizeof *post);
    for (uint32_t k = 0; k < POSTS; k++)
        for (uint32_t x = 0; x < SHARE; x++)
            post[SHARE * k + x] = 0x3F000000 + k + SHARE * (uint32_t)rank + x;
}

static void post_record(int dataset, int t)
{
    int id[POSTS], status[POSTS];
    MPI_Offset start[] = {t, (MPI_Offset)SHARE * rank}, size[] = {1, SHARE};
    for (int k = 0; k < POSTS; k++)
        check(ncmpi_iput_vara_float(dataset, variables_of_row[k], start, size, (float *)values + SHARE * k, &id[k]));
    check(ncmpi_wait_all(dataset, POSTS, id, status));
}

static void posted(int n)
{
    int dataset = created(), dims[] = {dimension(dataset, "t", NC_UNLIMITED), dimension(dataset, "x", (MPI_Offset)SHARE * ranks)};
    for (int k = 0; k < POSTS; k++)
        variables_of_row[k] = variable(dataset, "f", k, NC_FLOAT, 2, dims);
    check(ncmpi_enddef(dataset));
    for (int t = 0; t < n; t++)
        post_record(dataset, t);
    check(ncmpi_close(dataset));
}

static void independent(int n)
{
    int dataset = created(), dims[] = {dimension(dataset, "r", ranks), dimension(dataset, "x", n)};
    int v = variable(dataset, "v", -1, NC_INT, 2, dims);
    check(ncmpi_enddef(dataset));
    check(ncmpi_begin_indep_data(dataset));
    for (int k = 0; k < n; k++) {
        MPI_Offset place[] = {rank, k};
        int value = n * rank + k;
        check(ncmpi_put_var1_int(dataset, v, place, &value));
    }
    check(ncmpi_end_indep_data(dataset));
    check(ncmpi_close(dataset));
}

/* ---- no call */

static void fill(int n)
{
    int dataset = created(), before;
    check(ncmpi_set_fill(dataset, NC_FILL, &before));
    int x = dimension(dataset, "x", (MPI_Offset)n * MIB);
    variable(dataset, "v", -1, NC_INT, 1, &x);
    check(ncmpi_enddef(dataset));
    check(ncmpi_close(dataset));
}

const struct row call_rows[] = {
    {"calls", NULL, calls},
    {"attributes", NULL, attributes},
    {"header", NULL, header},
    {"numbers", make_numbers, numbers},
    {"small", make_variables, small},
    {"variables", make_variables, variables},
    {"steps", make_steps, steps},
    {"posted", make_posts, posted},
    {"independent", NULL, independent},
    {"fill", NULL, fill},
    {NULL, NULL, NULL},
};
